-- Luacheck, for Lua 5.4: it refuses a text where it tells an error, by a code that begins with 0, and not a warning.
local serve = require("batch")
local luacheck = require("luacheck")

serve(function(text)
  local report = luacheck.check_strings({text}, {std = "lua54"})
  for _, told in ipairs(report[1]) do
    if told.code:sub(1, 1) == "0" then
      return false
    end
  end
  return not report[1].fatal
end)
