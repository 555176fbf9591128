-- json_lua.lua MODULE: cjson, whose decode raises, or dkjson, whose decode gives a value, a place and a message.
local serve = require("batch")
local module = require(arg[1])

serve(function(text)
  local called, _, place, message = pcall(module.decode, text)
  return called and not message and (not place or text:find("^[ \t\r\n]*$", place))
end)
