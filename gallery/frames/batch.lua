-- What the frames in Lua share: serve answers a line for each line of base64. It is written for each Lua from 5.1 on.
local ALPHABET = "ABCDEFGHIJKLMNOPQRSTUVWXYZabcdefghijklmnopqrstuvwxyz0123456789+/"

local function decoded(line)
  local bits, count, bytes = 0, 0, {}
  for mark in line:gmatch("[%w+/]") do
    bits, count = bits * 64 + ALPHABET:find(mark, 1, true) - 1, count + 6
    if count >= 8 then
      count = count - 8
      local rest = bits % 2 ^ count
      bytes[#bytes + 1] = string.char((bits - rest) / 2 ^ count)
      bits = rest
    end
  end
  return table.concat(bytes)
end

local function serve(taken)
  for line in io.lines() do
    io.write(taken(decoded(line)) and "taken\n" or "refused\n")
    io.flush()
  end
end

return serve
