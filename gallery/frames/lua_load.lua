-- The compiler of the Lua that runs this.
local serve = require("batch")

serve(function(text)
  return (loadstring or load)(text)
end)
