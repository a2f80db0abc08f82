local X, R = 12345, 0
local max, min, abs = math.max, math.min, math.abs

local function scan()
  for I = 1, 100 do
    X = (X * 1103515245 + 12345) % 2147483648
    local Y = max(min(X // 1000, 1000000), 17) - abs(500000 - X % 1000000)
    R = min(max(R + Y, 0), 1000000000)
  end
end

for _ = 1, tonumber(arg[1]) do scan() end
print(R)
