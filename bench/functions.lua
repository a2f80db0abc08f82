local R = 0

local function Scale(V, Lo, Hi) return math.min(math.max((V - Lo) * 1000 // (Hi - Lo), 0), 1000) end

local function Mean(A, B) return (Scale(A, 0, 4095) + Scale(B, 0, 4095)) // 2 end

local function scan()
  for I = 1, 200 do R = (R + Mean(I * 13, I * 17)) % 100000 end
end

for _ = 1, tonumber(arg[1]) do scan() end
print(R)
