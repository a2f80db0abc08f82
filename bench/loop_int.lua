local A, R = {}, 0
for I = 0, 63 do A[I] = 0 end

local function scan()
  R = 0
  for J = 1, 100 do
    for I = 0, 63 do
      A[I] = A[I] + I
      if A[I] > 1000 then A[I] = A[I] - 1000; R = R + 1 end
    end
  end
end

for _ = 1, tonumber(arg[1]) do scan() end
print(R)
