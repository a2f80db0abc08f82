local A, Seed, R = {}, 1, 0

local function scan()
  for I = 0, 63 do Seed = (Seed * 137 + 29) % 9973; A[I] = Seed end
  for I = 1, 63 do
    local K, J = A[I], I - 1
    while J >= 0 do
      if A[J] <= K then break end
      A[J + 1] = A[J]
      J = J - 1
    end
    A[J + 1] = K
  end
  R = A[0] * 10000 + A[63]
end

for _ = 1, tonumber(arg[1]) do scan() end
print(R)
