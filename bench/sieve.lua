local F, R = {}, 0

local function scan()
  R = 0
  for I = 2, 4000 do F[I] = true end
  for I = 2, 4000 do
    if F[I] then
      R = R + 1
      local J = I * I
      while J <= 4000 do F[J] = false; J = J + I end
    end
  end
end

for _ = 1, tonumber(arg[1]) do scan() end
print(R)
