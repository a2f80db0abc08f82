local S, R = 0, 0

local function scan()
  for N = 1, 100 do
    if S == 0 then S = 3; R = R + 1
    elseif S == 1 then S = 7
    elseif S == 2 or S == 4 then S = S + 1; R = R + 2
    elseif S == 3 then S = 2
    elseif S >= 5 and S <= 6 then S = 8 - S; R = R - 1
    elseif S == 7 then S = 4
    elseif S >= 8 and S <= 20 then S = 0
    else S = 1 end
  end
end

for _ = 1, tonumber(arg[1]) do scan() end
print(R)
