local T, R = {}, 0
for I = 1, 50 do T[I] = { Level = 0, Inflow = 0, Outflow = 0, Valve = false, High = false } end

local function scan()
  for I = 1, 50 do
    local t = T[I]
    t.Inflow = I % 7 + 1
    if t.Valve then t.Outflow = 9 else t.Outflow = 0 end
    t.Level = t.Level + t.Inflow - t.Outflow
    t.High = t.Level > 800
    if t.High then t.Valve = true end
    if t.Level < 100 then t.Valve = false end
    R = (R + t.Level) % 1000003
  end
end

for _ = 1, tonumber(arg[1]) do scan() end
print(R)
