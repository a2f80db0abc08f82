local X = {}
for K = 0, 15 do X[K] = false end
local Run, Stop, Alarm, Lamp, Motor, Ok, R = false, false, false, false, false, false, 0

local function scan()
  for K = 0, 15 do
    X[K] = (not X[K]) ~= Run
    Ok = (X[K] and not Alarm) or Stop
    Motor = (Run or Motor) and Ok and not Stop
    Lamp = Motor ~= X[K]
    if Lamp and (Ok or Run) then
      R = R + 1
      if R > 32767 then R = R - 65536 end
    end
    Run = (not Motor) and (X[0] or not Lamp)
    Alarm = Lamp and Motor and not Run
  end
end

for _ = 1, tonumber(arg[1]) do scan() end
print(R)
