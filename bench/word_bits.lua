local Crc, R = 0xFFFF, 0

local function scan()
  for I = 0, 31 do
    Crc = Crc ~ ((I * 7) & 0xFFFF)
    for B = 1, 8 do
      local Low = Crc & 1
      Crc = Crc >> 1
      if Low ~= 0 then Crc = Crc ~ 0xA001 end
    end
  end
  R = Crc
end

for _ = 1, tonumber(arg[1]) do scan() end
print(R)
