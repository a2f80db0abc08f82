local function ramp() return { Out = 0, Done = false } end

local function run(s, Target, Rate)
  if s.Out < Target then s.Out = math.min(s.Out + Rate, Target)
  elseif s.Out > Target then s.Out = math.max(s.Out - Rate, Target) end
  s.Done = s.Out == Target
end

local A, B, C, D, E, F, G, H = ramp(), ramp(), ramp(), ramp(), ramp(), ramp(), ramp(), ramp()
local R = 0

local function scan()
  for N = 1, 20 do
    run(A, 1000, 3); run(B, A.Out, 5); run(C, B.Out, 7); run(D, C.Out, 2)
    run(E, 0 - A.Out, 3); run(F, E.Out, 1); run(G, F.Out, 4); run(H, G.Out + D.Out, 6)
    if H.Done then R = R + 1 end
  end
end

for _ = 1, tonumber(arg[1]) do scan() end
print(R)
