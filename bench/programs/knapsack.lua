local things, most = 200, 10000
local weight, worth, best = {}, {}, {}
local seed = 1
for i = 1, things do
  seed = (seed * 1309 + 13849) % 65536
  weight[i] = seed % 500 + 1
  seed = (seed * 1309 + 13849) % 65536
  worth[i] = seed % 500 + 1
end
for total = 0, most do best[total] = 0 end
for i = 1, things do
  local heavy = weight[i]
  for total = most, heavy, -1 do
    local gained = best[total - heavy] + worth[i]
    if gained > best[total] then best[total] = gained end
  end
end
print(best[most])
