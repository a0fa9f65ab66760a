local last, rounds = 20000, 40
local a, z, space = string.byte("az ", 1, 3)
local story, often = {}, {}
for c = a, z do often[c] = 0 end
local seed, count, longest = 1, 0, 0
for round = 1, rounds do
  for i = 1, last do
    seed = (seed * 1309 + 13849) % 65536
    local code = seed // 2048
    if code < 26 then story[i] = a + code else story[i] = space end
  end
  story[last] = space
  local blank = 0
  for i = 1, last do
    local next = story[i]
    if next >= a and next <= z then
      often[next] = often[next] + 1
    else
      local length = i - blank - 1
      if length > 0 then count = count + 1 end
      if length > longest then longest = length end
      blank = i
    end
  end
end
local most = a
for c = a + 1, z do
  if often[c] > often[most] then most = c end
end
print(string.format("%d%3d %c%6d", count, longest, most, often[most]))
