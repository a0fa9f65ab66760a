local a = {}
local seed = 1
for i = 1, 3000 do
  seed = (seed * 1309 + 13849) % 65536
  a[i] = seed
end
for i = 3000, 2, -1 do
  for j = 1, i - 1 do
    if a[j] > a[j + 1] then
      local other = a[j]
      a[j] = a[j + 1]
      a[j + 1] = other
    end
  end
end
print(string.format("%d %d %d", a[1], a[1500], a[3000]))
