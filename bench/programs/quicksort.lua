local last, rounds = 10000, 20
local a = {}

local function sort(left, right)
  local low, high, middle = left, right, a[(left + right) // 2]
  while low <= high do
    if a[low] < middle then
      low = low + 1
    elseif a[high] > middle then
      high = high - 1
    else
      a[low], a[high] = a[high], a[low]
      low = low + 1
      high = high - 1
    end
  end
  if left < high then sort(left, high) end
  if low < right then sort(low, right) end
end

local seed, sum = 1, 0
for round = 1, rounds do
  for i = 1, last do
    seed = (seed * 1309 + 13849) % 65536
    a[i] = seed
  end
  sort(1, last)
  sum = (sum + a[1] + a[last // 2] + a[last]) % 1000003
end
print(sum)
