local prime = {}
local count = 0
for round = 1, 40 do
  for i = 2, 50000 do prime[i] = true end
  for i = 2, 50000 do
    if prime[i] then
      count = count + 1
      local multiple = i + i
      while multiple <= 50000 do
        prime[multiple] = false
        multiple = multiple + i
      end
    end
  end
end
print(count)
