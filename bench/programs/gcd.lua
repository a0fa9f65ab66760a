local sum = 0
for i = 1, 2000 do
  for j = 1, 2000 do
    local a, b = i, j
    while b > 0 do
      local r = a % b
      a = b
      b = r
    end
    sum = (sum + a) % 1000003
  end
end
print(sum)
