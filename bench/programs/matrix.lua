local a, b, c = {}, {}, {}
for i = 1, 100 do
  a[i], b[i], c[i] = {}, {}, {}
  for j = 1, 100 do
    a[i][j] = i + j
    b[i][j] = i - j
  end
end
for round = 1, 5 do
  for i = 1, 100 do
    for j = 1, 100 do
      local sum = 0
      for k = 1, 100 do sum = sum + a[i][k] * b[k][j] end
      c[i][j] = sum
    end
  end
end
local total = 0
for i = 1, 100 do total = total + c[i][1] end
print(string.format("%d", total))
