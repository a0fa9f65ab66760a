local longest, found = 0, 1
for start = 1, 113382 do
  local n, steps = start, 0
  while n ~= 1 do
    if n % 2 ~= 0 then n = 3 * n + 1 else n = n // 2 end
    steps = steps + 1
  end
  if steps > longest then
    longest = steps
    found = start
  end
end
print(string.format("%d %3d", found, longest))
