local found, root = 0, 1
for n = 2, 400000 do
  if root < 1000 then
    if (root + 1) * (root + 1) <= n then root = root + 1 end
  end
  local prime = true
  local divisor = 2
  while divisor <= root and prime do
    prime = n % divisor ~= 0
    divisor = divisor + 1
  end
  if prime then found = found + 1 end
end
print(found)
