local members, sets, last, rounds = 32, 1600, 51199, 20
local prime = {}
local count = 0
for round = 1, rounds do
  for i = 0, sets - 1 do prime[i] = 0xffffffff end
  prime[0] = prime[0] & ~3
  for i = 2, last do
    if prime[i // members] >> i % members & 1 ~= 0 then
      count = count + 1
      local multiple = i + i
      while multiple <= last do
        prime[multiple // members] = prime[multiple // members] & ~(1 << multiple % members)
        multiple = multiple + i
      end
    end
  end
end
print(count)
