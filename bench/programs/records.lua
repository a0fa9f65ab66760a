local last, bookings = 100, 100000
local book = {}
for i = 1, last do book[i] = { number = i, moves = 0, balance = 0 } end
local seed = 1
for booking = 1, bookings do
  seed = (seed * 1309 + 13849) % 65536
  local wanted = (seed // 64) * (seed // 64) // 1024 * last // 1024 + 1
  local i = 1
  while i < last and book[i].number ~= wanted do i = i + 1 end
  local account = book[i]
  account.moves = account.moves + 1
  account.balance = (account.balance + seed) % 1000003
  if i > 1 then book[i - 1], book[i] = account, book[i - 1] end
end
local sum = 0
for i = 1, last do
  local account = book[i]
  sum = (sum * 31 + account.number * 7 + account.moves + account.balance) % 1000003
end
print(sum)
