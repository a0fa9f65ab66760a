program records(output);
{ Bookings by chance on accounts. One that is found by its number moves a place to the front. }
const
  last = 100;
  bookings = 100000;
type
  place = 1..last;
  account = record
    number: place;
    moves: 0..bookings;
    balance: integer
  end;
var
  book: array [place] of account;
  other: account;
  i, booking, seed, wanted, sum: integer;
begin
  other.moves := 0;
  other.balance := 0;
  for i := 1 to last do
  begin
    other.number := i;
    book[i] := other
  end;
  seed := 1;
  for booking := 1 to bookings do
  begin
    seed := (seed * 1309 + 13849) mod 65536;
    wanted := sqr(seed div 64) div 1024 * last div 1024 + 1;
    i := 1;
    while (i < last) and (book[i].number <> wanted) do
      i := i + 1;
    with book[i] do
    begin
      moves := moves + 1;
      balance := (balance + seed) mod 1000003
    end;
    if i > 1 then
    begin
      other := book[i - 1];
      book[i - 1] := book[i];
      book[i] := other
    end
  end;
  sum := 0;
  for i := 1 to last do
    with book[i] do
      sum := (sum * 31 + number * 7 + moves + balance) mod 1000003;
  writeln(sum: 1)
end.
