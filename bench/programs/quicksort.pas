program quicksort(output);
{ Numbers by chance are sorted by exchanges of elements that lie far apart, and then each part, again and again. }
const
  last = 10000;
  rounds = 20;
type
  index = 1..last;
var
  a: array [index] of integer;
  i, round, seed, sum: integer;

procedure sort(left, right: index);
var
  low, high, middle, other: integer;
begin
  low := left;
  high := right;
  middle := a[(left + right) div 2];
  while low <= high do
    if a[low] < middle then
      low := low + 1
    else if a[high] > middle then
      high := high - 1
    else
    begin
      other := a[low];
      a[low] := a[high];
      a[high] := other;
      low := low + 1;
      high := high - 1
    end;
  if left < high then
    sort(left, high);
  if low < right then
    sort(low, right)
end;

begin
  seed := 1;
  sum := 0;
  for round := 1 to rounds do
  begin
    for i := 1 to last do
    begin
      seed := (seed * 1309 + 13849) mod 65536;
      a[i] := seed
    end;
    sort(1, last);
    sum := (sum + a[1] + a[last div 2] + a[last]) mod 1000003
  end;
  writeln(sum: 1)
end.
