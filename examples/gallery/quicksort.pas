{ Quicksort, after Wirth, of twenty numbers that a small generator makes. }
program quicksort(output);
const
  n = 20;
type
  index = 1..n;
var
  a: array [index] of integer;
  i: index;
  seed: integer;

function random: integer;
begin
  seed := (seed * 109 + 853) mod 4096;
  random := seed
end;

procedure sort(l, r: index);
var
  i, j, x, w: integer;
begin
  i := l;
  j := r;
  x := a[(l + r) div 2];
  repeat
    while a[i] < x do
      i := i + 1;
    while x < a[j] do
      j := j - 1;
    if i <= j then
    begin
      w := a[i];
      a[i] := a[j];
      a[j] := w;
      i := i + 1;
      j := j - 1
    end
  until i > j;
  if l < j then
    sort(l, j);
  if i < r then
    sort(i, r)
end;

begin
  seed := 7;
  for i := 1 to n do
    a[i] := random;
  sort(1, n);
  for i := 1 to n do
    write(a[i]: 5);
  writeln
end.
