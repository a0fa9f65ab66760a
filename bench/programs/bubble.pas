program bubble(output);
{ Numbers by chance are sorted by exchanges of neighbours. }
const
  last = 3000;
type
  index = 1..last;
var
  a: array [index] of integer;
  i, j, seed, other: integer;
begin
  seed := 1;
  for i := 1 to last do
  begin
    seed := (seed * 1309 + 13849) mod 65536;
    a[i] := seed
  end;
  for i := last downto 2 do
    for j := 1 to i - 1 do
      if a[j] > a[j + 1] then
      begin
        other := a[j];
        a[j] := a[j + 1];
        a[j + 1] := other
      end;
  writeln(a[1]:1, ' ', a[last div 2]:1, ' ', a[last]:1)
end.
