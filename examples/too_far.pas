program largest(output);
const
  last = 5;
var
  a: array [1..last] of integer;
  i, most: integer;
begin
  for i := 1 to last do
    a[i] := i * i mod 7;
  most := a[1];
  for i := 1 to last do
    if a[i + 1] > most then
      most := a[i + 1];
  writeln(most: 1)
end.
