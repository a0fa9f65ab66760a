program squares(output);
{ With its certificate no place is named: when a turn begins, the elements before the ith are defined, so behind the
  loop each element of a is. }
const
  last = 8;
type
  index = 1..last;
var
  a, b: array [index] of integer;
  i: integer;
begin
  for i := 1 to last do
    a[i] := i * i;
  b := a;
  writeln(b[last]:1)
end.
