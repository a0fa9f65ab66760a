program tak(output);
{ The function of Takeuchi, whose calls have calls as parameters. }
const
  first = 24;
  second = 17;
  third = 8;

function t(x, y, z: integer): integer;
begin
  if y < x then
    t := t(t(x - 1, y, z), t(y - 1, z, x), t(z - 1, x, y))
  else
    t := z
end;

begin
  writeln(t(first, second, third): 1)
end.
