program divisor(output);
{ The greatest common divisor, by recursion. }

function gcd(a, b: integer): integer;
begin
  if b = 0 then
    gcd := a
  else
    gcd := gcd(b, a mod b)
end;

begin
  writeln(gcd(1071, 462): 1)
end.
