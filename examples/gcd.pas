program gcd(output);
{ The greatest common divisor of two numbers, by Euclid. With its certificate no place is named. }
var a, b, rest: integer;
begin
  a := 252;
  b := 105;
  while b > 0 do
  begin
    rest := a mod b;
    a := b;
    b := rest
  end;
  writeln(a)
end.
