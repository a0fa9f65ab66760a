program gcd(output);
{ Adds up the greatest common divisors of all pairs of numbers up to a limit. }
var
  i, j, a, b, r, sum: integer;
begin
  sum := 0;
  for i := 1 to 2000 do
    for j := 1 to 2000 do
    begin
      a := i;
      b := j;
      while b > 0 do
      begin
        r := a mod b;
        a := b;
        b := r
      end;
      sum := (sum + a) mod 1000003
    end;
  writeln(sum: 1)
end.
