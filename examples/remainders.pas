{ Division cuts toward zero, and mod is never negative. A sign covers the whole first term. }
program remainders(output);
var
  dividend, divisor: integer;
  exact: Boolean;
begin
  dividend := -7;
  divisor := 2;
  exact := dividend mod divisor = 0;
  writeln(dividend div divisor:4, dividend mod divisor:4, exact:6);
  writeln(-7 mod 2:4, abs(dividend):4, odd(dividend):6)
end.
