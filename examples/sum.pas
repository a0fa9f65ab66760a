{ The sum and the difference of two numbers. }
program sum(output);
var
  first, second: integer;
begin
  first := 1200;
  second := 34;
  writeln(first + second);
  writeln(first - second, second - first)
end.
