{ A mistake that pcom names before the program runs: the sum passes maxint. }
program overflow(output);
var
  first, sum: integer;
begin
  first := 2147483600;
  sum := first + 100;
  writeln(sum)
end.
