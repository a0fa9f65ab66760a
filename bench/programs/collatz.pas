program collatz(output);
{ The number below a limit whose sequence takes the most steps to come to 1. }
var
  start, n, steps, longest, found: integer;
begin
  longest := 0;
  found := 1;
  for start := 1 to 113382 do
  begin
    n := start;
    steps := 0;
    while n <> 1 do
    begin
      if odd(n) then n := 3 * n + 1
      else n := n div 2;
      steps := steps + 1
    end;
    if steps > longest then
    begin
      longest := steps;
      found := start
    end
  end;
  writeln(found: 1, longest: 4)
end.
