{ Pascal's triangle, row by row in one array. }
program triangle(output);
const
  rows = 12;
var
  line: array [0..rows] of integer;
  n, k: integer;
begin
  line[0] := 1;
  for n := 0 to rows do
  begin
    write(' ': 3 * (rows - n) + 1);
    for k := 0 to n do
      write(line[k]: 6);
    writeln;
    line[n + 1] := 1;
    for k := n downto 1 do
      line[k] := line[k] + line[k - 1]
  end
end.
