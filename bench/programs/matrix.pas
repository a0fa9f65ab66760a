program matrix(output);
{ The product of two matrices of 100 by 100, again and again; the sum of a column of it. }
const
  size = 100;
  rounds = 5;
type
  index = 1..size;
  row = array [index] of integer;
var
  a, b, c: array [index] of row;
  line, other: row;
  i, j, k, round, sum, total: integer;
begin
  for i := 1 to size do
  begin
    for j := 1 to size do
    begin
      line[j] := i + j;
      other[j] := i - j
    end;
    a[i] := line;
    b[i] := other
  end;
  for round := 1 to rounds do
    for i := 1 to size do
    begin
      for j := 1 to size do
      begin
        sum := 0;
        for k := 1 to size do
          sum := sum + a[i, k] * b[k, j];
        line[j] := sum
      end;
      c[i] := line
    end;
  total := 0;
  for i := 1 to size do
    total := total + c[i, 1];
  writeln(total:1)
end.
