{ The product of two matrices. }
program matrices(output);
const
  n = 4;
type
  matrix = array [1..n, 1..n] of integer;
var
  a, b, c: matrix;

procedure fill(var m: matrix; step: integer);
var
  i, j: integer;
begin
  for i := 1 to n do
    for j := 1 to n do
      m[i, j] := (i * step + j) mod 10
end;

procedure multiply(var x, y, z: matrix);
var
  i, j, k, sum: integer;
begin
  for i := 1 to n do
    for j := 1 to n do
    begin
      sum := 0;
      for k := 1 to n do
        sum := sum + x[i, k] * y[k, j];
      z[i, j] := sum
    end
end;

procedure show(var m: matrix);
var
  i, j: integer;
begin
  for i := 1 to n do
  begin
    for j := 1 to n do
      write(m[i, j]: 5);
    writeln
  end
end;

begin
  fill(a, 3);
  fill(b, 7);
  multiply(a, b, c);
  show(c)
end.
