{ A magic square of odd order, by the Siamese method. }
program magic(output);
const
  n = 5;
type
  index = 0..4;
var
  square: array [index, index] of integer;
  row, column, i, j: index;
  k: integer;
begin
  for i := 0 to n - 1 do
    for j := 0 to n - 1 do
      square[i, j] := 0;
  row := 0;
  column := n div 2;
  for k := 1 to n * n do
  begin
    square[row, column] := k;
    if k mod n = 0 then
      row := (row + 1) mod n
    else
    begin
      row := (row + n - 1) mod n;
      column := (column + 1) mod n
    end
  end;
  for i := 0 to n - 1 do
  begin
    for j := 0 to n - 1 do
      write(square[i, j]: 4);
    writeln
  end
end.
