program queens(output);
{ In how many ways so many queens stand on a board of this size, none of them in reach of another. }
const
  size = 11;
  sums = 22;
  differences = 10;
type
  line = 1..size;
var
  free: array [line] of Boolean;
  rising: array [2..sums] of Boolean;
  falling: array [-differences..differences] of Boolean;
  i, found: integer;

procedure place(row: line);
var
  column: integer;
begin
  for column := 1 to size do
    if free[column] and rising[row + column] and falling[row - column] then
      if row = size then
        found := found + 1
      else
      begin
        free[column] := false;
        rising[row + column] := false;
        falling[row - column] := false;
        place(row + 1);
        free[column] := true;
        rising[row + column] := true;
        falling[row - column] := true
      end
end;

begin
  for i := 1 to size do
    free[i] := true;
  for i := 2 to sums do
    rising[i] := true;
  for i := -differences to differences do
    falling[i] := true;
  found := 0;
  place(1);
  writeln(found: 1)
end.
