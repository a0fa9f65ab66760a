{ All 92 ways to put eight queens on a board so that none attacks another, by trial and error, after Wirth. }
program queens(output);
const
  size = 8;
  sums = 16;
  most = 7;
type
  row = 1..size;
var
  count: integer;
  free: array [row] of Boolean;
  rising: array [2..sums] of Boolean;
  falling: array [-most..most] of Boolean;
  queen: array [row] of row;

procedure clear;
var
  i: integer;
begin
  for i := 1 to size do
    free[i] := true;
  for i := 2 to sums do
    rising[i] := true;
  for i := -most to most do
    falling[i] := true;
  count := 0
end;

procedure show;
var
  k: row;
begin
  count := count + 1;
  write(count: 3, ':');
  for k := 1 to size do
    write(queen[k]: 2);
  writeln
end;

procedure try(i: row);
var
  j: row;
begin
  for j := 1 to size do
    if free[j] and rising[i + j] and falling[i - j] then
    begin
      queen[i] := j;
      free[j] := false;
      rising[i + j] := false;
      falling[i - j] := false;
      if i < size then
        try(i + 1)
      else
        show;
      free[j] := true;
      rising[i + j] := true;
      falling[i - j] := true
    end
end;

begin
  clear;
  try(1)
end.
