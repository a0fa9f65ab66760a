{ Conway's game of life, on a board with a border in which nothing lives. }
program life(output);
const
  rows = 8;
  columns = 16;
type
  board = array [0..9, 0..17] of Boolean;
var
  now: board;
  generation: integer;

procedure clear(var b: board);
var
  i, j: integer;
begin
  for i := 0 to rows + 1 do
    for j := 0 to columns + 1 do
      b[i, j] := false
end;

procedure show(var b: board);
var
  i, j: integer;
begin
  for i := 1 to rows do
  begin
    for j := 1 to columns do
      if b[i, j] then
        write('#')
      else
        write('.');
    writeln
  end;
  writeln
end;

function neighbours(var b: board; i, j: integer): integer;
var
  n, di, dj: integer;
begin
  n := 0;
  for di := -1 to 1 do
    for dj := -1 to 1 do
      if ((di <> 0) or (dj <> 0)) and b[i + di, j + dj] then
        n := n + 1;
  neighbours := n
end;

procedure step(var b: board);
var
  next: board;
  i, j, n: integer;
begin
  clear(next);
  for i := 1 to rows do
    for j := 1 to columns do
    begin
      n := neighbours(b, i, j);
      next[i, j] := (n = 3) or (b[i, j] and (n = 2))
    end;
  b := next
end;

begin
  clear(now);
  now[1, 2] := true;
  now[2, 3] := true;
  now[3, 1] := true;
  now[3, 2] := true;
  now[3, 3] := true;
  for generation := 1 to 4 do
  begin
    show(now);
    step(now)
  end
end.
