{ Finds a way through a maze and marks it by dots; the input has the maze, with # for a wall. }
program maze(input, output);
const
  height = 8;
  width = 16;
type
  field = (wall, free, seen, way);
var
  map: array [0..height, 0..width] of field;
  i, j: integer;
  found: Boolean;
  c: char;

procedure visit(i, j: integer);
begin
  if map[i, j] = free then
  begin
    map[i, j] := seen;
    if (i = height - 1) and (j = width - 1) then
      found := true;
    if not found then visit(i + 1, j);
    if not found then visit(i, j + 1);
    if not found then visit(i - 1, j);
    if not found then visit(i, j - 1);
    if found then
      map[i, j] := way
  end
end;

begin
  for i := 0 to height do
    for j := 0 to width do
      map[i, j] := wall;
  i := 1;
  while not eof and (i < height) do
  begin
    j := 1;
    while not eoln and (j < width) do
    begin
      read(c);
      if c <> '#' then
        map[i, j] := free;
      j := j + 1
    end;
    readln;
    i := i + 1
  end;
  found := false;
  visit(1, 1);
  for i := 1 to height - 1 do
  begin
    for j := 1 to width - 1 do
      case map[i, j] of
        wall: write('#');
        free, seen: write(' ');
        way: write('.')
      end;
    writeln
  end;
  if not found then
    writeln('there is no way')
end.
