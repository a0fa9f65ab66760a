{ Reads the names and the points of a class, sorts them by points, and writes them with their mean. }
program marks(input, output);
const
  most = 30;
  width = 10;
type
  text10 = packed array [1..width] of char;
  pupil = record
    name: text10;
    points: 0..100
  end;
var
  class: array [1..most] of pupil;
  n, i, sum: integer;

procedure readname(var s: text10);
var
  i: integer;
  c: char;
begin
  s := '          ';
  i := 0;
  c := 'x';
  while (c <> ' ') and not eoln do
  begin
    read(c);
    if (c <> ' ') and (i < width) then
    begin
      i := i + 1;
      s[i] := c
    end
  end
end;

procedure sort;
var
  i, j: integer;
  p: pupil;
begin
  for i := 2 to n do
  begin
    p := class[i];
    j := i - 1;
    while j > 0 do
      if class[j].points < p.points then
      begin
        class[j + 1] := class[j];
        j := j - 1;
        class[j + 1] := p
      end
      else
        j := 0
  end
end;

begin
  n := 0;
  while not eof and (n < most) do
  begin
    n := n + 1;
    with class[n] do
    begin
      readname(name);
      readln(points)
    end
  end;
  sort;
  sum := 0;
  for i := 1 to n do
    with class[i] do
    begin
      writeln(name, points: 4);
      sum := sum + points
    end;
  if n > 0 then
    writeln('mean      ', sum div n: 4)
end.
