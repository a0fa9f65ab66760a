{ The towers of Hanoi; each peg is a stack of discs. }
program hanoi(output);
const
  discs = 4;
type
  peg = (left, middle, right);
var
  stack: array [peg, 1..discs] of integer;
  height: array [peg] of 0..discs;
  moves, d: integer;
  p: peg;

procedure name(p: peg);
begin
  case p of
    left: write('left');
    middle: write('middle');
    right: write('right')
  end
end;

procedure shift(from, onto: peg);
var
  disc: integer;
begin
  disc := stack[from, height[from]];
  height[from] := height[from] - 1;
  height[onto] := height[onto] + 1;
  stack[onto, height[onto]] := disc;
  moves := moves + 1;
  write(moves: 3, ': ', disc: 1, ' from ');
  name(from);
  write(' to ');
  name(onto);
  writeln
end;

procedure move(n: integer; from, onto, by: peg);
begin
  if n > 0 then
  begin
    move(n - 1, from, by, onto);
    shift(from, onto);
    move(n - 1, by, onto, from)
  end
end;

begin
  for p := left to right do
    height[p] := 0;
  for d := discs downto 1 do
  begin
    height[left] := height[left] + 1;
    stack[left, height[left]] := d
  end;
  moves := 0;
  move(discs, left, right, middle)
end.
