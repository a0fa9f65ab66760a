{ Plays noughts and crosses against itself, and looks at every game for that. }
program tictactoe(output);
type
  mark = (none, cross, nought);
  place = 1..9;
var
  board: array [place] of mark;
  i: place;
  turn: mark;
  looked: integer;

function line(a, b, c: place; m: mark): Boolean;
begin
  line := (board[a] = m) and (board[b] = m) and (board[c] = m)
end;

function won(m: mark): Boolean;
begin
  won := line(1, 2, 3, m) or line(4, 5, 6, m) or line(7, 8, 9, m) or line(1, 4, 7, m) or line(2, 5, 8, m)
    or line(3, 6, 9, m) or line(1, 5, 9, m) or line(3, 5, 7, m)
end;

function full: Boolean;
var
  i: place;
begin
  full := true;
  for i := 1 to 9 do
    if board[i] = none then
      full := false
end;

function other(m: mark): mark;
begin
  if m = cross then
    other := nought
  else
    other := cross
end;

{ The value of the position for the one whose turn it is: -1, 0 or 1. }
function value(m: mark): integer;
var
  i: place;
  best, v: integer;
begin
  looked := looked + 1;
  if won(other(m)) then
    value := -1
  else if full then
    value := 0
  else
  begin
    best := -1;
    for i := 1 to 9 do
      if board[i] = none then
      begin
        board[i] := m;
        v := -value(other(m));
        board[i] := none;
        if v > best then
          best := v
      end;
    value := best
  end
end;

procedure show;
var
  i: place;
begin
  for i := 1 to 9 do
  begin
    case board[i] of
      none: write('.');
      cross: write('x');
      nought: write('o')
    end;
    if i mod 3 = 0 then
      writeln
  end
end;

procedure play(m: mark);
var
  i: place;
  best, v: integer;
  where: place;
begin
  best := -2;
  where := 1;
  for i := 1 to 9 do
    if board[i] = none then
    begin
      board[i] := m;
      v := -value(other(m));
      board[i] := none;
      if v > best then
      begin
        best := v;
        where := i
      end
    end;
  board[where] := m
end;

begin
  for i := 1 to 9 do
    board[i] := none;
  board[1] := cross;
  turn := nought;
  looked := 0;
  while not full and not won(cross) and not won(nought) do
  begin
    play(turn);
    turn := other(turn)
  end;
  show
end.
