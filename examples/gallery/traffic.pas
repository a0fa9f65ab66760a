{ A traffic light with a button for those on foot. The input has a character for each second: b is the button. }
program traffic(input, output);
type
  light = (red, redamber, green, amber);
var
  cars: light;
  walk, wish: Boolean;
  timer: 0..60;
  c: char;

function time(l: light): integer;
begin
  case l of
    red: time := 8;
    redamber: time := 2;
    green: time := 10;
    amber: time := 3
  end
end;

procedure enter(l: light);
begin
  cars := l;
  timer := time(l);
  walk := (l = red) and wish;
  if walk then
    wish := false
end;

procedure show;
begin
  case cars of
    red: write('R  ');
    redamber: write('RA ');
    green: write('G  ');
    amber: write('A  ')
  end;
  if walk then
    writeln('walk')
  else
    writeln('stop')
end;

procedure second;
begin
  if timer > 0 then
    timer := timer - 1
  else if cars = amber then
    enter(red)
  else if (cars <> green) or wish then
    enter(succ(cars))
end;

begin
  wish := false;
  enter(red);
  while not eof do
  begin
    while not eoln do
    begin
      read(c);
      if c = 'b' then
        wish := true;
      second;
      show
    end;
    readln
  end
end.
