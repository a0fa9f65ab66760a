{ Holds the level of a tank by a valve: a controller with a proportional part and a part that sums up. }
program control(output);
const
  want = 500;
  gain = 8;
  reset = 2;
  steps = 40;
type
  percent = 0..100;
  level = 0..1000;
var
  tank: level;
  sum, t: integer;
  valve: percent;

function limit(x, low, high: integer): integer;
begin
  if x < low then
    limit := low
  else if x > high then
    limit := high
  else
    limit := x
end;

function controller(measured: level): percent;
var
  error: integer;
begin
  error := want - measured;
  sum := limit(sum + error, -2000, 2000);
  controller := limit((gain * error + reset * sum) div 50, 0, 100)
end;

begin
  tank := 100;
  sum := 0;
  for t := 1 to steps do
  begin
    valve := controller(tank);
    tank := limit(tank + valve - tank div 10, 0, 1000);
    writeln(t: 3, valve: 5, tank: 6)
  end
end.
