program order(output);
{ Puts three numbers in order, two of them at a time. }

var
  a, b, c: integer;

procedure order(var low, high: integer);
var
  held: integer;
begin
  if low > high then
  begin
    held := low;
    low := high;
    high := held
  end
end;

begin
  a := 9;
  b := 4;
  c := 6;
  order(a, b);
  order(b, c);
  order(a, b);
  writeln(a: 1, b: 2, c: 2)
end.
