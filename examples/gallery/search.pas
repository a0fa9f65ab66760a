{ Looks a number up in a sorted table by halves; the input has how many numbers there are, these, and the one. }
program search(input, output);
const
  max = 100;
var
  a: array [1..max] of integer;
  n, i, x, low, high, mid: integer;
begin
  read(n);
  if (n < 1) or (n > max) then
    writeln('1 to ', max: 1, ' numbers, please')
  else
  begin
    for i := 1 to n do
      read(a[i]);
    read(x);
    low := 1;
    high := n;
    while low < high do
    begin
      mid := (low + high) div 2;
      if a[mid] < x then
        low := mid + 1
      else
        high := mid
    end;
    if a[low] = x then
      writeln(x: 1, ' stands at ', low: 1)
    else
      writeln(x: 1, ' is not there')
  end
end.
