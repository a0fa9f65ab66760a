{ The calendar of a month; the input has the year and the month. }
program calendar(input, output);
type
  month = 1..12;
  days = 1..31;
var
  y, m: integer;

function leap(year: integer): Boolean;
begin
  leap := (year mod 4 = 0) and ((year mod 100 <> 0) or (year mod 400 = 0))
end;

function length(year: integer; which: month): days;
begin
  case which of
    1, 3, 5, 7, 8, 10, 12:
      length := 31;
    4, 6, 9, 11:
      length := 30;
    2:
      if leap(year) then
        length := 29
      else
        length := 28
  end
end;

{ The weekday of the first of January: 0 is Monday. }
function newyear(year: integer): integer;
var
  before: integer;
begin
  before := year - 1;
  newyear := (before + before div 4 - before div 100 + before div 400) mod 7
end;

procedure print(year: integer; which: month);
var
  first: integer;
  m: month;
  d: days;
begin
  first := newyear(year);
  for m := 1 to which do
    if m < which then
      first := (first + length(year, m)) mod 7;
  writeln(' Mo Tu We Th Fr Sa Su');
  if first > 0 then
    write(' ': 3 * first);
  for d := 1 to length(year, which) do
  begin
    write(d: 3);
    if (first + d) mod 7 = 0 then
      writeln
  end;
  writeln
end;

begin
  readln(y, m);
  if (y >= 1583) and (y <= 9999) and (m >= 1) and (m <= 12) then
    print(y, m)
  else
    writeln('year 1583 to 9999 and month 1 to 12, please')
end.
