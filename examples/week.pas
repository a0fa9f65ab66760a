program week(output);
{ The hours that are worked on each day of a week, and their sum. }
const
  long = 9;
  short = 6;
type
  day = (monday, tuesday, wednesday, thursday, friday, saturday, sunday);
  hours = 0..long;
var
  today: day;
  worked: hours;
  sum: integer;
begin
  sum := 0;
  for today := monday to sunday do
  begin
    case today of
      monday, tuesday, wednesday, thursday: worked := long;
      friday: worked := short;
      saturday, sunday: worked := 0
    end;
    write(worked: 3);
    sum := (sum + worked) mod 1000
  end;
  writeln(sum: 5)
end.
