program marks(input, output);
{ Reads a mark of 1 to 6 from each line, and writes how often each came; of more than 999 it tells 999. }
const
  most = 999;
var
  mark: 1..6;
  times: array [1..6] of 0..most;
  count: 0..most;

begin
  for mark := 1 to 6 do
    times[mark] := 0;
  while not eof do
  begin
    readln(mark);
    count := times[mark];
    if count < most then
      times[mark] := count + 1
  end;
  for mark := 1 to 6 do
  begin
    count := times[mark];
    if count > 0 then
      writeln(mark: 1, ':', count: 4)
  end
end.
