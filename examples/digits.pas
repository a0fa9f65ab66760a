program digits(output);
{ Which digits the squares of the numbers from 1 on have, until none is missing. }
type
  figures = set of 0..9;
var
  seen, all: figures;
  n, rest: integer;
  d: 0..9;
begin
  all := [0..9];
  seen := [];
  n := 0;
  while (seen <> all) and (n < 1000) do
  begin
    n := n + 1;
    rest := n * n;
    while rest > 0 do
    begin
      seen := seen + [rest mod 10];
      rest := rest div 10
    end
  end;
  writeln('missing behind ', n: 1, ': ', ord(all - seen = []): 1);
  seen := seen * [1, 3..5, 9];
  for d := 0 to 9 do
    if d in seen then
      write(d: 2);
  writeln
end.
