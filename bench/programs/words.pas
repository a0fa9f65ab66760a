program words(output);
{ Texts by chance: how many words they have, how long the longest is, and which letter they have most often. }
const
  last = 20000;
  rounds = 40;
type
  position = 1..last;
  letter = 'a'..'z';
var
  story: packed array [position] of char;
  often: array [letter] of integer;
  i, round, seed, code, blank, length, longest, count: integer;
  c, most: letter;
  next: char;
begin
  for c := 'a' to 'z' do
    often[c] := 0;
  seed := 1;
  count := 0;
  longest := 0;
  for round := 1 to rounds do
  begin
    for i := 1 to last do
    begin
      seed := (seed * 1309 + 13849) mod 65536;
      code := seed div 2048;
      if code < 26 then
        story[i] := chr(ord('a') + code)
      else
        story[i] := ' '
    end;
    story[last] := ' ';
    blank := 0;
    for i := 1 to last do
    begin
      next := story[i];
      if (next >= 'a') and (next <= 'z') then
        often[next] := often[next] + 1
      else
      begin
        length := i - blank - 1;
        if length > 0 then
          count := count + 1;
        if length > longest then
          longest := length;
        blank := i
      end
    end
  end;
  most := 'a';
  for c := 'b' to 'z' do
    if often[c] > often[most] then
      most := c;
  writeln(count: 1, longest: 3, ' ', most, often[most]: 6)
end.
