{ Counts the lines, words and characters of the input, and draws how often each letter comes. }
program textstat(input, output);
type
  letter = 'a'..'z';
var
  lines, words, chars: integer;
  count: array [letter] of integer;
  c: char;
  l: letter;
  inword: Boolean;
  most, i: integer;
begin
  for l := 'a' to 'z' do
    count[l] := 0;
  lines := 0;
  words := 0;
  chars := 0;
  while not eof do
  begin
    inword := false;
    while not eoln do
    begin
      read(c);
      chars := chars + 1;
      if (c >= 'A') and (c <= 'Z') then
        c := chr(ord(c) - ord('A') + ord('a'));
      if (c >= 'a') and (c <= 'z') then
      begin
        count[c] := count[c] + 1;
        if not inword then
          words := words + 1;
        inword := true
      end
      else
        inword := false
    end;
    readln;
    lines := lines + 1
  end;
  writeln('lines', lines: 8);
  writeln('words', words: 8);
  writeln('chars', chars: 8);
  most := 1;
  for l := 'a' to 'z' do
    if count[l] > most then
      most := count[l];
  for l := 'a' to 'z' do
    if count[l] > 0 then
    begin
      write(l, ' ');
      for i := 1 to count[l] * 40 div most do
        write('*');
      writeln
    end
end.
