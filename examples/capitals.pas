program capitals(input, output);
{ Copies its input, with a capital for each small letter. }
var
  c: char;

begin
  while not eof do
    if eoln then
    begin
      readln;
      writeln
    end
    else
    begin
      read(c);
      if (c >= 'a') and (c <= 'z') then
        c := chr(ord(c) - ord('a') + ord('A'));
      write(c)
    end
end.
