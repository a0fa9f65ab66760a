{ Caesar's cipher: each letter of the input is shifted by the key, which stands in the first line. }
program caesar(input, output);
var
  key: integer;
  c: char;

function shifted(c, first: char): char;
begin
  shifted := chr((ord(c) - ord(first) + key) mod 26 + ord(first))
end;

begin
  readln(key);
  key := key mod 26;
  while not eof do
  begin
    while not eoln do
    begin
      read(c);
      if c in ['a'..'z'] then
        write(shifted(c, 'a'))
      else if c in ['A'..'Z'] then
        write(shifted(c, 'A'))
      else
        write(c)
    end;
    readln;
    writeln
  end
end.
