program letters(output);
{ Each letter with the one that stands three places behind it, round the end. }
type letter = 'a'..'z';
var c: letter;
begin
  writeln('plain':8, 'coded':8);
  for c := 'a' to 'z' do
    writeln(c:8, chr((ord(c) - ord('a') + 3) mod 26 + ord('a')):8)
end.
