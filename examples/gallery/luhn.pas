{ Checks numbers of cards by their last digit, after Luhn; the input has one in each line. }
program luhn(input, output);
const
  longest = 19;
var
  digit: array [1..longest] of integer;
  n, i, d, sum: integer;
  c: char;
begin
  while not eof do
  begin
    n := 0;
    while not eoln do
    begin
      read(c);
      if (c >= '0') and (c <= '9') and (n < longest) then
      begin
        n := n + 1;
        digit[n] := ord(c) - ord('0')
      end
    end;
    readln;
    sum := 0;
    for i := 1 to n do
    begin
      d := digit[i];
      if odd(n - i) then
      begin
        d := 2 * d;
        if d > 9 then
          d := d - 9
      end;
      sum := sum + d
    end;
    if (n > 0) and (sum mod 10 = 0) then
      writeln('right')
    else
      writeln('wrong')
  end
end.
