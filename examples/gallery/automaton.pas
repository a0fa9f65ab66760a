{ Says of each line of the input whether it is a number such as 12, -3.5 or .25: a finite automaton by its table. }
program automaton(input, output);
type
  state = (start, sign, whole, point, fraction, wrong);
  class = (digit, plusminus, dot, other);
var
  next: array [state, class] of state;
  s: state;
  k: class;
  c: char;

function classof(c: char): class;
begin
  if c in ['0'..'9'] then
    classof := digit
  else if c in ['+', '-'] then
    classof := plusminus
  else if c = '.' then
    classof := dot
  else
    classof := other
end;

begin
  for s := start to wrong do
    for k := digit to other do
      next[s, k] := wrong;
  next[start, digit] := whole;
  next[start, plusminus] := sign;
  next[start, dot] := point;
  next[sign, digit] := whole;
  next[sign, dot] := point;
  next[whole, digit] := whole;
  next[whole, dot] := fraction;
  next[point, digit] := fraction;
  next[fraction, digit] := fraction;
  while not eof do
  begin
    s := start;
    while not eoln do
    begin
      read(c);
      write(c);
      s := next[s, classof(c)]
    end;
    readln;
    if s in [whole, fraction] then
      writeln(': a number')
    else
      writeln(': no number')
  end
end.
