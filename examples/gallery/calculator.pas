{ Works out each line of the input, such as 2*(3+4), by recursive descent: a procedure for each rule.
  An expression is terms with + and -, a term is factors with * and /, and a factor is a number, a factor with a minus
  before it, or an expression in parentheses. }
program calculator(input, output);
const
  limit = 30000;
var
  ch: char;
  ok: Boolean;
  value: integer;

procedure next;
begin
  if eoln then
    ch := '.'
  else
    read(ch)
end;

procedure getch;
begin
  repeat
    next
  until ch <> ' '
end;

procedure fail;
begin
  ok := false
end;

procedure check(var x: integer);
begin
  if (x > limit) or (x < -limit) then
  begin
    fail;
    x := 0
  end
end;

procedure expression(var x: integer); forward;

procedure factor(var x: integer);
begin
  x := 0;
  if (ch >= '0') and (ch <= '9') then
  begin
    repeat
      x := 10 * x + ord(ch) - ord('0');
      check(x);
      getch
    until (ch < '0') or (ch > '9')
  end
  else if ch = '(' then
  begin
    getch;
    expression(x);
    if ch = ')' then
      getch
    else
      fail
  end
  else if ch = '-' then
  begin
    getch;
    factor(x);
    x := -x
  end
  else
    fail
end;

procedure term(var x: integer);
var
  y: integer;
  op: char;
begin
  factor(x);
  while (ch = '*') or (ch = '/') do
  begin
    op := ch;
    getch;
    factor(y);
    if op = '*' then
      x := x * y
    else if y <> 0 then
      x := x div y
    else
      fail;
    check(x)
  end
end;

procedure expression;
var
  y: integer;
  op: char;
begin
  term(x);
  while (ch = '+') or (ch = '-') do
  begin
    op := ch;
    getch;
    term(y);
    if op = '+' then
      x := x + y
    else
      x := x - y;
    check(x)
  end
end;

begin
  while not eof do
  begin
    ok := true;
    getch;
    expression(value);
    if ok and (ch = '.') then
      writeln(value: 1)
    else
      writeln('what?');
    readln
  end
end.
