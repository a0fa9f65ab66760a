{ The 250th Fibonacci number, by addition of numbers with sixty digits. }
program bigint(output);
const
  digits = 60;
type
  number = array [1..digits] of 0..9;
var
  a, b, c: number;
  i: integer;

procedure small(var x: number; value: integer);
var
  i: integer;
begin
  for i := 1 to digits do
  begin
    x[i] := value mod 10;
    value := value div 10
  end
end;

procedure add(var x, y, sum: number);
var
  i, carry: integer;
begin
  carry := 0;
  for i := 1 to digits do
  begin
    carry := carry + x[i] + y[i];
    sum[i] := carry mod 10;
    carry := carry div 10
  end
end;

procedure print(var x: number);
var
  i: integer;
begin
  i := digits;
  while (i > 1) and (x[i] = 0) do
    i := i - 1;
  for i := i downto 1 do
    write(x[i]: 1);
  writeln
end;

begin
  small(a, 0);
  small(b, 1);
  for i := 2 to 250 do
  begin
    add(a, b, c);
    a := b;
    b := c
  end;
  print(b)
end.
