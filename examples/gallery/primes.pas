{ Says of each number of the input whether it is prime: the test of the textbooks. }
program primes(input, output);
var
  n: integer;

function prime(n: integer): Boolean;
var
  d: integer;
begin
  d := 2;
  while (d * d <= n) and (n mod d <> 0) do
    d := d + 1;
  prime := (n >= 2) and (d * d > n)
end;

begin
  while not eof do
  begin
    readln(n);
    write(n: 1);
    if prime(n) then
      writeln(' is prime')
    else
      writeln(' is not prime')
  end
end.
