{ The sieve of Eratosthenes with a set, after the manual of Jensen and Wirth. }
program setsieve(output);
const
  n = 127;
var
  sieve, primes: set of 2..n;
  next, j: integer;
begin
  sieve := [2..n];
  primes := [];
  next := 2;
  repeat
    while not (next in sieve) do
      next := succ(next);
    primes := primes + [next];
    j := next;
    while j <= n do
    begin
      sieve := sieve - [j];
      j := j + next
    end
  until sieve = [];
  for j := 2 to n do
    if j in primes then
      write(j: 4);
  writeln
end.
