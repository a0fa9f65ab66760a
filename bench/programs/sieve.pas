program sieve(output);
{ The prime numbers up to 50,000, by Eratosthenes, again and again: how many. }
const
  last = 50000;
  rounds = 40;
type
  number = 2..last;
var
  prime: array [number] of Boolean;
  i, count, multiple, round: integer;
begin
  count := 0;
  for round := 1 to rounds do
  begin
    for i := 2 to last do
      prime[i] := true;
    for i := 2 to last do
      if prime[i] then
      begin
        count := count + 1;
        multiple := i + i;
        while multiple <= last do
        begin
          prime[multiple] := false;
          multiple := multiple + i
        end
      end
  end;
  writeln(count:1)
end.
