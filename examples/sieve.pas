program sieve(output);
{ The prime numbers up to 100, by Eratosthenes. With its certificate no place is named: no index can err, and each
  number up to 100 is marked before it is looked at. }
const
  last = 100;
var
  prime: array [2..last] of Boolean;
  number, multiple: integer;
begin
  for number := 2 to last do
    prime[number] := true;
  for number := 2 to last do
    if prime[number] then
    begin
      write(number:4);
      multiple := number + number;
      while multiple <= last do
      begin
        prime[multiple] := false;
        multiple := multiple + number
      end
    end;
  writeln
end.
