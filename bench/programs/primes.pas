program primes(output);
{ Counts the primes up to a limit by trial division up to the root. }
var
  n, root, divisor, found: integer;
  prime: Boolean;
begin
  found := 0;
  root := 1;
  for n := 2 to 400000 do
  begin
    if root < 1000 then
      if (root + 1) * (root + 1) <= n then root := root + 1;
    prime := true;
    divisor := 2;
    while (divisor <= root) and prime do
    begin
      prime := n mod divisor <> 0;
      divisor := divisor + 1
    end;
    if prime then found := found + 1
  end;
  writeln(found: 1)
end.
