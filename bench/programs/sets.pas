program sets(output);
{ The prime numbers up to a limit, by Eratosthenes, as members of sets in an array, again and again: how many. }
const
  members = 128;
  lastset = 399;
  last = 51199;
  rounds = 20;
var
  prime: array [0..lastset] of set of 0..127;
  i, count, multiple, round: integer;
begin
  count := 0;
  for round := 1 to rounds do
  begin
    for i := 0 to lastset do
      prime[i] := [0..127];
    prime[0] := prime[0] - [0, 1];
    for i := 2 to last do
      if i mod members in prime[i div members] then
      begin
        count := count + 1;
        multiple := i + i;
        while multiple <= last do
        begin
          prime[multiple div members] := prime[multiple div members] - [multiple mod members];
          multiple := multiple + i
        end
      end
  end;
  writeln(count: 1)
end.
