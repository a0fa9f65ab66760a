{ A bank with one counter: customers come by chance, wait in a queue that is a ring, and are served. }
program bank(output);
const
  minutes = 480;
  size = 20;
type
  place = 0..19;
var
  queue: array [place] of integer;
  head, tail: place;
  waiting, served, turned, busy, total, t, seed: integer;

function random(n: integer): integer;
begin
  seed := (seed * 25173 + 13849) mod 65536;
  random := seed mod n
end;

procedure arrive;
begin
  if waiting < size then
  begin
    queue[tail] := t;
    tail := (tail + 1) mod size;
    waiting := waiting + 1
  end
  else
    turned := turned + 1
end;

procedure serve;
begin
  if (busy = 0) and (waiting > 0) then
  begin
    total := total + t - queue[head];
    head := (head + 1) mod size;
    waiting := waiting - 1;
    served := served + 1;
    busy := 2 + random(5)
  end
end;

begin
  seed := 1;
  head := 0;
  tail := 0;
  waiting := 0;
  served := 0;
  turned := 0;
  busy := 0;
  total := 0;
  for t := 1 to minutes do
  begin
    if random(4) = 0 then
      arrive;
    serve;
    if busy > 0 then
      busy := busy - 1
  end;
  writeln('served ', served: 4);
  writeln('turned away ', turned: 4);
  if served > 0 then
    writeln('mean waiting time ', total div served: 4)
end.
