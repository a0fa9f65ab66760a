program knapsack(output);
{ The greatest worth of things in a knapsack that holds so much weight, each of them taken once at most. }
const
  things = 200;
  most = 10000;
  all = 100000;
type
  thing = 1..things;
  load = 0..most;
  measure = 1..500;
var
  weight, worth: array [thing] of measure;
  best: array [load] of 0..all;
  i, seed, heavy, total, gained: integer;
begin
  seed := 1;
  for i := 1 to things do
  begin
    seed := (seed * 1309 + 13849) mod 65536;
    weight[i] := seed mod 500 + 1;
    seed := (seed * 1309 + 13849) mod 65536;
    worth[i] := seed mod 500 + 1
  end;
  for total := 0 to most do
    best[total] := 0;
  for i := 1 to things do
  begin
    heavy := weight[i];
    for total := most downto heavy do
    begin
      gained := best[total - heavy] + worth[i];
      if gained > best[total] then
        best[total] := gained
    end
  end;
  writeln(best[most]: 1)
end.
