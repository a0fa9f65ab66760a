program ackermann(output);
{ The function of Ackermann, whose calls lie thousands deep in one another. }

function a(m, n: integer): integer;
begin
  if m = 0 then
    a := n + 1
  else if n = 0 then
    a := a(m - 1, 1)
  else
    a := a(m - 1, a(m, n - 1))
end;

begin
  writeln(a(3, 8): 1)
end.
