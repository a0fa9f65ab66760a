{ Another: second has no value where it is used. }
program undefined(output);
var
  first, second: integer;
begin
  first := 1;
  writeln(first);
  writeln(first + second)
end.
