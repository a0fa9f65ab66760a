(* The ends of type integer are symmetric,
   so a sign never errs: nothing is open here. *)
program limits(output);
var greatest, least: integer;
begin
  greatest := maxint;
  least := -maxint;
  writeln(greatest, least);
  writeln(greatest + least);
  writeln(-least)
end.
