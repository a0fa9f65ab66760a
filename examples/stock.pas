program stock(output);
{ What is in store of three parts, and what is left of them behind an order. }
type
  part = record
    name: char;
    count, price: 0..1000
  end;
var
  bolt, nut, wire: part;
  sum: integer;

procedure show(p: part);
begin
  with p do
    writeln(name: 2, count: 5, price: 5)
end;

procedure take(var p: part; wanted: integer);
var
  left: integer;
begin
  if (0 <= wanted) and (wanted <= 1000) then
    with p do
    begin
      left := count - wanted;
      if left < 0 then
        left := 0;
      count := left
    end
end;

begin
  with bolt do
  begin
    name := 'b';
    count := 100;
    price := 2
  end;
  nut := bolt;
  with nut do
  begin
    name := 'n';
    count := 150
  end;
  wire := nut;
  wire.name := 'w';
  take(bolt, 30);
  take(wire, 500);
  show(bolt);
  show(nut);
  show(wire);
  with bolt do
    sum := count * price;
  with wire do
    sum := sum + count * price;
  writeln('worth: ', sum: 1)
end.
