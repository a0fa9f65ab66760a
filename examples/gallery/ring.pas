{ A ring buffer in a record. }
program ring(output);
const
  size = 8;
type
  place = 0..7;
  buffer = record
    data: array [place] of integer;
    first: place;
    count: 0..size
  end;
var
  b: buffer;
  i, x: integer;

procedure init(var b: buffer);
var
  i: place;
begin
  for i := 0 to 7 do
    b.data[i] := 0;
  b.first := 0;
  b.count := 0
end;

procedure put(var b: buffer; x: integer);
begin
  if b.count < size then
  begin
    b.data[(b.first + b.count) mod size] := x;
    b.count := b.count + 1
  end
end;

procedure get(var b: buffer; var x: integer);
begin
  x := 0;
  if b.count > 0 then
  begin
    x := b.data[b.first];
    b.first := (b.first + 1) mod size;
    b.count := b.count - 1
  end
end;

begin
  init(b);
  for i := 1 to 20 do
  begin
    put(b, i * i);
    if odd(i) then
    begin
      get(b, x);
      writeln(x: 5)
    end
  end
end.
