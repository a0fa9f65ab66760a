{ Merge sort, recursive, with a second array. }
program mergesort(output);
const
  n = 16;
type
  list = array [1..n] of integer;
var
  a, b: list;
  i, x: integer;

procedure merge(low, mid, high: integer);
var
  i, j, k: integer;
begin
  i := low;
  j := mid + 1;
  for k := low to high do
    if j > high then
    begin
      b[k] := a[i];
      i := i + 1
    end
    else if i > mid then
    begin
      b[k] := a[j];
      j := j + 1
    end
    else if a[i] <= a[j] then
    begin
      b[k] := a[i];
      i := i + 1
    end
    else
    begin
      b[k] := a[j];
      j := j + 1
    end;
  for k := low to high do
    a[k] := b[k]
end;

procedure sort(low, high: integer);
var
  mid: integer;
begin
  if low < high then
  begin
    mid := (low + high) div 2;
    sort(low, mid);
    sort(mid + 1, high);
    merge(low, mid, high)
  end
end;

begin
  x := 1;
  for i := 1 to n do
  begin
    x := x * 37 mod 101;
    a[i] := x
  end;
  sort(1, n);
  for i := 1 to n do
    write(a[i]: 4);
  writeln
end.
