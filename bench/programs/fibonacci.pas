program fibonacci(output);
{ A number of Fibonacci, by two calls for each. }

function fib(n: integer): integer;
begin
  if n < 2 then
    fib := n
  else
    fib := fib(n - 1) + fib(n - 2)
end;

begin
  writeln(fib(32): 1)
end.
