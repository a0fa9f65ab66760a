program p(input, output); var n: integer; begin read(n); writeln(9 div n) end.
