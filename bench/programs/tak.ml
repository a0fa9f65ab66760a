let first = 24
let second = 17
let third = 8
let rec t x y z = if y < x then t (t (x - 1) y z) (t (y - 1) z x) (t (z - 1) x y) else z
let () = Printf.printf "%d\n" (t first second third)
