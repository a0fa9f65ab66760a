let last = 10000
let rounds = 20
let a = Array.make (last + 1) 0

let rec sort left right =
  let low = ref left and high = ref right and middle = a.((left + right) / 2) in
  while !low <= !high do
    if a.(!low) < middle then incr low
    else if a.(!high) > middle then decr high
    else begin
      let other = a.(!low) in
      a.(!low) <- a.(!high);
      a.(!high) <- other;
      incr low;
      decr high
    end
  done;
  if left < !high then sort left !high;
  if !low < right then sort !low right

let () =
  let seed = ref 1 and sum = ref 0 in
  for _ = 1 to rounds do
    for i = 1 to last do
      seed := (!seed * 1309 + 13849) mod 65536;
      a.(i) <- !seed
    done;
    sort 1 last;
    sum := (!sum + a.(1) + a.(last / 2) + a.(last)) mod 1000003
  done;
  Printf.printf "%d\n" !sum
