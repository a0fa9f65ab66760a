let things = 200
let most = 10000

let () =
  let weight = Array.make (things + 1) 0 and worth = Array.make (things + 1) 0 in
  let best = Array.make (most + 1) 0 and seed = ref 1 in
  for i = 1 to things do
    seed := (!seed * 1309 + 13849) mod 65536;
    weight.(i) <- !seed mod 500 + 1;
    seed := (!seed * 1309 + 13849) mod 65536;
    worth.(i) <- !seed mod 500 + 1
  done;
  for i = 1 to things do
    let heavy = weight.(i) in
    for total = most downto heavy do
      let gained = best.(total - heavy) + worth.(i) in
      if gained > best.(total) then best.(total) <- gained
    done
  done;
  Printf.printf "%d\n" best.(most)
