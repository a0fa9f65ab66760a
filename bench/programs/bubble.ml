let () =
  let a = Array.make 3001 0 and seed = ref 1 in
  for i = 1 to 3000 do
    seed := (!seed * 1309 + 13849) mod 65536;
    a.(i) <- !seed
  done;
  for i = 3000 downto 2 do
    for j = 1 to i - 1 do
      if a.(j) > a.(j + 1) then begin
        let other = a.(j) in
        a.(j) <- a.(j + 1);
        a.(j + 1) <- other
      end
    done
  done;
  Printf.printf "%d %d %d\n" a.(1) a.(1500) a.(3000)
