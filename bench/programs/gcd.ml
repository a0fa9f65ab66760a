let () =
  let sum = ref 0 in
  for i = 1 to 2000 do
    for j = 1 to 2000 do
      let a = ref i and b = ref j in
      while !b > 0 do
        let r = !a mod !b in
        a := !b;
        b := r
      done;
      sum := (!sum + !a) mod 1000003
    done
  done;
  Printf.printf "%d\n" !sum
