let filled of_cell = Array.init 101 (fun i -> Array.init 101 (fun j -> of_cell i j))

let () =
  let a = filled (fun i j -> i + j) and b = filled (fun i j -> i - j) in
  let c = filled (fun _ _ -> 0) in
  for _ = 1 to 5 do
    for i = 1 to 100 do
      for j = 1 to 100 do
        let sum = ref 0 in
        for k = 1 to 100 do
          sum := !sum + a.(i).(k) * b.(k).(j)
        done;
        c.(i).(j) <- !sum
      done
    done
  done;
  let total = ref 0 in
  for i = 1 to 100 do
    total := !total + c.(i).(1)
  done;
  Printf.printf "%d\n" !total
