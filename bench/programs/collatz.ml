let () =
  let longest = ref 0 and found = ref 1 in
  for start = 1 to 113382 do
    let n = ref start and steps = ref 0 in
    while !n <> 1 do
      if !n land 1 <> 0 then n := 3 * !n + 1 else n := !n / 2;
      incr steps
    done;
    if !steps > !longest then begin
      longest := !steps;
      found := start
    end
  done;
  Printf.printf "%d %3d\n" !found !longest
