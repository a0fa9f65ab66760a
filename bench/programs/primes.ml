let () =
  let found = ref 0 and root = ref 1 in
  for n = 2 to 400000 do
    if !root < 1000 then
      if (!root + 1) * (!root + 1) <= n then incr root;
    let prime = ref true and divisor = ref 2 in
    while !divisor <= !root && !prime do
      prime := n mod !divisor <> 0;
      incr divisor
    done;
    if !prime then incr found
  done;
  Printf.printf "%d\n" !found
