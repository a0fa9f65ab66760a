let () =
  let prime = Array.make 50001 false and count = ref 0 in
  for _ = 1 to 40 do
    for i = 2 to 50000 do
      prime.(i) <- true
    done;
    for i = 2 to 50000 do
      if prime.(i) then begin
        incr count;
        let multiple = ref (i + i) in
        while !multiple <= 50000 do
          prime.(!multiple) <- false;
          multiple := !multiple + i
        done
      end
    done
  done;
  Printf.printf "%d\n" !count
