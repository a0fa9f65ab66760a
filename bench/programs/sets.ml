let members = 32
let sets = 1600
let last = 51199
let rounds = 20

let () =
  let prime = Array.make sets 0 and count = ref 0 in
  for _ = 1 to rounds do
    Array.fill prime 0 sets 0xffffffff;
    prime.(0) <- prime.(0) land lnot 3;
    for i = 2 to last do
      if (prime.(i / members) lsr (i mod members)) land 1 <> 0 then begin
        incr count;
        let multiple = ref (i + i) in
        while !multiple <= last do
          let set = !multiple / members in
          prime.(set) <- prime.(set) land lnot (1 lsl (!multiple mod members));
          multiple := !multiple + i
        done
      end
    done
  done;
  Printf.printf "%d\n" !count
