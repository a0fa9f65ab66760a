let last = 100
let bookings = 100000

type account = { number : int; mutable moves : int; mutable balance : int }

let () =
  let book = Array.init (last + 1) (fun i -> { number = i; moves = 0; balance = 0 }) in
  let seed = ref 1 in
  for _ = 1 to bookings do
    seed := (!seed * 1309 + 13849) mod 65536;
    let wanted = (!seed / 64) * (!seed / 64) / 1024 * last / 1024 + 1 and i = ref 1 in
    while !i < last && book.(!i).number <> wanted do incr i done;
    let account = book.(!i) in
    account.moves <- account.moves + 1;
    account.balance <- (account.balance + !seed) mod 1000003;
    if !i > 1 then begin
      book.(!i) <- book.(!i - 1);
      book.(!i - 1) <- account
    end
  done;
  let sum = ref 0 in
  for i = 1 to last do
    let account = book.(i) in
    sum := (!sum * 31 + account.number * 7 + account.moves + account.balance) mod 1000003
  done;
  Printf.printf "%d\n" !sum
