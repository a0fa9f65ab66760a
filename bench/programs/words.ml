let last = 20000
let rounds = 40

let () =
  let story = Bytes.make (last + 1) ' ' and often = Array.make 128 0 in
  let seed = ref 1 and count = ref 0 and longest = ref 0 in
  for _ = 1 to rounds do
    for i = 1 to last do
      seed := (!seed * 1309 + 13849) mod 65536;
      let code = !seed / 2048 in
      Bytes.set story i (if code < 26 then Char.chr (Char.code 'a' + code) else ' ')
    done;
    Bytes.set story last ' ';
    let blank = ref 0 in
    for i = 1 to last do
      let next = Bytes.get story i in
      if next >= 'a' && next <= 'z' then
        often.(Char.code next) <- often.(Char.code next) + 1
      else begin
        let length = i - !blank - 1 in
        if length > 0 then incr count;
        if length > !longest then longest := length;
        blank := i
      end
    done
  done;
  let most = ref (Char.code 'a') in
  for c = Char.code 'b' to Char.code 'z' do
    if often.(c) > often.(!most) then most := c
  done;
  Printf.printf "%d%3d %c%6d\n" !count !longest (Char.chr !most) often.(!most)
