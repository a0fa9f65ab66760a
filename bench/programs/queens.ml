let size = 11
let free = Array.make (size + 1) true
let rising = Array.make (2 * size + 1) true
let falling = Array.make (2 * size) true
let found = ref 0

let rec place row =
  for column = 1 to size do
    if free.(column) && rising.(row + column) && falling.(row - column + size) then
      if row = size then incr found
      else begin
        free.(column) <- false;
        rising.(row + column) <- false;
        falling.(row - column + size) <- false;
        place (row + 1);
        free.(column) <- true;
        rising.(row + column) <- true;
        falling.(row - column + size) <- true
      end
  done

let () =
  place 1;
  Printf.printf "%d\n" !found
