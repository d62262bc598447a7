(* SHA-256 of a string, as 32 bytes. *)

let constants = [|
  0x428a2f98; 0x71374491; 0xb5c0fbcf; 0xe9b5dba5; 0x3956c25b; 0x59f111f1; 0x923f82a4; 0xab1c5ed5;
  0xd807aa98; 0x12835b01; 0x243185be; 0x550c7dc3; 0x72be5d74; 0x80deb1fe; 0x9bdc06a7; 0xc19bf174;
  0xe49b69c1; 0xefbe4786; 0x0fc19dc6; 0x240ca1cc; 0x2de92c6f; 0x4a7484aa; 0x5cb0a9dc; 0x76f988da;
  0x983e5152; 0xa831c66d; 0xb00327c8; 0xbf597fc7; 0xc6e00bf3; 0xd5a79147; 0x06ca6351; 0x14292967;
  0x27b70a85; 0x2e1b2138; 0x4d2c6dfc; 0x53380d13; 0x650a7354; 0x766a0abb; 0x81c2c92e; 0x92722c85;
  0xa2bfe8a1; 0xa81a664b; 0xc24b8b70; 0xc76c51a3; 0xd192e819; 0xd6990624; 0xf40e3585; 0x106aa070;
  0x19a4c116; 0x1e376c08; 0x2748774c; 0x34b0bcb5; 0x391c0cb3; 0x4ed8aa4a; 0x5b9cca4f; 0x682e6ff3;
  0x748f82ee; 0x78a5636f; 0x84c87814; 0x8cc70208; 0x90befffa; 0xa4506ceb; 0xbef9a3f7; 0xc67178f2 |]

let word = 0xffffffff
let rotated x n = ((x lsr n) lor (x lsl (32 - n))) land word

let digest text =
  let length = String.length text in
  let padded = Bytes.make ((length + 72) / 64 * 64) '\000' in
  Bytes.blit_string text 0 padded 0 length;
  Bytes.set padded length '\x80';
  Bytes.set_int64_be padded (Bytes.length padded - 8) (Int64.of_int (8 * length));
  let state = [| 0x6a09e667; 0xbb67ae85; 0x3c6ef372; 0xa54ff53a; 0x510e527f; 0x9b05688c; 0x1f83d9ab; 0x5be0cd19 |] in
  let w = Array.make 64 0 in
  for block = 0 to (Bytes.length padded / 64) - 1 do
    for i = 0 to 15 do
      w.(i) <- Int32.to_int (Bytes.get_int32_be padded ((64 * block) + (4 * i))) land word
    done;
    for i = 16 to 63 do
      let s0 = rotated w.(i - 15) 7 lxor rotated w.(i - 15) 18 lxor (w.(i - 15) lsr 3) in
      let s1 = rotated w.(i - 2) 17 lxor rotated w.(i - 2) 19 lxor (w.(i - 2) lsr 10) in
      w.(i) <- (w.(i - 16) + s0 + w.(i - 7) + s1) land word
    done;
    let v = Array.copy state in
    for i = 0 to 63 do
      let s1 = rotated v.(4) 6 lxor rotated v.(4) 11 lxor rotated v.(4) 25 in
      let choice = (v.(4) land v.(5)) lxor (lnot v.(4) land word land v.(6)) in
      let one = (v.(7) + s1 + choice + constants.(i) + w.(i)) land word in
      let s0 = rotated v.(0) 2 lxor rotated v.(0) 13 lxor rotated v.(0) 22 in
      let majority = (v.(0) land v.(1)) lxor (v.(0) land v.(2)) lxor (v.(1) land v.(2)) in
      let two = (s0 + majority) land word in
      v.(7) <- v.(6); v.(6) <- v.(5); v.(5) <- v.(4);
      v.(4) <- (v.(3) + one) land word;
      v.(3) <- v.(2); v.(2) <- v.(1); v.(1) <- v.(0);
      v.(0) <- (one + two) land word
    done;
    Array.iteri (fun i x -> state.(i) <- (state.(i) + x) land word) v
  done;
  let result = Bytes.create 32 in
  Array.iteri (fun i x -> Bytes.set_int32_be result (4 * i) (Int32.of_int x)) state;
  Bytes.to_string result
