(* A second opinion on a table, and on the report of an audit. The tests are extracted from Coq and stand in Tests; what is read here
   from files is plain OCaml, and nothing is proved of it. *)

let forms = {|second/opinion check MODEL TABLE
second/opinion audit MODEL TABLE REPORT

check: whether each entry of the table is sound. audit: whether REPORT, which an audit printed, has a line for each cell under each
advice but clear, in order, each confirmed, and the right counts. It ends with 0 where all is confirmed, with 1 where something is
not and with 2 where it cannot be read, and then says why in one line.|}

exception Not_confirmed of string

let fail form = Printf.ksprintf (fun why -> raise (Not_confirmed why)) form
let int = Z.to_int

let contents name =
  let channel = open_in_bin name in
  Fun.protect ~finally:(fun () -> close_in channel) (fun () -> really_input_string channel (in_channel_length channel))

(* how far it is, on the error output, at most once a second *)
let progress =
  let last = ref (Unix.gettimeofday ()) in
  fun what done_ all ->
    if Unix.gettimeofday () -. !last >= 1.0 then begin
      last := Unix.gettimeofday ();
      Printf.eprintf "%s %d of %d\n%!" what done_ all
    end

(* ---- the model *)

let model_of bytes =
  match Model_text.read bytes with
  | exception Model_text.Refused why -> fail "model: %s" why
  | model, names -> if Tests.is_model model then (model, names) else fail "model: a number is outside its limits"

(* ---- the table's bytes *)

let entry_bytes = 17
let header_bytes = 60
let digest_bytes = 32

(* the table that the bytes hold, after what is said beside the entries was compared; where an entry stands, and the first digest that
   is wrong, with the layer behind which it stands. In version 1 one digest stands at the end, and is that of all bytes before; in
   version 2 one stands behind each layer, and is that of the digest before, or the header, and of the layer's entries *)
let table_of model_bytes model bytes =
  let g = model.Tests.grid in
  let states = int (Tests.states g) and horizon = int g.Tests.grid_horizon in
  let number at = Int32.to_int (String.get_int32_le bytes at) land 0xffffffff in
  if String.length bytes < header_bytes then fail "table: length %d" (String.length bytes);
  if String.sub bytes 0 4 <> "ACXT" then fail "table: magic";
  let version = number 4 in
  if version <> 1 && version <> 2 then fail "table: version";
  let layer_bytes = (entry_bytes * states) + if version = 1 then 0 else digest_bytes in
  let size = header_bytes + (layer_bytes * (horizon + 1)) + if version = 1 then digest_bytes else 0 in
  if String.sub bytes 8 32 <> Sha256.digest model_bytes then fail "table: other model";
  List.iteri (fun place n -> if number (40 + (4 * place)) <> n then fail "table: shape %d" place)
    [ List.length g.Tests.grid_h; List.length g.Tests.grid_v0; List.length g.Tests.grid_v1; int g.Tests.grid_advisories; horizon ];
  if String.length bytes <> size then fail "table: length %d of %d" (String.length bytes) size;
  let at n state = header_bytes + (layer_bytes * n) + (entry_bytes * state) in
  let place n p x = at (int n) (int (Tests.state_number g p (Tests.vertex_number g x))) in
  let value offset n p x = Z.of_int64 (String.get_int64_le bytes (place n p x + offset)) in
  let table = {
    Tests.upper = value 0;
    lower = value 8;
    advice = (fun n p x -> Z.of_int (Char.code bytes.[place n p x + 16]));
  } in
  let kept n = String.sub bytes (at n states) digest_bytes in
  let rec chain before n =
    if n > horizon then None
    else if kept n <> Sha256.digest (before ^ String.sub bytes (at n 0) (entry_bytes * states)) then
      Some (n, Printf.sprintf "layer %d digest" n)
    else chain (kept n) (n + 1)
  in
  let wrong_digest =
    if version = 2 then chain (String.sub bytes 0 header_bytes) 0
    else if kept horizon <> Sha256.digest (String.sub bytes 0 (at horizon states)) then Some (horizon, "digest")
    else None
  in
  (table, at, states, wrong_digest)

let check model_name table_name =
  let model_bytes = contents model_name in
  let model, _ = model_of model_bytes in
  let bytes = contents table_name in
  let table, at, states, wrong_digest = table_of model_bytes model bytes in
  let g = model.Tests.grid in
  let test = Tests.vertex_test model table in
  let all = int (Tests.vertices g) in
  let faults = ref [] and done_ = ref 0 in
  (* with no second to go there is no advice, which is written 255 *)
  for state = 0 to states - 1 do
    if bytes.[at 0 state + 16] <> '\255' then faults := (0, state) :: !faults
  done;
  List.iter (fun x ->
    let number = Tests.vertex_number g x in
    List.iter (fun (n, p) -> faults := (int n, int (Tests.state_number g p number)) :: !faults) (test x);
    incr done_;
    progress "vertex" !done_ all) (Tests.vertices_of g);
  (* what is named is what comes first in the file *)
  let before n = match wrong_digest with Some (layer, _) -> n <= layer | None -> true in
  (match (List.sort compare !faults, wrong_digest) with
  | (n, state) :: more, _ when before n -> fail "table: layer %d state %d is not sound, and %d more" n state (List.length more)
  | _, Some (_, name) -> fail "table: %s" name
  | _, None -> ());
  Printf.printf "confirmed layers %d states %d\n" (int g.Tests.grid_horizon + 1) states

(* ---- the report's lines *)

let fraction word =
  let whole text = match Z.of_string text with n -> n | exception Invalid_argument _ -> fail "report: %s is no fraction" word in
  match String.split_on_char '/' word with
  | [ n ] -> { Tests.num = whole n; den = Z.one }
  | [ n; d ] when not (Z.equal (whole d) Z.one) -> { Tests.num = whole n; den = whole d }
  | _ -> fail "report: %s is no fraction" word

let part word =
  match String.split_on_char '@' word with
  | [ duration; acceleration ] -> { Tests.part_duration = fraction duration; part_acceleration = fraction acceleration }
  | _ -> fail "report: %s is no segment" word

let parts = function [ "none" ] -> [] | [] -> fail "report: no response" | words -> List.map part words

let ruling = function
  | [ "certified" ] -> Tests.Certified
  | "reported" :: "time" :: time :: "range" :: range :: "speed" :: speed :: "ticks" :: ticks :: "own" :: own :: "intruder" :: intruder
    :: "response" :: response ->
    let h = fraction ticks in
    if not (Z.equal h.Tests.den Z.one) then fail "report: %s ticks" ticks;
    Tests.Reported {
      Tests.witness_time = fraction time; witness_range = fraction range; witness_speed = fraction speed; witness_h = h.Tests.num;
      witness_v0 = fraction own; witness_v1 = fraction intruder; witness_segments = parts response;
    }
  | _ -> fail "report: a line is no ruling"

let natural word =
  match Z.of_string word with
  | n when Z.sign n >= 0 -> n
  | _ | (exception Invalid_argument _) -> fail "report: %s is no number" word

let ruled names line =
  match String.split_on_char ' ' line with
  | "cell" :: n :: present :: i :: j :: k :: advice :: rest ->
    let advisory name = match Model_text.place_of names name with p -> p | exception Model_text.Refused why -> fail "report: %s" why in
    { Tests.ruled_name = {
        Tests.name_n = natural n; name_present = advisory present; name_i = natural i; name_j = natural j; name_k = natural k;
        name_advice = advisory advice };
      ruled_ruling = ruling rest }
  | _ -> fail "report: a line is none of a cell"

let counts line =
  match String.split_on_char ' ' line with
  | [ "certified"; certified; "reported"; reported; "clear"; clear ] ->
    { Tests.counts_certified = natural certified; counts_reported = natural reported; counts_clear = natural clear }
  | _ -> fail "report: the last line is none of counts"

let audit model_name table_name report_name =
  let model_bytes = contents model_name in
  let model, names = model_of model_bytes in
  let bytes = contents table_name in
  let _, at, _, wrong_digest = table_of model_bytes model bytes in
  (match wrong_digest with Some (_, name) -> fail "table: %s" name | None -> ());
  let advices n state = Z.of_int (Char.code bytes.[at (int n) (int state) + 16]) in
  let text = contents report_name in
  if text = "" || text.[String.length text - 1] <> '\n' then fail "report: the last line does not end";
  match List.rev (String.split_on_char '\n' text) with
  | "" :: last :: lines ->
    let counts = counts last in
    let ruled = List.rev_map (ruled names) lines in
    let all = List.length ruled in
    if not (Tests.is_complete model advices ruled counts) then fail "report: cells or counts are not those of the table";
    List.iteri (fun place r ->
      if not (Tests.judge model r) then fail "report: line %d is not confirmed" (place + 1);
      progress "line" (place + 1) all) ruled;
    print_endline ("confirmed " ^ last)
  | _ -> fail "report: there are no lines"

let () =
  let run f = try f () with
    | Not_confirmed why -> prerr_endline ("opinion: " ^ why); exit 1
    | Sys_error why -> prerr_endline ("opinion: " ^ why); exit 2
  in
  match List.tl (Array.to_list Sys.argv) with
  | [ "--help" ] -> print_endline forms
  | [ "check"; model; table ] -> run (fun () -> check model table)
  | [ "audit"; model; table; report ] -> run (fun () -> audit model table report)
  | _ -> prerr_endline "opinion: words refused"; exit 2
