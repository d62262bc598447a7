(* A model from its text. This reads the part of TOML that models are written in: keys with whole numbers, texts in double quotes and
   lists of these, tables, lists of tables and comments. It is plain OCaml, and nothing is proved of it. *)

exception Refused of string

type value = Number of Z.t | Text of string | List of value list

let refuse fault = raise (Refused fault)

(* ---- values *)

let is_space c = c = ' ' || c = '\t' || c = '\n' || c = '\r'

(* the place behind spaces, line ends and comments *)
let rec skip text at =
  if at >= String.length text then at
  else if is_space text.[at] then skip text (at + 1)
  else if text.[at] = '#' then skip text (try String.index_from text at '\n' with Not_found -> String.length text)
  else at

let is_number c = (c >= '0' && c <= '9') || c = '-' || c = '+' || c = '_'

let rec read_value text at =
  if at >= String.length text then refuse "a value is missing"
  else if text.[at] = '"' then begin
    let close = try String.index_from text (at + 1) '"' with Not_found -> refuse "a text does not end" in
    (Text (String.sub text (at + 1) (close - at - 1)), close + 1)
  end
  else if text.[at] = '[' then read_items text (skip text (at + 1)) []
  else begin
    let stop = ref at in
    while !stop < String.length text && is_number text.[!stop] do incr stop done;
    let digits = String.concat "" (String.split_on_char '_' (String.sub text at (!stop - at))) in
    match Z.of_string digits with
    | number -> (Number number, !stop)
    | exception Invalid_argument _ -> refuse "a value is no whole number, text or list"
  end

and read_items text at items =
  if at < String.length text && text.[at] = ']' then (List (List.rev items), at + 1)
  else begin
    let item, at = read_value text at in
    let at = skip text at in
    if at < String.length text && text.[at] = ',' then read_items text (skip text (at + 1)) (item :: items)
    else if at < String.length text && text.[at] = ']' then (List (List.rev (item :: items)), at + 1)
    else refuse "a list does not end"
  end

(* ---- the whole text, as tables in order with their names, each with its keys *)

let is_key c = (c >= 'a' && c <= 'z') || c = '_' || (c >= '0' && c <= '9')

let read_word text at =
  let stop = ref at in
  while !stop < String.length text && is_key text.[!stop] do incr stop done;
  if !stop = at then refuse "a key is missing";
  (String.sub text at (!stop - at), !stop)

let rec blanks text at = if at < String.length text && (text.[at] = ' ' || text.[at] = '\t') then blanks text (at + 1) else at

let expect text at mark =
  let size = String.length mark in
  if at + size > String.length text || String.sub text at size <> mark then refuse ("no " ^ mark) else at + size

let read_tables text =
  let rec go at name keys tables =
    let at = skip text at in
    if at >= String.length text then List.rev ((name, List.rev keys) :: tables)
    else if text.[at] = '[' then begin
      let double = at + 1 < String.length text && text.[at + 1] = '[' in
      let word, next = read_word text (if double then at + 2 else at + 1) in
      go (expect text next (if double then "]]" else "]")) word [] ((name, List.rev keys) :: tables)
    end
    else begin
      let word, next = read_word text at in
      if List.mem_assoc word keys then refuse ("the key " ^ word ^ " twice");
      let value, next = read_value text (blanks text (expect text (blanks text next) "=")) in
      go next name ((word, value) :: keys) tables
    end
  in
  go 0 "" [] []

(* ---- a model *)

let keys_of tables name =
  match List.filter (fun (n, _) -> n = name) tables with
  | [ (_, keys) ] -> keys
  | _ -> refuse ("not one table " ^ name)

let get keys word = match List.assoc_opt word keys with Some value -> value | None -> refuse ("no key " ^ word)
let number keys word = match get keys word with Number n -> n | _ -> refuse (word ^ " is no whole number")
let natural keys word = let n = number keys word in if Z.sign n < 0 then refuse (word ^ " is below 0") else n
let text keys word = match get keys word with Text t -> t | _ -> refuse (word ^ " is no text")
let list keys word = match get keys word with List items -> items | _ -> refuse (word ^ " is no list")
let as_number = function Number n -> n | _ -> refuse "a list does not hold whole numbers"
let as_text = function Text t -> t | _ -> refuse "a list does not hold texts"

let only keys words =
  List.iter (fun (word, _) -> if not (List.mem word words) then refuse ("the key " ^ word ^ " is unknown")) keys

let bytes_of name = List.map (fun c -> Z.of_int (Char.code c)) (List.of_seq (String.to_seq name))
let ticks n = Z.mul (Z.of_int 120) n

let place_of names name =
  let rec go place = function
    | [] -> refuse ("no advisory " ^ name)
    | other :: rest -> if other = name then Z.of_int place else go (place + 1) rest
  in
  go 0 names

(* the model, and the names of its advisories *)
let read bytes =
  let tables = read_tables bytes in
  List.iter (fun (name, _) ->
    if not (List.mem name [ ""; "grid"; "puck"; "closing"; "pilot"; "cost"; "advisory"; "sigma" ]) then refuse ("the table " ^ name))
    tables;
  let top = keys_of tables "" in
  only top [ "version"; "horizon" ];
  let version = number top "version" in
  if not (Z.equal version Z.one || Z.equal version (Z.of_int 2)) then refuse "version";
  let grid = keys_of tables "grid" and puck = keys_of tables "puck" and closing = keys_of tables "closing" in
  let pilot = keys_of tables "pilot" and cost = keys_of tables "cost" in
  let advisories = List.filter_map (fun (n, keys) -> if n = "advisory" then Some keys else None) tables in
  let sigmas = List.filter_map (fun (n, keys) -> if n = "sigma" then Some keys else None) tables in
  only grid [ "altitude"; "own_rate"; "intruder_rate" ];
  only puck [ "radius"; "half_height" ];
  only closing [ "least"; "greatest" ];
  only pilot (if Z.equal version Z.one then [ "pull"; "limit" ] else [ "pull"; "limit"; "delay" ]);
  only cost [ "contact" ];
  List.iter (fun keys -> only keys [ "name"; "lo"; "hi"; "choices"; "costs" ]) advisories;
  List.iter (fun keys -> only keys [ "weight"; "own"; "intruder" ]) sigmas;
  let names = List.map (fun keys -> text keys "name") advisories in
  let axis word = List.map as_number (list grid word) in
  let choices keys =
    let chosen = List.map (fun v -> place_of names (as_text v)) (list keys "choices") in
    let costs = List.map as_number (list keys "costs") in
    if List.length chosen <> List.length costs then refuse "as many costs as choices";
    List.map2 (fun a c -> { Tests.choice_advisory = a; choice_cost = c }) chosen costs
  in
  let model = {
    Tests.grid = {
      Tests.grid_h = List.map ticks (axis "altitude");
      grid_v0 = axis "own_rate";
      grid_v1 = axis "intruder_rate";
      grid_advisories = Z.of_int (List.length advisories);
      grid_horizon = natural top "horizon";
    };
    advisories = List.map (fun keys ->
      { Tests.advisory_name = bytes_of (text keys "name"); advisory_lo = number keys "lo"; advisory_hi = number keys "hi" }) advisories;
    choices = List.map choices advisories;
    sigmas = List.map (fun keys ->
      { Tests.sigma_weight_of = number keys "weight"; sigma_own = number keys "own"; sigma_intruder = number keys "intruder" }) sigmas;
    pull = natural pilot "pull";
    limit = natural pilot "limit";
    delay = (if Z.equal version Z.one then Z.zero else natural pilot "delay");
    radius = natural puck "radius";
    half = ticks (natural puck "half_height");
    least_closing = natural closing "least";
    greatest_closing = natural closing "greatest";
    contact = number cost "contact";
  } in
  (model, names)
