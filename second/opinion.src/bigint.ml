(* Whole numbers for the extracted tests: those of Zarith, with quotients that are rounded down and are 0 over 0. *)
include Z

let same n = n
let twice n = shift_left n 1
let half n = shift_right n 1
let twice_and_one n = succ (shift_left n 1)
let div_floor a b = if sign b = 0 then zero else fdiv a b
let not_below_zero n = if sign n < 0 then zero else n
let difference a b = not_below_zero (sub a b)
