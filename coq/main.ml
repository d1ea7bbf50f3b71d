(* Reads files for the extracted checker, and prints its answers. Not proved.
     coq-check check PROFILE FILTER CERTIFICATE    the line of `ccell check`, with its status; 3 for what is no profile
     coq-check verdict FILTER RECORD               the line of `ccell verdict`
     coq-check decide PROFILE RECORD               the verdict of the profile
   PROFILE is what `ccell read MACHINE FILE rules` prints. *)
open Checker

let rec positive i = if i = 1 then XH
  else let half = positive (i lsr 1) in if i land 1 = 1 then XI half else XO half
let number i = if i = 0 then N0 else Npos (positive i)
let rec int_of_positive = function XH -> 1 | XO p -> 2 * int_of_positive p | XI p -> 2 * int_of_positive p + 1
let int_of = function N0 -> 0 | Npos p -> int_of_positive p

let read name =
  let file = open_in_bin name in
  let buffer = Buffer.create 4096 in
  (try while true do Buffer.add_channel buffer file 1 done with End_of_file -> ());
  close_in file;
  Buffer.contents buffer
let bytes = Array.init 256 number
let bytes_of name = let text = read name in List.init (String.length text) (fun i -> bytes.(Char.code text.[i]))

let record name =
  let text = read name in
  let words = Array.init 16 (fun i -> number (Int32.to_int (String.get_int32_le text (4 * i)) land 0xffffffff)) in
  fun i -> words.(int_of i)

(* ---- answers *)

let view_line = function NotMultipleOf8 -> "1 NotMultipleOf8" | Empty -> "2 Empty" | TooLong -> "3 TooLong"
let cause_line = function
  | BadCode -> "1 Code" | BadLoad -> "2 Load" | BadShift -> "3 Shift" | BadTarget -> "4 Target" | BadEnd -> "5 End"
  | BadScratch -> "6 Scratch"
let form_line = function
  | BadMagic -> "1 BadMagic" | BadVersion -> "2 BadVersion" | Truncated -> "3 Truncated" | BadNode -> "4 BadNode"
  | BadCount -> "5 BadCount" | Trailing -> "6 Trailing"
let rule_line = function
  | Root -> "4 Root"
  | Edge n -> Printf.sprintf "5 Edge node %d" (int_of n)
  | Entail n -> Printf.sprintf "6 Entail node %d" (int_of n)
  | ReturnRule n -> Printf.sprintf "7 Return node %d" (int_of n)
  | SplitRule n -> Printf.sprintf "8 Split node %d" (int_of n)

let no_profile why = prerr_endline ("coq-check: no profile" ^ why); exit 3

let line = function
  | NoProfile -> no_profile ""
  | Contradiction -> no_profile ": one record can match two rules with different verdicts"
  | Yes -> "yes"
  | View fault -> "no 1 View " ^ view_line fault
  | Kernel (cause, position) -> Printf.sprintf "no 2 Kernel %s pc %d" (cause_line cause) (int_of position)
  | Form fault -> "no 3 Form " ^ form_line fault
  | Rule broken -> "no " ^ rule_line broken

let verdict_line filter record =
  match view false (bytes_of filter) with
  | Inl fault -> "refused view " ^ view_line fault
  | Inr program ->
      match refusal program with
      | Some (cause, position) -> Printf.sprintf "refused kernel %s pc %d" (cause_line cause) (int_of position)
      | None -> (match run program record with Some verdict -> Printf.sprintf "0x%08x" (int_of verdict) | None -> "nothing")

let () =
  match List.tl (Array.to_list Sys.argv) with
  | ["check"; name; filter; certificate] ->
      let answer = check_files (bytes_of name) (bytes_of filter) (bytes_of certificate) in
      print_endline (line answer);
      exit (if answer = Yes then 0 else 1)
  | ["verdict"; filter; name] -> print_endline (verdict_line filter (record name))
  | ["decide"; name; given] ->
      (match profile_of (bytes_of name) with
       | Some (_, profile) -> Printf.printf "0x%08x\n" (int_of (decide profile (record given)))
       | None -> no_profile "")
  | _ -> prerr_endline "usage: coq-check check PROFILE FILTER CERTIFICATE | verdict FILTER RECORD | decide PROFILE RECORD"; exit 2
