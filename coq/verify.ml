(* Runs the checker that Extract.v makes of Checker.v on a certificate: verify FILE DIGEST [progress]

   DIGEST is the SHA-256 of the file but its last 32 bytes, in hexadecimal. Nothing here is proved. For a printed claim to be so it is enough that [entry] and
   [place] of a list answer the same for the same argument, that what they answer isn't negative, and that the text printed is the one of the call of
   [accepts] whose answer was true. Whether the file is read as it is written doesn't matter for that, only for the faults. *)
open Checker

exception Fault of string

let fault text = raise (Fault text)

(* ---- a position as a number: twelve cells of 4 bits, and the hands, 2 bits for each kind *)

let letters = ".LGECHlgech"
let cells = [| Empty; Mine Lion; Mine Giraffe; Mine Elephant; Mine Chick; Mine Hen;
               Theirs Lion; Theirs Giraffe; Theirs Elephant; Theirs Chick; Theirs Hen |]
let cell_number = function
  | Empty -> 0
  | Mine Lion -> 1 | Mine Giraffe -> 2 | Mine Elephant -> 3 | Mine Chick -> 4 | Mine Hen -> 5
  | Theirs Lion -> 6 | Theirs Giraffe -> 7 | Theirs Elephant -> 8 | Theirs Chick -> 9 | Theirs Hen -> 10

let hand_code h = h.chicks lor (h.elephants lsl 2) lor (h.giraffes lsl 4)
let hands = Array.init 64 (fun i -> { chicks = i land 3; elephants = (i lsr 2) land 3; giraffes = i lsr 4 })
let code w =
  cell_number w.on_a1 lor (cell_number w.on_b1 lsl 4) lor (cell_number w.on_c1 lsl 8)
  lor (cell_number w.on_a2 lsl 12) lor (cell_number w.on_b2 lsl 16) lor (cell_number w.on_c2 lsl 20)
  lor (cell_number w.on_a3 lsl 24) lor (cell_number w.on_b3 lsl 28) lor (cell_number w.on_c3 lsl 32)
  lor (cell_number w.on_a4 lsl 36) lor (cell_number w.on_b4 lsl 40) lor (cell_number w.on_c4 lsl 44)
  lor (hand_code w.own_hand lsl 48) lor (hand_code w.their_hand lsl 54)
let setup code =
  let on i = cells.((code lsr (4 * i)) land 15) in
  { on_a1 = on 0; on_b1 = on 1; on_c1 = on 2; on_a2 = on 3; on_b2 = on 4; on_c2 = on 5; on_a3 = on 6;
    on_b3 = on 7; on_c3 = on 8; on_a4 = on 9; on_b4 = on 10; on_c4 = on 11;
    own_hand = hands.((code lsr 48) land 63); their_hand = hands.((code lsr 54) land 63) }
let image_code code =
  let left = 0x00f00f00f00f in
  (code land (0x0f00f00f00f0 lor (0xfff lsl 48))) lor ((code land left) lsl 8) lor ((code lsr 8) land left)

let position_text code =
  let w = setup code in
  let board = String.init 15 (fun i -> if i mod 4 = 3 then '/' else letters.[(code lsr (4 * (((3 - (i / 4)) * 3) + (i mod 4)))) land 15]) in
  let hand h c e g = match String.make h.chicks c ^ String.make h.elephants e ^ String.make h.giraffes g with "" -> "-" | text -> text in
  Printf.sprintf "%s %s %s" board (hand w.own_hand 'C' 'E' 'G') (hand w.their_hand 'c' 'e' 'g')

(* ---- the classes of a family in order (docs/FORMAT.md, docs/CLASSES.md): runs of one block, with one hand and the lions on the same squares *)

let mirrored s = s + 2 - (2 * (s mod 3))
let rec combinations n = function
  | _ when n = 0 -> [ [] ]
  | [] -> []
  | s :: rest -> List.map (fun c -> s :: c) (combinations (n - 1) rest) @ combinations n rest
let rec binomial n k = if k = 0 then 1 else if n = 0 then 0 else binomial (n - 1) (k - 1) + binomial (n - 1) k
let form_letters = [| [| 4; 5; 9; 10 |]; [| 3; 8 |]; [| 2; 7 |] |] (* the cells of the mover's chick, hen, .. *)

let forms_at is_b kind square =
  let all = List.init (Array.length form_letters.(kind)) Fun.id in
  if kind = 0 && is_b then List.filter (fun f -> not ((f = 0 && square >= 9) || (f = 2 && square < 3))) all else all

(* The run of a block with these lions: how many classes it has, and a walk over them that leaves out what isn't due. [due n] says whether a class is wanted
   of the next n, [pass n] goes over so many, and [meet board] takes one. *)
let run is_b on own other =
  let form_count squares = List.fold_left (fun n s -> n * List.length (forms_at is_b 0 s)) 1 squares in
  let b1 = binomial (10 - on.(0)) on.(1) and b2 = binomial (10 - on.(0) - on.(1)) on.(2) in
  let f = 1 lsl (on.(1) + on.(2)) in
  let others = [| b1 * b2 * f; b1 * b2 * f; b2 * f; f; f; 1 lsl on.(2); 1 |] in
  let free = List.filter (fun s -> s <> own && s <> other) (List.init 12 Fun.id) in
  let memo = Hashtbl.create 99 in
  let options chosen digit =
    if digit >= 3 then
      List.fold_right (fun s rest -> List.concat_map (fun f -> List.map (fun r -> f :: r) rest) (forms_at is_b (digit - 3) s)) chosen.(digit - 3) [ [] ]
    else
      let taken = Array.fold_left (List.fold_left (fun t s -> t lor (1 lsl s))) 0 (Array.sub chosen 0 digit) in
      match Hashtbl.find_opt memo (digit, taken) with
      | Some l -> l
      | None ->
        let l = combinations on.(digit) (List.filter (fun s -> taken land (1 lsl s) = 0) free) in
        Hashtbl.add memo (digit, taken) l;
        l in
  (* how an option's image stands to the option *)
  let order chosen digit option =
    compare
      (if digit < 3 then List.sort compare (List.map mirrored option)
       else List.map snd (List.sort compare (List.map2 (fun s f -> (mirrored s, f)) chosen.(digit - 3) option)))
      option in
  let ways chosen digit = others.(digit) * if digit >= 1 && digit <= 3 then form_count chosen.(0) else 1 in
  let chosen_with chosen digit option = let c = Array.copy chosen in c.(digit) <- option; c in
  let rec fixed chosen digit =
    if digit = 6 then 1
    else
      List.fold_left (fun n o -> if order chosen digit o = 0 then n + fixed (chosen_with chosen digit o) (digit + 1) else n) 0 (options chosen digit) in
  let nothing = Array.make 6 [] in
  let size = List.fold_left (fun n o -> n + (others.(1) * form_count o)) 0 (options nothing 0) in
  let way = compare (own, other) (mirrored own, mirrored other) in
  let count = if way < 0 then size else if way > 0 then 0 else (size + fixed nothing 0) / 2 in
  let rec go due pass meet chosen digit is_mixed =
    if digit = 6 then begin
      if due 1 then begin
        let board = ref ((1 lsl (4 * own)) lor (6 lsl (4 * other))) in
        for k = 0 to 2 do
          List.iter2 (fun s f -> board := !board lor (form_letters.(k).(f) lsl (4 * s))) chosen.(k) chosen.(k + 3)
        done;
        meet !board
      end;
      pass 1
    end
    else
      List.iter (fun o ->
          let w = if is_mixed then order chosen digit o else 1 in
          let chosen = chosen_with chosen digit o in
          let n = if w < 0 then 0 else ways chosen (digit + 1) in
          let n = if w = 0 then (n + fixed chosen (digit + 1)) / 2 else n in
          if n > 0 then if due n then go due pass meet chosen (digit + 1) (w = 0) else pass n)
        (options chosen digit) in
  (count, fun due pass meet -> go due pass meet nothing 0 (way = 0))

(* Each run of a family in order, with its hands as bits. *)
let each_run is_b pieces act =
  for c = 0 to pieces.(0) do for e = 0 to pieces.(1) do for g = 0 to pieces.(2) do
    let on = [| c; e; g |] in
    let runs = Hashtbl.create 99 in
    let run own other =
      match Hashtbl.find_opt runs (own, other) with
      | Some r -> r
      | None -> let r = run is_b on own other in Hashtbl.add runs (own, other) r; r in
    for hc = 0 to pieces.(0) - c do for he = 0 to pieces.(1) - e do for hg = 0 to pieces.(2) - g do
      let enemy = (pieces.(0) - c - hc) lor ((pieces.(1) - e - he) lsl 2) lor ((pieces.(2) - g - hg) lsl 4) in
      let hands = ((hc lor (he lsl 2) lor (hg lsl 4)) lsl 48) lor (enemy lsl 54) in
      for own = 0 to 8 do for other = 0 to 11 do if own <> other then act hands (run own other) done done
    done done done
  done done done

let class_count is_b pieces =
  let count = ref 0 in
  each_run is_b pieces (fun _ (n, _) -> count := !count + n);
  !count

(* The codes of the representatives of ascending classes, each given to [emit] with its place among them. *)
let walk is_b pieces (classes : int array) emit =
  let next = ref 0 and base = ref 0 in
  let due n = !next < Array.length classes && classes.(!next) < !base + n in
  let pass n = base := !base + n in
  each_run is_b pieces (fun hands (count, go) ->
      if due count then go due pass (fun board -> emit !next (board lor hands); incr next) else pass count)

(* ---- the file, with the faults of docs/FORMAT.md in their order *)

type list_read = { classes : int array; bytes : Bytes.t }
type certificate = { is_b : bool; pieces : int array; root : int; kind : int; plies : int; lost : list_read; held : list_read }

let certificate data digest =
  let length = String.length data in
  let byte i = Char.code data.[i] in
  let u32 i = byte i lor (byte (i + 1) lsl 8) lor (byte (i + 2) lsl 16) lor (byte (i + 3) lsl 24) in
  if length < 28 then fault "E15 Truncated";
  if String.sub data 0 8 <> "DOBUCERT" then fault "E16 Magic";
  if byte 8 <> 1 then fault "E32 Version";
  let pieces = [| byte 9; byte 10; byte 11 |] in
  if Array.exists (fun n -> n > 2) pieces || byte 12 <> 2 then fault "E17 SetByte";
  if byte 13 > 1 then fault "E27 ProfileByte";
  let is_b = byte 13 = 1 and root = u32 14 and kind = byte 18 and plies = byte 19 in
  let all = class_count is_b pieces in
  if root >= all then fault "E33 RootClass";
  if kind > 4 || plies = 255 || (kind = 0 && plies > 0) then fault "E34 ClaimByte";
  if u32 20 > all || u32 24 > all then fault "E35 EntryCount";
  let place = ref 28 in
  let next () = if !place >= length then fault "E15 Truncated" else (incr place; byte (!place - 1)) in
  let rec number digit =
    let b = next () in
    if b < 128 then if b = 0 && digit > 0 then fault "E36 EntryNumber" else b lsl (7 * digit)
    else if digit = 4 then fault "E36 EntryNumber"
    else ((b land 127) lsl (7 * digit)) lor number (digit + 1) in
  let list count is_lost =
    (* an entry has two bytes at least, so that a count claims no memory that no bytes pay for *)
    let room = min count (length / 2) in
    let classes = Array.make room 0 and bytes = Bytes.create room and last = ref (-1) in
    for i = 0 to count - 1 do
      let step = number 0 in
      if step = 0 then fault "E37 EntryOrder";
      last := !last + step;
      if !last >= all then fault "E38 EntryClass";
      let plies = next () in
      if is_lost && plies = 255 then fault "E42 EntryPlies";
      classes.(i) <- !last;
      Bytes.set bytes i (Char.chr plies)
    done;
    { classes; bytes } in
  let lost = list (u32 20) true in
  let held = list (u32 24) false in
  if length < !place + 32 then fault "E15 Truncated";
  if length > !place + 32 then fault "E19 Trailing";
  let own = String.concat "" (List.init 32 (fun i -> Printf.sprintf "%02x" (byte (!place + i)))) in
  if own <> digest then fault "E20 Digest";
  { is_b; pieces; root; kind; plies; lost; held }

(* ---- a list in memory: arrays, and a table of places, whose slots have an entry's number and a byte of its hash *)

let is_told = Array.length Sys.argv > 3
let codes_of c read =
  let codes = Bigarray.(Array1.create int c_layout (Array.length read.classes)) in
  walk c.is_b c.pieces read.classes (fun i code -> codes.{i} <- code);
  codes

(* [is_in code] says which entries can be found. *)
let list_by name codes bytes is_in =
  let n = Bigarray.Array1.dim codes in
  let rec bits_from b = if 1 lsl b > 2 * n then b else bits_from (b + 1) in
  let bits = bits_from 4 in
  let mask = (1 lsl bits) - 1 in
  let table = Bigarray.(Array1.create int32 c_layout (1 lsl bits)) in
  let tags = Bytes.make (1 lsl bits) '\000' in
  let hash code image = (if code < image then code else image) * 0x1e3779b97f4a7c15 in
  let slot_of h = (h lsr (63 - bits)) land mask and tag_of h = Char.unsafe_chr (1 + (((h lsr 20) land 0xff) mod 255)) in
  for i = 0 to n - 1 do
    if is_in codes.{i} then begin
      let h = hash codes.{i} (image_code codes.{i}) in
      let slot = ref (slot_of h) in
      while Bytes.get tags !slot <> '\000' do slot := (!slot + 1) land mask done;
      Bytes.set tags !slot (tag_of h);
      table.{!slot} <- Int32.of_int i
    end
  done;
  let looked_up = ref false in
  let entry i =
    if !looked_up then looked_up := false
    else if is_told && i land 0xfffff = 0 then Printf.eprintf "%s: %d of %d entries to go\n%!" name i n;
    (setup codes.{i}, Char.code (Bytes.get bytes i)) in
  let place w =
    let code = code w in
    let image = image_code code in
    let h = hash code image in
    let tag = tag_of h in
    let rec look slot =
      let found = Bytes.get tags slot in
      if found = '\000' then n
      else
        let i = if found = tag then Int32.to_int table.{slot} else n in
        if i < n && (codes.{i} = code || codes.{i} = image) then (looked_up := true; i) else look ((slot + 1) land mask) in
    look (slot_of h) in
  entries_by n entry place

(* ---- what is asked *)

let claim_of kind n =
  match kind with
  | 0 -> (Exactly Draw, "draw", "neither side can force an end.")
  | 1 -> (Exactly (Win n), Printf.sprintf "win %d" n,
          Printf.sprintf "the side to move wins within %d plies, whatever the enemy plays, and the enemy can hold out so long." n)
  | 2 -> (Exactly (Loss n), Printf.sprintf "loss %d" n,
          Printf.sprintf "whatever the side to move plays, it loses within %d plies, and it can hold out so long." n)
  | 3 -> (WinWithin n, Printf.sprintf "win within %d" n, Printf.sprintf "the side to move wins within %d plies, whatever the enemy plays." n)
  | _ -> (LossWithin n, Printf.sprintf "loss within %d" n, Printf.sprintf "whatever the side to move plays, it loses within %d plies." n)

(* Why the checker refuses: the first entry, of `lost` and then of `held`, that the entries whose game goes on don't show; or the claim. *)
let reason c r (lost, held) claim w =
  let is_open code = status_on r (setup code) = Open in
  let losing = list_by "lost" lost c.lost.bytes is_open and holding = list_by "held" held c.held.bytes is_open in
  let first codes read test =
    Array.iteri (fun i number ->
        if not (test (setup codes.{i}) (Char.code (Bytes.get read.bytes i))) then fault (Printf.sprintf "E30 Unsupported class %d" number))
      read.classes in
  first lost c.lost (upheld r losing);
  first held c.held (Checker.held r holding);
  if shows r losing holding claim w then failwith "the checker refuses what its parts accept";
  fault "E31 Claim"

let verify path digest =
  let data = let file = open_in_bin path in Fun.protect ~finally:(fun () -> close_in file) (fun () -> really_input_string file (in_channel_length file)) in
  let c = certificate data digest in
  let root = ref 0 in
  walk c.is_b c.pieces [| c.root |] (fun _ code -> root := code);
  let w = setup !root and r = if c.is_b then B else A in
  let claim, short, long = claim_of c.kind c.plies in
  let lost = codes_of c c.lost and held = codes_of c c.held in
  let always _ = true in
  if accepts r (list_by "lost" lost c.lost.bytes always) (list_by "held" held c.held.bytes always) claim w then begin
    Printf.printf "%s %s%s\n\n" (position_text !root) short (if c.is_b then " by rules B" else "");
    Printf.printf "By rules %s, from %s: %s\n" (if c.is_b then "B" else "A") (position_text !root) long
  end
  else reason c r (lost, held) claim w

let () =
  try verify Sys.argv.(1) Sys.argv.(2) with
  | Fault text -> prerr_endline ("dobutsu: " ^ text); exit 1
  | Sys_error _ | End_of_file -> prerr_endline "dobutsu: E24 Io"; exit 3
  | Out_of_memory -> prerr_endline "dobutsu: E23 Memory"; exit 3
