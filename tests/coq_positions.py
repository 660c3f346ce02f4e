"""Positions with their statuses, moves and outcomes, as a file of Coq that compares them with coq/Rules.v: coq_positions.py FILE [SECOND FOLDER]

FILE, a source of Coq, gets these rows, each a number in hexadecimal: the answers of crates/dob_answers, which are from outside; 2,000 random positions by both
rules with what pure Python says of them; and, where the second program is named, the moves that it gives 2,000 positions of a table that it builds in FOLDER.
Prints how many rows there are of each kind.
"""
import collections
import pathlib
import random
import re
import subprocess
import sys

sys.dont_write_bytecode = True
sys.path[:0] = ["coq", "tools", "tests"]
from certificate import digits, pure

STATUSES = ["caught", "tried", "stuck", "open"]
KINDS = "LGECH"
rng = random.Random(12)


def any_position():
    """Any legal setup."""
    squares, hands = ["."] * 12, [[0, 0, 0], [0, 0, 0]]
    squares[rng.randrange(9)] = "L"
    squares[rng.choice([s for s in range(12) if squares[s] == "."])] = "l"
    for kind, forms in enumerate(["CHch", "Ee", "Gg"]):
        for _ in range(rng.randrange(3)):
            if rng.random() < 0.4:
                rng.choice(hands)[kind] += 1
            else:
                squares[rng.choice([s for s in range(12) if squares[s] == "."])] = rng.choice(forms)
    return "".join(squares), tuple(hands[0]), tuple(hands[1])


def played_position():
    """One met in a random game from the start."""
    position = pure.read_position("gle/.c./.C./ELG - -")
    for _ in range(rng.randrange(60)):
        status, moves = pure.status_and_moves("A", position)
        if status != "open":
            break
        position = pure.apply(position, rng.choice(moves))
    return position


def random_rows():
    for number in range(2000):
        position = any_position() if number % 2 else played_position()
        while number % 3 and pure.status("A", position) != "open":  # else most are caught
            position = any_position() if number % 2 else played_position()
        for rules in "AB":
            status, _ = pure.status_and_moves(rules, position)
            steps, drops = pure.all_moves(rules, position)
            outcomes = [digits(pure.apply(position, move)) for move in steps + drops if position[0][move[2]] != "l"]
            yield f"0{'AB'.index(rules)}{STATUSES.index(status)}{digits(position)}{''.join(outcomes)}"


def move_digits(text):
    """A move's kind, the square that it leaves, or f for a drop, and the one that it goes to."""
    letter, start, _, end = re.fullmatch(r"([LGECH])([abc][1-4])?([-x*])([abc][1-4])\+?", text).groups()
    squares = [f"{'abc'.index(square[0]) + 3 * int(square[1]) - 3:x}" if square else "f" for square in (start, end)]
    return f"{KINDS.index(letter)}{''.join(squares)}"


def outside_rows():
    folder = pathlib.Path("crates/dob_answers")
    questions, answers = ((folder / name).read_text().split("\n")[:-1] for name in ("stdin", "stdout"))
    for question, answer in zip(questions, answers, strict=True):
        rules = question.startswith("B ")
        word, _, text = question.removeprefix("B ").partition(" ")
        if answer.startswith("dobutsu: ") or word not in ("moves", "after", "catch"):
            continue
        if word == "moves":
            status, *moves = answer.removeprefix("status ").replace(" moves", "", 1).split()
            yield f"1{rules:d}{STATUSES.index(status)}{digits(pure.read_position(text))}{''.join(map(move_digits, moves))}"
        elif word == "catch":
            move = "" if answer == "none" else move_digits(answer)
            yield f"3{rules:d}{digits(pure.read_position(text))}{move}"
        else:
            index, _, text = text.partition(" ")
            yield f"2{rules:d}{int(index):02x}{digits(pure.read_position(text))}{digits(pure.read_position(answer))}"


def second_rows(second, folder):
    """The second program gives moves by their values: in move order steps come first."""
    for rules in "AB":
        file = pathlib.Path(folder, f"{rules}.db")
        subprocess.run([second, "build", "--set", "111", "--rules", rules, "--out", file], check=True, capture_output=True)
        db = pure.open_db(file, check=False)
        texts = []
        while len(texts) < 1000:
            position = db_position(db, rng.randrange(db.count))
            if pure.status(rules, position) == "open":
                texts.append(pure.write_position(position))
        ran = subprocess.run([second, "moves", "--db", file, "-"], input="\n".join(texts) + "\n", capture_output=True, text=True, check=True)
        for text, lines in zip(texts, ran.stdout.strip().split("\n\n"), strict=True):
            moves = sorted((move_digits(word) for word in re.findall(r"[LGECH](?:[abc][1-4][-x]|\*)[abc][1-4]\+?", lines)), key=in_order)
            yield f"1{'AB'.index(rules)}3{digits(pure.read_position(text))}{''.join(moves)}"


def db_position(db, number):
    return pure.position_at(db.profile, db.pieces, number)


def in_order(move):
    return ("f" in move[1], move[1], "CEG".index(KINDS[int(move[0])]) if move[1] == "f" else 0, move[2])


SOURCE = """From Coq Require Import List Arith Hexadecimal Number.
From Dobutsu Require Import Rules Board Decode.
Import ListNotations.

Definition kind_number (k : kind) : nat := number_of (Mine k) - 1.
Definition move_number (m : move) : list nat :=
  match m with Step k from to => [kind_number k; from; to] | Drop k to => [kind_number k; 15; to] end.
Definition position_number (p : position) : list nat :=
  let (b, h, h') := p in
  [4 * chicks h + chicks h'; 4 * elephants h + elephants h'; 4 * giraffes h + giraffes h'] ++ map number_of b.
Definition status_number (s : status) : nat := match s with Caught => 0 | Tried => 1 | Stuck => 2 | Open => 3 end.
Definition same_list (l l' : list nat) : bool := if list_eq_dec Nat.eq_dec l l' then true else false.

Definition agrees (u : Number.uint) : bool :=
  match digits_of u with
  | kind :: r :: ds =>
    let r := match r with 0 => A | _ => B end in
    match kind, ds with
    | 0, s :: ds => (* the outcomes of all moves *)
      let p := position_of (setup_of ds) in
      same_list (s :: skipn 15 ds)
        (status_number (status_of r p) :: flat_map (fun m => if captures_lion p m then [] else position_number (after p m)) (moves r p))
    | 1, s :: ds => (* the moves of an open position *)
      let p := position_of (setup_of ds) in
      same_list (s :: skipn 15 ds)
        (status_number (status_of r p) :: match status_of r p with Open => flat_map move_number (moves r p) | _ => [] end)
    | 2, n1 :: n0 :: ds => (* the outcome of one move *)
      let p := position_of (setup_of ds) in
      same_list (skipn 15 ds) match nth_error (moves r p) (16 * n1 + n0) with Some m => position_number (after p m) | None => [] end
    | 3, ds => (* the first capture of the lion *)
      let p := position_of (setup_of ds) in
      same_list (skipn 15 ds) match filter (captures_lion p) (moves r p) with m :: _ => move_number m | [] => [] end
    | _, _ => false
    end
  | _ => false
  end.

Definition rows : list Number.uint := [
ROWS].

Theorem all_agree : forallb agrees rows = true.
Proof. vm_cast_no_check (eq_refl true). Qed.

(* How many rows there are, and how many would agree with a digit more. *)
Definition longer (u : Number.uint) : Number.uint :=
  match u with UIntHexadecimal u => UIntHexadecimal (revapp (revapp u Nil) (D1 Nil)) | _ => u end.
Eval vm_compute in (length rows, length (filter (fun u => agrees (longer u)) rows)).
"""

if __name__ == "__main__":
    rows = [*outside_rows(), *random_rows(), *(second_rows(*sys.argv[2:]) if len(sys.argv) > 2 else ())]
    pathlib.Path(sys.argv[1]).write_text(SOURCE.replace("ROWS", ";\n".join(f"0x{row}%huint" for row in rows)))
    print(len(rows), *(f"{kind}:{count}" for kind, count in sorted(collections.Counter(row[0] for row in rows).items())))
