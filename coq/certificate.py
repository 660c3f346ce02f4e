#!/usr/bin/env python3
"""Writes what a certificate claims as a theorem of Coq: coq/certificate.py CERTIFICATE FOLDER

The folder gets Lost1.v, Lost2.v, .. with the numbers of the list `lost`, Held1.v, .. with those of the list `held`, and Solution.v with the theorem, which
Coq proves of them by the files of coq/. The certificate is read by pure Python; Coq trusts nothing of what is written but the theorem's own words.
"""
import os
import pathlib
import sys

# In a clone the package is a folder, in an archive a wheel.
PACKAGE = pathlib.Path(__file__).resolve().parent.parent / "python"
sys.path[:0] = [str(PACKAGE), *map(str, PACKAGE.glob("*.whl"))]
from dobutsu import pure  # noqa: E402

LETTERS = ".LGECHlgech"
CELLS = ["Empty", *(f"{side} {kind}" for side in ("Mine", "Theirs") for kind in ("Lion", "Giraffe", "Elephant", "Chick", "Hen"))]
WIDTH = 1000  # digits of a number, about: longer ones take Coq more time than several
NUMBERS = 250  # numbers of a file: more take more memory
START = pure.read_position("gle/.c./.C./ELG - -")


def digits(position):
    """The fifteen digits of a position, as Decode.v reads them."""
    squares, mover, enemy = position
    return "".join(f"{4 * own + other:x}" for own, other in zip(mover, enemy)) + "".join(f"{LETTERS.index(letter):x}" for letter in squares)


def numbers(certificate, listed):
    """The entries of a list whose game goes on, as numbers in hexadecimal. All others show by themselves."""
    entries = sorted((digits(position), min(plies, 255)) for position, plies in open_entries(certificate, listed))
    written, line, last = [], "", ""
    for text, plies in entries:
        if len(line) > WIDTH:
            written.append(line)
            line = last = ""
        shared = len(os.path.commonprefix([text, last]))
        line += f"{shared:x}{text[shared:]}{plies:02x}"
        last = text
    return [*written, line] if line else []


def open_entries(certificate, listed):
    for number, plies in listed.items():
        position = certificate.position_at(number)
        if pure.status(certificate.profile, position) == "open":
            yield position, plies


def setup_text(position, constructor):
    """A position as a term of Coq, by rows from row 1 on."""
    squares, *hands = position
    cells = [CELLS[LETTERS.index(letter)] for letter in squares]
    hand_texts = " ".join(f"(Hand {chicks} {elephants} {giraffes})" for chicks, elephants, giraffes in hands)
    if constructor == "Setup":
        return f"Setup {' '.join(f'({cell})' if ' ' in cell else cell for cell in cells)} {hand_texts}"
    rows = ";\n   ".join("; ".join(cells[row : row + 3]) for row in (0, 3, 6, 9))
    return f"Position\n  [{rows}]\n  {hand_texts}"


def claim_of(certificate, root):
    """The statement of the theorem, and the claim as a term of Checker.v."""
    rules, plies = certificate.profile, certificate.plies
    value = {"win": f"(Win {plies})", "loss": f"(Loss {plies})", "draw": "Draw"}
    if certificate.claim == "loss within":
        return f"lost {rules} {plies} {root}", f"(LossWithin {plies})"
    if certificate.claim == "win within":
        return f"won {rules} {plies} {root}", f"(WinWithin {plies})"
    return f"has_value {rules} {root} {value[certificate.claim]}", f"(Exactly {value[certificate.claim]})"


def write(certificate, folder):
    """Writes the files, and answers the names of those with numbers, without `.v`."""
    names, trees = [], {}
    for name, listed in ("Lost", certificate.lost), ("Held", certificate.held):
        lines = numbers(certificate, listed)
        parts = [lines[at : at + NUMBERS] for at in range(0, len(lines), NUMBERS)]
        trees[name] = "Void"
        for part, of_part in enumerate(parts, 1):
            names.append(f"{name}{part}")
            trees[name] = f"(read_all {names[-1]}.numbers {trees[name]})"
            pathlib.Path(folder, f"{names[-1]}.v").write_text(
                "From Coq Require Import List Hexadecimal Number.\nImport ListNotations.\n"
                + "Definition numbers : list Number.uint := [\n" + ";\n".join(f"0x{line}%huint" for line in of_part) + "].\n"
            )
    position = certificate.position()
    root = "start" if position == START else "root"
    statement, claim = claim_of(certificate, root)
    defined = "" if root == "start" else f"Definition root : position := {setup_text(position, 'Position')}.\n\n"
    pathlib.Path(folder, "Solution.v").write_text(f"""From Coq Require Import List.
From Dobutsu Require Import Rules Board Checker Decode {' '.join(names)}.
Import ListNotations.

{defined}Definition losing : tree := {trees['Lost']}.
Definition holding : tree := {trees['Held']}.
Definition setup_of_claim : setup := {setup_text(position, 'Setup')}.

Theorem solution : {statement}.
Proof.
  apply (accepts_sound {certificate.profile} (entries_of losing) (entries_of holding) {claim} setup_of_claim).
  vm_cast_no_check (eq_refl true).
Qed.

{f'Print {root}.' if defined else ''}
Check solution.
Print Assumptions solution.
""")
    return names


if __name__ == "__main__":
    if len(sys.argv) != 3:
        sys.exit(__doc__.strip())
    write(pure.open_certificate(sys.argv[1]), sys.argv[2])
