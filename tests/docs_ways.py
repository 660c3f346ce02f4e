"""Whether the moves of docs/results_longest.csv lead from the starting layout to the classes beside them, in as many plies: docs_ways.py"""
import csv
import sys

sys.dont_write_bytecode = True
sys.path[:0] = ["tools", "python"]
import read_db  # noqa: E402
from dobutsu import Position  # noqa: E402

START = "gle/.c./.C./ELG - -"


def number(rules, text):
    return read_db.class_number(rules, read_db.read_position(text))


def as_its_mover_sees(move):
    """The move of the second player, which a line has in small letters with squares as the first one sees them."""
    piece, squares = move[0].upper(), move[1:].translate(str.maketrans("ac1234", "ca4321"))
    return piece + squares


rows = list(csv.DictReader(open("docs/results_longest.csv")))
assert rows
for row in rows:
    moves = row["moves"].split()
    assert len(moves) == int(row["plies"] or 0), row
    position = Position(START)
    for ply, move in enumerate(moves):
        position = position.after(as_its_mover_sees(move) if ply % 2 else move, row["rules"])
    assert not moves or number(row["rules"], str(position)) == number(row["rules"], row["position"]), row
print(f"{len(rows)} classes")
