"""SFEN of Fairy-Stockfish's variant, read, written and moved: python_sfens.py FILE, whose lines are an SFEN and the move that led to it"""
import re
import sys
from dobutsu import Fault, Position
def seen(square, side):
    return square if side == "b" else square.translate(str.maketrans("abc1234", "cba4321"))
def moved(position, move, side):
    """The move's text here: it begins with the piece, and says whether one is caught."""
    letter, dropped, end = move.partition("*" if "*" in move else "@")
    if dropped:
        return f"{letter}*{seen(end, side)}"
    squares = {f"{column}{row}": position.text[4 * (4 - row) + at] for row in range(1, 5) for at, column in enumerate("abc")}
    start, end = seen(move[:2], side), seen(move[2:4], side)
    return squares[start] + start + ("-" if squares[end] == "." else "x") + end + move[4:]
number = 0
for line in open(sys.argv[1]):
    sfen, move = line.rstrip("\n").split(" = ")
    side, count = sfen.split()[1], int(sfen.split()[3])
    position = Position.from_sfen(sfen)
    assert position.sfen(side, count) == sfen, sfen
    assert Position.from_sfen(position.sfen("w" if side == "b" else "b")) == position, sfen
    assert Position.from_sfen(sfen.rpartition(" ")[0]) == position, sfen
    before = Position("gle/.c./.C./ELG - -") if count == 2 else before
    assert before.after(moved(before, move, "w" if side == "b" else "b")) == position, line
    before, number = position, number + 1
assert number > 100, number
start = "gle/1c1/1C1/ELG b - 1"
assert Position.from_sfen(start).text == "gle/.c./.C./ELG - -"
for text in ("", "gle/1c1/1C1/ELG", "gle/1c1/1C1 b - 1", "gle/1c1/1C1/EL b - 1", "gle/1c1/1C1/ELG2 b - 1", "gle/1c1/1C1/ELG x - 1",
             "gle/1c1/1C1/ELG b 1", "gle/1c1/1C1/ELG b L 1", "gle/1c1/1C1/ELG b - 0", "gle/1c1/1C1/ELG b - 1 1", "gle/1h1/1C1/ELG b - 1",
             "+gle/1c1/1C1/ELG b - 1", "4/1l1/1L1/3 b - 1",
             "gle/.c./1C1/ELG b - 1", "gle/1c1/1C1/ELG  b - 1", "gle/1c1/1C1/ELG[-] b 0 1"):
    try:
        raise AssertionError((text, Position.from_sfen(text)))
    except ValueError as error:
        assert not isinstance(error, Fault), text
for text, fault in ("3/3/3/1L1 b - 1", "E4"), ("1l1/3/3/1L1 b 3c 1", "E5"), ("1L1/3/3/1l1 b - 1", "E6"), ("1L1/3/3/1l1 w - 1", "E6"):
    try:
        raise AssertionError((text, Position.from_sfen(text)))
    except Fault as error:
        assert str(error).startswith(fault), (text, error)
print(number, "texts")
