#!/usr/bin/env python3
"""Asks a table, with nothing built: python3 examples/ask.py FILE [POSITION ..]

Prints the value of each position, each of its moves with its value, best first, and best play to the end. Without a POSITION it asks the start of the whole
game. Pure Python answers, unproved; where `libdobutsu.so` lies beside the package it is the proved library.
"""
import pathlib
import sys

sys.path.insert(0, str(pathlib.Path(__file__).resolve().parent.parent / "python"))
from dobutsu import Fault, Table  # noqa: E402

START = "gle/.c./.C./ELG - -"

if len(sys.argv) < 2:
    sys.exit(__doc__.strip())
with Table(sys.argv[1]) as table:
    for text in sys.argv[2:] or [START]:
        try:
            print(table[text], *table.moves(text), " ".join(table.line(text)), sep="\n")
        except Fault as fault:
            print(f"{fault}: {fault.sentence}")
