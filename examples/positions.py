#!/usr/bin/env python3
"""Lists the positions of a table that have a value: python3 examples/positions.py FILE VALUE, as `draw`, `win`, `loss` or "win 3"

Each line is a class: a position that stands for itself and its mirror image, which has the same value.
"""
import pathlib
import sys

sys.path.insert(0, str(pathlib.Path(__file__).resolve().parent.parent / "python"))
from dobutsu import Table  # noqa: E402

if len(sys.argv) != 3:
    sys.exit(__doc__.strip())
with Table(sys.argv[1]) as table:
    for text, value in table.positions():
        if sys.argv[2] in (value.kind, str(value)):
            print(text)
