#!/usr/bin/env python3
"""Reads a database file in pure Python, as a program, `read_db.py FILE POSITION..`, or as a module: dobutsu.pure of the folder python/."""
import pathlib
import sys

sys.path.insert(0, str(pathlib.Path(__file__).resolve().parent.parent / "python"))
from dobutsu.pure import *  # noqa: E402, F403
from dobutsu.pure import main  # noqa: E402

if __name__ == "__main__":
    main()
