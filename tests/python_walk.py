"""Prints the position of each class in the order of a file, with its value; each of its moves leads to a value that fits: python_walk.py FILE"""
import sys
from dobutsu import Table, after_move
with Table(sys.argv[1]) as table:
    for text, value in table.positions():
        print(text, value, sep=" = ")
        for move in table.moves(text):
            after = after_move(table.rules, text, move.text)
            assert after is None or table[after].plies + (table[after].kind != "draw") == move.value.plies, (text, move)
