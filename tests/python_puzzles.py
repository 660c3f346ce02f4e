"""Prints seven puzzles won in three plies as the program does: python_puzzles.py TABLE [SEED]"""
import sys
from dobutsu import Table

for position, move in Table(sys.argv[1]).puzzles(3, 7, *map(int, sys.argv[2:])):
    print(f"{position}  {move}")
