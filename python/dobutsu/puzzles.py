"""Puzzles of a database file: positions that one move alone wins soonest, in the file's order or in one that a seed makes.

The order of a seed is that of `dobutsu puzzles --random`, as the crate `dob_shuffle` says it, so that both print the same puzzles.
"""
from __future__ import annotations

import math
from collections.abc import Iterator

from . import pure

WORDS = 1 << 64
GOLDEN = 0x9E3779B97F4A7C15  # from a state of SplitMix64 to the next one
ROUNDS = 3


def word(state: int) -> int:
    """The word that SplitMix64 (Steele, Lea and Flood 2014) makes from a state.

    >>> word(1234567), word(1234567 + GOLDEN)
    (6457827717110365317, 3203168211198807973)
    """
    mixed = (state + GOLDEN) % WORDS
    mixed = (mixed ^ mixed >> 30) * 0xBF58476D1CE4E5B9 % WORDS
    mixed = (mixed ^ mixed >> 27) * 0x94D049BB133111EB % WORDS
    return mixed ^ mixed >> 31


def shuffled(seed: int, count: int) -> Iterator[int]:
    """The numbers below the count, each once, in the order that the seed makes, which is below 2^64.

    >>> list(shuffled(1, 10))
    [0, 3, 2, 9, 6, 1, 8, 7, 4, 5]
    """
    side = math.isqrt(count) + 1
    keys = [word(seed + GOLDEN * i) for i in range(ROUNDS)]
    for place in range(side * side):
        row, column = divmod(place, side)
        for key in keys:
            column = (column + word(key + row)) % side
            row = (row + word(key + side + column)) % side
        if (number := row * side + column) < count:
            yield number


def outline(position: pure.Position) -> tuple[object, ...]:
    """How many pieces of each kind stand on the board, and where the lions stand: of two with the same a shuffled list has one."""
    squares = position[0]
    return tuple(sum(squares.count(letter) for letter in pure.FORMS_OF[kind]) for kind in pure.KINDS), squares.index("L"), squares.index("l")


def puzzles(db: pure.Db, plies: int, count: int, seed: int | None = None) -> list[tuple[int, str, str]]:
    """The first puzzles won in so many plies, at most so many: the number of each one's class, its position, and its move."""
    if plies < 3 or plies % 2 == 0:
        raise ValueError(f"no puzzle is won in {plies} plies: an odd number of at least 3")
    found: list[tuple[int, str, str]] = []
    outlines = set()
    for number in range(db.count) if seed is None else shuffled(seed, db.count):
        if len(found) >= count:
            break
        if db.record_at(number) != plies + 1:
            continue
        position = pure.position_at(db.profile, db.pieces, number)
        text = pure.write_position(position)
        winning = [move for move, value in db.moves(text) if value == f"win {plies}"]
        if len(winning) == 1 and not (seed is not None and outline(position) in outlines):
            outlines.add(outline(position))
            found.append((number, text, winning[0]))
    return found
