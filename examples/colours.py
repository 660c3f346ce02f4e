#!/usr/bin/env python3
"""From a board with two colours to the index of a table, and back: python3 examples/colours.py SET [RULES]

Many programs keep the first player's pieces in one colour and the second's in the other, on squares that never turn, and say who is to move. Tables see each
position from the side to move: where the second player is to move the board is turned (square s, from a1 = 0 to c4 = 11, becomes 11 - s) and the colours and
hands are exchanged. Below are both ways, for positions and moves, and what a class number stands for. Run, it goes there and back for each class of the set.
"""
import doctest
import pathlib
import sys

sys.path.insert(0, str(pathlib.Path(__file__).resolve().parent.parent / "python"))
from dobutsu import pure  # noqa: E402


def seen(squares, hands, is_first):
    """The board as the side to move sees it, or back: the same way both times. Squares are letters from a1 to c4, capitals the first player's; hands
    are the first player's and the second's, three numbers each: chicks, elephants, giraffes.

    >>> seen("ELG.C..c.gle", ((0, 0, 0), (0, 0, 0)), False)
    ('ELG.C..c.gle', ((0, 0, 0), (0, 0, 0)))
    >>> seen("E.GLC..c.gle", ((0, 0, 0), (1, 0, 0)), False)
    ('ELG.C..clg.e', ((1, 0, 0), (0, 0, 0)))
    """
    return (squares, hands) if is_first else (squares[::-1].swapcase(), hands[::-1])


def moved(move, is_first):
    """The squares and letter of a move, as a table tells them, in two colours, or back.

    >>> moved("Lb1-a2", True), moved("Cb2xb3", False), moved("E*a1", False)
    ('Lb1-a2', 'cb3xb2', 'e*c4')
    """
    return move if is_first else move[0].swapcase() + move[1:].translate(str.maketrans("abc1234", "cba4321"))


def index_of(squares, hands, is_first, rules="A"):
    """The number of the position's class: its record is the two bytes at 21 + 2 times it, a `u16` with the lowest byte first."""
    squares, hands = seen(squares, hands, is_first)
    return pure.class_number(rules, (squares, *hands))


def board_of(number, pieces, is_first, rules="A"):
    """A board of that class with that side to move; its mirror image is the same class."""
    squares, *hands = pure.position_at(rules, pieces, number)
    return seen(squares, tuple(hands), is_first)


if __name__ == "__main__":
    if len(sys.argv) not in (2, 3):
        sys.exit(__doc__.strip())
    assert not doctest.testmod().failed
    pieces, rules = tuple(map(int, sys.argv[1])), (sys.argv[2:] or ["A"])[0]
    for number in range(pure.class_count(rules, pieces)):
        for is_first in (True, False):
            assert index_of(*board_of(number, pieces, is_first, rules), is_first, rules) == number
    print(f"{pure.class_count(rules, pieces)} classes there and back, by both colours")
