"""Positions: their texts, the moves made on them, the texts of another program, and pictures."""
from __future__ import annotations

import dataclasses
import re

from . import pure

SFEN_ROW = re.compile(r"(?:[1-3]|\+[Cc]|[LGECglec])+")
SFEN_HANDS = re.compile(r"-|(?:[1-9]?[GECgec])+")


class IllegalMove(ValueError):
    """The position has no such move by these rules."""


@dataclasses.dataclass(frozen=True)
class Position:
    """A position, as the side to move sees it, by its text.

    >>> position = Position("gle/.c./.C./ELG - -")
    >>> print(position.after("Cb2xb3"))
    gle/.../.c./ELG - c
    >>> position.sfen()
    'gle/1c1/1C1/ELG b - 1'
    >>> Position.from_sfen("gle/1C1/3/ELG w C 2") == position.after("Cb2xb3")
    True

    In a notebook it shows as a board. Raises `Fault` where the text is no position (E1 to E6), and TypeError where it is no text.
    """

    text: str

    def __post_init__(self) -> None:
        if not isinstance(self.text, str):
            raise TypeError(f"no text of a position: {self.text!r}")
        pure.read_position(self.text)

    def __str__(self) -> str:
        return self.text

    @property
    def set(self) -> str:
        """The piece set's name: the numbers of chicks, elephants and giraffes."""
        return "".join(map(str, pure.set_of(pure.read_position(self.text))))

    def after(self, move: str, rules: str = "A") -> Position | None:
        """The position that the move leads to, as the other side sees it; none where the move captures the lion.

        >>> Position(".l./.../.../.L. C -").after("C*b4")
        Traceback (most recent call last):
        ...
        dobutsu.position.IllegalMove: C*b4
        >>> print(Position(".l./.../.../.L. C -").after("C*b3"))
        .l./.../.c./.L. - -

        Raises `IllegalMove` where the position has no such move, `Fault` (E26) where by the rules no chick stands where one does, and ValueError
        where there are no such rules.
        """
        position, moves, is_caught = self._moves(rules)
        for each in moves:
            if pure.move_text(position, each) == move:
                return None if is_caught else Position(pure.write_position(pure.apply(position, each)))
        raise IllegalMove(move)

    def moves(self, rules: str = "A") -> list[str]:
        """The legal moves, in move order: steps and then drops. Where the lion can be captured these are the captures of it, and where the game is over
        there are none.

        >>> Position(".l./.../.../.L. - -").moves()
        ['Lb1-a1', 'Lb1-c1', 'Lb1-a2', 'Lb1-b2', 'Lb1-c2']
        >>> Position(".../.l./H../L.. - -").moves()
        ['Ha2xb3']

        Raises what `after` does, but no `IllegalMove`.
        """
        position, moves, _is_caught = self._moves(rules)
        return [pure.move_text(position, each) for each in moves]

    def _moves(self, rules: str) -> tuple[pure.Position, list[pure.Move], bool]:
        """The position, its moves, and whether they capture the lion."""
        if rules not in ("A", "B"):
            raise ValueError(f"no rules: {rules!r}; there are A and B")
        position = pure.read_position(self.text)
        if not pure.is_allowed(rules, position):
            raise pure.Fault("E26 FarChick")
        squares = position[0]
        steps, drops = pure.all_moves(rules, position)
        catches = [step for step in steps if squares[step[2]] == "l"]
        return position, catches or ([] if squares.index("l") < 3 else steps + drops), bool(catches)

    @classmethod
    def from_sfen(cls, sfen: str) -> Position:
        """The position of that SFEN, as Fairy-Stockfish has it of its variant `dobutsu`: board, side to move, hands, and maybe the move's number.

        There the board is as the first player sees it, whose side is `b` and whose pieces are capitals; a hen is `+C`. Raises ValueError where that
        is no SFEN of this board, and `Fault` (E4 to E6) where it is one and no position.
        """
        words = sfen.split(" ")
        rows = words[0].split("/")
        is_board = len(rows) == 4 and all(SFEN_ROW.fullmatch(row) for row in rows)
        if not (is_board and len(words) in (3, 4) and words[1] in ("b", "w") and SFEN_HANDS.fullmatch(words[2])):
            raise ValueError(f"no SFEN of the variant dobutsu: {sfen!r}")
        squares = [re.sub("[1-3]", lambda gap: "." * int(gap[0]), row.replace("+C", "H").replace("+c", "h")) for row in rows]
        if any(len(row) != 3 for row in squares) or (len(words) == 4 and not re.fullmatch("[1-9][0-9]*", words[3], re.ASCII)):
            raise ValueError(f"no SFEN of the variant dobutsu: {sfen!r}")
        hands = re.sub("([1-9])(.)", lambda many: many[2] * int(many[1]), words[2].replace("-", ""))
        position = "".join(reversed(squares)), sfen_hand(hands, "CEG"), sfen_hand(hands, "ceg")
        return cls(pure.write_position(position if words[1] == "b" else pure.turned(position)))

    def sfen(self, side: str = "b", number: int = 1) -> str:
        """The SFEN of the position where that side is to move, `b` (the first player) or `w`, at the move of that number.

        >>> Position("gle/.../.c./ELG - c").sfen("w", 2)
        'gle/1C1/3/ELG w C 2'
        """
        if side not in ("b", "w"):
            raise ValueError(f"no side: {side!r}; there are b and w")
        position = pure.read_position(self.text)
        squares, first, second = position if side == "b" else pure.turned(position)
        board = "/".join(squares[row : row + 3] for row in (9, 6, 3, 0)).replace("H", "+C").replace("h", "+c")
        board = re.sub(r"\.+", lambda gap: str(len(gap[0])), board)
        hands = "".join(f"{count if count > 1 else ''}{letter}" for letter, count in [*in_order(first, "CEG"), *in_order(second, "ceg")] if count)
        return f"{board} {side} {hands or '-'} {number}"

    def _repr_svg_(self) -> str:
        """The board as a picture: the pieces of the side to move stand upright, with a dot for each step. Hands lie on their player's right."""
        squares, mover, enemy = pure.read_position(self.text)
        pieces = [picture(letter, 130 + 100 * (square % 3), 350 - 100 * (square // 3)) for square, letter in enumerate(squares) if letter != "."]
        for letters, numbers, left, top, down in (("CEG", mover, 430, 350, -75), ("ceg", enemy, 30, 50, 75)):
            held = pure.hand_text(numbers, letters)
            pieces += [picture(letter, left, top + down * place, 0.7) for place, letter in enumerate(held)]
        return "\n".join([SVG_HEAD, *pieces, "</svg>"])


def after_move(rules: str, text: str, move: str) -> str | None:
    """The text of the position that the move leads to, as the other side sees it; none where the move captures the lion.

    Raises what `Position` and its `after` do: `Fault`, `IllegalMove`, and ValueError for other rules than A and B.
    """
    after = Position(text).after(move, rules)
    return after.text if after else None


def sfen_hand(hands: str, letters: str) -> pure.Pieces:
    chicks, elephants, giraffes = map(hands.count, letters)
    return chicks, elephants, giraffes


def in_order(numbers: pure.Pieces, letters: str) -> list[tuple[str, int]]:
    """The pieces in hand in the order of an SFEN: giraffes, chicks, elephants."""
    return [(letters[kind], numbers[kind]) for kind in (2, 0, 1)]


# ---- the picture

COLOURS = {"L": "#f6b8bd", "G": "#cfc3ea", "E": "#cfc3ea", "C": "#c4e5b4", "H": "#c4e5b4"}
SVG_HEAD = """<svg xmlns="http://www.w3.org/2000/svg" viewBox="0 0 460 400" width="345" height="300" font-family="sans-serif" text-anchor="middle">
<path d="M80 0H380V400H80Z" fill="#f3e3bd"/>
<path d="M80 0V400M180 0V400M280 0V400M380 0V400M80 0H380M80 100H380M80 200H380M80 300H380M80 400H380" stroke="#7a5a3a" stroke-width="2"/>"""


def picture(letter: str, left: int, top: int, size: float = 1) -> str:
    """A piece, its centre that far from the left and from the top; the other side's stand upside down."""
    name, turn = letter.upper(), "" if letter.isupper() else " rotate(180)"
    dots = "".join(f'<circle cx="{37 * column}" cy="{-37 * row}" r="4" fill="#d22"/>' for column, row in pure.STEPS[name])
    tile = f'<rect x="-44" y="-44" width="88" height="88" rx="10" fill="{COLOURS[name]}" stroke="#7a5a3a" stroke-width="2"/>'
    return f'<g transform="translate({left} {top}) scale({size}){turn}">{tile}{dots}<text y="16" font-size="46">{name}</text></g>'
