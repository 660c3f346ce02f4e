"""A reader of database files in pure Python: `python -m dobutsu.pure FILE POSITION..`, or a module.

    from dobutsu import pure
    db = pure.open_db("111.db")
    db.value("..l/.../L../... C EG")   # "win 3", "loss 8" or "draw"
    db.moves("..l/.../L../... C EG")   # [("La2-a3", "win 3"), ..], best first
    db.stats()                          # how many classes have which value, and the longest ends
    certificate = pure.open_certificate("222.cert")
    certificate.verify()                # raises what is wrong; else what `str(certificate)` claims is true

Written from docs/FORMAT.md and docs/RULES.md alone, with the standard library alone. The file is mapped into memory and
class numbers are computed, so that a value of a file of any set takes milliseconds. Files of both formats and both profiles
are read. The digest is read through once when a file is opened; `open_db(path, check=False)` leaves it out. The program prints
`win D`, `loss D` or `draw` for each position, or what is wrong with the file or a text on standard error, with status 1.
"""
from __future__ import annotations

import collections
import functools
import hashlib
import itertools
import math
import mmap
import os
import struct
import sys
from collections.abc import Callable, Iterator, Sequence
from typing import Any, NamedTuple, Optional, TypedDict, Union

from .faults import SENTENCES

Pieces = tuple[int, int, int]  # how many chicks, elephants and giraffes
Position = tuple[str, Pieces, Pieces]  # the twelve squares from a1 to c4, and the mover's and the enemy's hand
Move = tuple[str, Optional[int], int]  # letter, from-square or None, to-square
Lions = tuple[int, int]  # the squares of the mover's lion and of the enemy's
Choice = tuple[Any, ...]  # the squares of a kind, which are numbers, or its forms there, which are letters
Place = tuple[Choice, ...]  # the squares of the chicks, the elephants and the giraffes, and then their forms
Bytes = Union[bytes, bytearray, memoryview, mmap.mmap]

PROFILES = "AB"
KINDS = "CEG"  # chicks (hens counted with them), elephants, giraffes
FORMS_OF = {"C": "CHch", "E": "Ee", "G": "Gg"}
STEPS = {  # columns to the right and rows forward, of the mover
    "L": [(-1, -1), (0, -1), (1, -1), (-1, 0), (1, 0), (-1, 1), (0, 1), (1, 1)],
    "G": [(0, -1), (-1, 0), (1, 0), (0, 1)],
    "E": [(-1, -1), (1, -1), (-1, 1), (1, 1)],
    "C": [(0, 1)],
    "H": [(0, -1), (-1, 0), (1, 0), (-1, 1), (0, 1), (1, 1)],
}


class Fault(ValueError):
    """What is wrong with a file or a text: the program's number and name of it, as `E7 OtherSet`. A traceback says what that means, from Python 3.11 on.

    >>> Fault("E7 OtherSet").number
    7
    >>> print(Fault("E7 OtherSet").sentence)
    the position's set isn't the table's
    """

    def __init__(self, text: str) -> None:
        super().__init__(text)
        if sys.version_info >= (3, 11) and self.sentence:
            self.add_note(self.sentence)

    @property
    def number(self) -> int:
        return int(str(self).split()[0][1:])

    @property
    def sentence(self) -> str:
        """What docs/FAULTS.md says of it."""
        return SENTENCES.get(self.number, "")


# ---- positions


def kind_of(letter: str) -> str:
    return "C" if letter in "CHch" else letter.upper()


def read_hand(word: str, letters: str) -> Pieces:
    chicks, elephants, giraffes = map(word.count, letters)
    numbers = chicks, elephants, giraffes
    if word != "-" and word != hand_text(numbers, letters):
        raise Fault("E3 Hand")
    return numbers


def hand_text(numbers: Pieces, letters: str) -> str:
    return "".join(letter * n for letter, n in zip(letters, numbers))


def read_position(text: str) -> Position:
    rows, hands = text[:15].split("/"), text[15:].split(" ")
    is_shape = text.isascii() and [len(row) for row in rows] == [3] * 4 and " " not in text[:15]
    if not is_shape or len(hands) != 3 or hands[0] or not all(hands[1:]):
        raise Fault("E1 Shape")
    squares = "".join(reversed(rows))
    if not all(letter in ".LGECHlgech" for letter in squares):
        raise Fault("E2 Letter")
    position = squares, read_hand(hands[1], "CEG"), read_hand(hands[2], "ceg")
    if squares.count("L") != 1 or squares.count("l") != 1:
        raise Fault("E4 Lions")
    if max(set_of(position)) > 2:
        raise Fault("E5 Count")
    if squares.index("L") >= 9:
        raise Fault("E6 FarLion")
    return position


def write_position(position: Position) -> str:
    squares, mover, enemy = position
    rows = "/".join(squares[row : row + 3] for row in (9, 6, 3, 0))
    return f"{rows} {hand_text(mover, 'CEG') or '-'} {hand_text(enemy, 'ceg') or '-'}"


def mirrored_square(square: int) -> int:
    return square + 2 - 2 * (square % 3)


def mirrored(position: Position) -> Position:
    squares, mover, enemy = position
    return "".join(squares[mirrored_square(s)] for s in range(12)), mover, enemy


def turned(position: Position) -> Position:
    """The same board as the other side sees it."""
    squares, mover, enemy = position
    return squares[::-1].swapcase(), enemy, mover


def places(squares: str, kind: str) -> list[int]:
    return [s for s in range(12) if squares[s] not in ".Ll" and kind_of(squares[s]) == kind]


def set_of(position: Position) -> Pieces:
    squares, mover, enemy = position
    chicks, elephants, giraffes = (len(places(squares, kind)) + mover[i] + enemy[i] for i, kind in enumerate(KINDS))
    return chicks, elephants, giraffes


def may_stand(profile: str, letter: str, square: int) -> bool:
    """In profile B no chick stands on its own far row."""
    return profile == "A" or not (letter == "C" and square >= 9 or letter == "c" and square < 3)


def is_allowed(profile: str, position: Position) -> bool:
    """Whether by the profile each chick may stand where it does."""
    return all(may_stand(profile, letter, square) for square, letter in enumerate(position[0]))


# ---- moves, in move order


@functools.cache
def targets(letter: str, start: int) -> list[int]:
    """The squares a step from there, in order."""
    ways = [(start % 3 + column, start // 3 + row) for column, row in STEPS[letter]]
    return sorted(column + 3 * row for column, row in ways if 0 <= column < 3 and 0 <= row < 4)


def steps_from(squares: str, start: int) -> list[Move]:
    letter = squares[start]
    return [(letter, start, end) for end in targets(letter, start) if not squares[end].isupper()]


def all_moves(profile: str, position: Position) -> tuple[list[Move], list[Move]]:
    """The steps, those onto the enemy's lion too, and the drops."""
    squares, mover, _enemy = position
    steps = [move for s in range(12) if squares[s].isupper() for move in steps_from(squares, s)]
    drops: list[Move] = [(KINDS[i], None, s) for i in range(3) if mover[i] for s in range(12)]
    return steps, [move for move in drops if squares[move[2]] == "." and may_stand(profile, move[0], move[2])]


def status_and_moves(profile: str, position: Position) -> tuple[str, list[Move]]:
    """The status, and the moves: only the first capture at `caught`, none at `tried` and `stuck`."""
    squares = position[0]
    steps, drops = all_moves(profile, position)
    catches = [move for move in steps if squares[move[2]] == "l"]
    if catches:
        return "caught", catches[:1]
    if squares.index("l") < 3:
        return "tried", []
    return ("open", steps + drops) if steps or drops else ("stuck", [])


def status(profile: str, position: Position) -> str:
    """The status alone."""
    squares, mover, _enemy = position
    lion = squares.index("l")
    if any(squares[s].isupper() and lion in targets(squares[s], s) for s in range(12)):
        return "caught"
    if lion < 3:
        return "tried"
    # an elephant or a giraffe in hand can always be dropped
    return "open" if mover[1] or mover[2] else status_and_moves(profile, position)[0]


def grows(move: Move) -> bool:
    return move[0] == "C" and move[1] is not None and move[2] >= 9


def apply(position: Position, move: Move) -> Position:
    """The position after the move of an open one, seen from the other side."""
    squares, mover, enemy = list(position[0]), list(position[1]), position[2]
    letter, start, end = move
    if start is None:
        mover[KINDS.index(letter)] -= 1
    else:
        if squares[end] != ".":
            mover[KINDS.index(kind_of(squares[end]))] += 1
        squares[start] = "."
    squares[end] = "H" if grows(move) else letter
    chicks, elephants, giraffes = mover
    return turned(("".join(squares), (chicks, elephants, giraffes), enemy))


def square_name(square: int) -> str:
    return "abc"[square % 3] + str(square // 3 + 1)


def move_text(position: Position, move: Move) -> str:
    letter, start, end = move
    if start is None:
        return f"{letter}*{square_name(end)}"
    way = "-" if position[0][end] == "." else "x"
    return letter + square_name(start) + way + square_name(end) + ("+" if grows(move) else "")


# ---- class numbers
#
# The positions with the same numbers on the board, in the mover's hand and the same lions are a run. In a run a place is six
# digits: which squares the chicks, the elephants and the giraffes have, and their forms. Where the lions aren't both on
# column b they say which of two mirror images is earlier; else the first digit that differs from the image's does.


@functools.cache
def choices(squares: tuple[int, ...], number: int) -> tuple[Sequence[Choice], dict[Choice, int]]:
    """The ways to choose that many of the squares, in order, with the number of each."""
    listed: list[Choice] = list(itertools.combinations(squares, number))
    return listed, {chosen: i for i, chosen in enumerate(listed)}


@functools.cache
def forms(profile: str, kind: str, squares: Sequence[int]) -> tuple[Sequence[Choice], dict[Choice, int]]:
    """The forms that pieces of the kind may have on those squares, in order, with the number of each."""
    letters = [[letter for letter in FORMS_OF[kind] if may_stand(profile, letter, square)] for square in squares]
    listed: list[Choice] = list(itertools.product(*letters))
    return listed, {chosen: i for i, chosen in enumerate(listed)}


class Run:
    """The places of the runs with these numbers on the board and these lions."""

    def __init__(self, profile: str, on: Pieces, lions: Lions) -> None:
        self.profile, self.on, self.lions = profile, on, lions
        own, other = lions
        image = mirrored_square(own), mirrored_square(other)
        self.order = (lions > image) - (lions < image)  # -1: each is the earlier one, 1: the later one, 0: mixed
        free = [10, 10 - on[0], 10 - on[0] - on[1]]
        # how many ways there are from a digit on, without what the chicks have
        bases = [1, math.comb(free[1], on[1]), math.comb(free[2], on[2]), 1, 1 << on[1], 1 << on[2]]
        self.others = [math.prod(bases[digit:]) for digit in range(7)]

    def options(self, chosen: Place, digit: int) -> tuple[Sequence[Choice], dict[Choice, int]]:
        """What may be chosen next, with the number of each: squares, and then their forms."""
        if digit < 3:
            taken = set(self.lions).union(*chosen)
            return choices(tuple(s for s in range(12) if s not in taken), self.on[digit])
        return forms(self.profile, KINDS[digit - 3], chosen[digit - 3])

    @functools.cached_property
    def size(self) -> int:
        """How many places there are."""
        return sum(self.ways((squares,), 1) for squares in self.options((), 0)[0])

    def ways(self, chosen: Place, digit: int) -> int:
        """How many ways there are to go on."""
        if digit == 0:
            return self.size
        return self.others[digit] * (len(forms(self.profile, "C", chosen[0])[0]) if digit <= 3 else 1)

    def image(self, chosen: Place, digit: int, option: Choice) -> int:
        """The number of the image's option, where the digits before are those of the image."""
        numbers = self.options(chosen, digit)[1]
        if digit < 3:
            return numbers[tuple(sorted(mirrored_square(s) for s in option))]
        seen = sorted((mirrored_square(s), form) for s, form in zip(chosen[digit - 3], option))
        return numbers[tuple(form for _, form in seen)]

    @functools.cache
    def fixed(self, chosen: Place, digit: int) -> int:
        """How many ways to go on are their own images."""
        if digit == 6:
            return 1
        listed = enumerate(self.options(chosen, digit)[0])
        return sum(self.fixed(chosen + (option,), digit + 1) for i, option in listed if self.image(chosen, digit, option) == i)

    def earlier(self, chosen: Place, digit: int, number: int, option: Choice) -> int:
        """How many ways to go on from the option of that number are no later than their images."""
        image = self.image(chosen, digit, option)
        chosen += (option,)
        if image == number:
            return (self.ways(chosen, digit + 1) + self.fixed(chosen, digit + 1)) // 2
        return self.ways(chosen, digit + 1) if image > number else 0

    @functools.cached_property
    def count(self) -> int:
        if self.order:
            return self.size if self.order < 0 else 0
        return (self.size + self.fixed((), 0)) // 2

    def number(self, options: Place, digit: int) -> int:
        """How many places with the same options before a digit come before that one."""
        total = 0
        for at in range(digit, 6):
            listed, numbers = self.options(options[:at], at)
            total += sum(self.ways(options[:at] + (option,), at + 1) for option in listed[: numbers[options[at]]])
        return total

    def before(self, options: Place, digit: int = 0) -> int:
        """How many representatives of the run with the same options before a digit come before that place."""
        if self.order:
            return self.number(options, 0) if self.order < 0 else 0
        if digit == 6:
            return 0
        chosen = options[:digit]
        listed, numbers = self.options(chosen, digit)
        number, image = numbers[options[digit]], self.image(chosen, digit, options[digit])
        total = sum(self.earlier(chosen, digit, i, option) for i, option in enumerate(listed[:number]))
        if image == number:
            return total + self.before(options, digit + 1)
        return total + self.number(options, digit + 1) if image > number else total

    def options_at(self, number: int) -> Place:
        """The place of the representative with that many before it in the run."""
        chosen: Place = ()
        is_mixed = not self.order
        for digit in range(6):
            for i, option in enumerate(self.options(chosen, digit)[0]):
                some = self.earlier(chosen, digit, i, option) if is_mixed else self.ways(chosen + (option,), digit + 1)
                if number < some:
                    break
                number -= some
            is_mixed = is_mixed and self.image(chosen, digit, option) == i
            chosen += (option,)
        return chosen


LIONS = [(own, other) for own in range(9) for other in range(12) if own != other]


@functools.cache
def run_of(profile: str, on: Pieces, lions: Lions) -> Run:
    return Run(profile, on, lions)


@functools.cache
def in_hand(profile: str, on: Pieces) -> int:
    """How many representatives the runs of one hand have."""
    return sum(run_of(profile, on, lions).count for lions in LIONS)


@functools.cache
def up_to(most: Pieces) -> list[Pieces]:
    """The numbers of pieces that are no greater, in order."""
    chicks, elephants, giraffes = (range(number + 1) for number in most)
    return list(itertools.product(chicks, elephants, giraffes))


def hands_of(pieces: Pieces, on: Pieces) -> list[Pieces]:
    """What the mover may have in hand, where those are on the board."""
    return up_to((pieces[0] - on[0], pieces[1] - on[1], pieces[2] - on[2]))


boards_of = up_to


@functools.cache
def class_count(profile: str, pieces: Pieces) -> int:
    return sum(len(hands_of(pieces, on)) * in_hand(profile, on) for on in boards_of(pieces))


def place_of(profile: str, position: Position) -> tuple[Run, Place, list[int]]:
    """The run of a position and its place there, with the number of each option."""
    squares = position[0]
    on = tuple(tuple(places(squares, kind)) for kind in KINDS)
    run = run_of(profile, tuple(map(len, on)), (squares.index("L"), squares.index("l")))
    options = on + tuple(tuple(squares[s] for s in on[i]) for i in range(3))
    return run, options, [run.options(options[:digit], digit)[1][options[digit]] for digit in range(6)]


def class_number(profile: str, position: Position) -> int:
    """How many representatives stand before that of the position."""
    pieces, mover = set_of(position), position[1]
    run, options, digits = place_of(profile, position)
    image_run, image_options, image_digits = place_of(profile, mirrored(position))
    if (image_run.lions, image_digits) < (run.lions, digits):
        run, options = image_run, image_options
    total = sum(len(hands_of(pieces, on)) * in_hand(profile, on) for on in boards_of(pieces) if on < run.on)
    total += hands_of(pieces, run.on).index(mover) * in_hand(profile, run.on)
    total += sum(run_of(profile, run.on, lions).count for lions in LIONS if lions < run.lions)
    return total + run.before(options)


def position_at(profile: str, pieces: Pieces, number: int) -> Position:
    """The representative of the class of that number."""
    for on in boards_of(pieces):
        hands = hands_of(pieces, on)
        if number < len(hands) * in_hand(profile, on):
            break
        number -= len(hands) * in_hand(profile, on)
    hand, number = divmod(number, in_hand(profile, on))
    for lions in LIONS:
        run = run_of(profile, on, lions)
        if number < run.count:
            break
        number -= run.count
    options = run.options_at(number)
    squares = ["."] * 12
    squares[lions[0]], squares[lions[1]] = "L", "l"
    for i in range(3):
        for square, letter in zip(options[i], options[3 + i]):
            squares[square] = letter
    mover = hands[hand]
    chicks, elephants, giraffes = (n - m - h for n, m, h in zip(pieces, on, mover))
    return "".join(squares), mover, (chicks, elephants, giraffes)


# ---- files


def value_text(record: int) -> str:
    if record == 0:
        return "draw"
    distance = record - 1
    return ("win " if distance % 2 else "loss ") + str(distance)


def after_move(record: int) -> str:
    """The value of a move, as its side sees it, by the record of what it leads to."""
    return value_text(record + 1) if record else "draw"


def rank_of(value: str) -> tuple[int, int]:
    """Best first: wins by the least distance, draws, losses by the greatest."""
    kind, _, distance = value.partition(" ")
    return {"win": (0, int(distance or 0)), "draw": (1, 0), "loss": (2, -int(distance or 0))}[kind]


class Header(NamedTuple):
    """What a file's first bytes say: its family, where its records begin, and how many they are."""

    pieces: Pieces
    profile: str
    start: int
    classes: int


def read_header(data: Bytes) -> Header:
    """The tests are made in the order of docs/FORMAT.md; the number of classes isn't tested here."""
    if len(data) < 20:
        raise Fault("E15 Truncated")
    if data[:8] not in (b"DOBUTSU1", b"DOBUTSU2"):
        raise Fault("E16 Magic")
    chicks, elephants, giraffes, columns = data[8:12]
    if max(chicks, elephants, giraffes) > 2 or columns != 2:
        raise Fault("E17 SetByte")
    profile, start = "A", 20
    if data[7:8] == b"2":
        if len(data) < 21:
            raise Fault("E15 Truncated")
        if data[12] > 1:
            raise Fault("E27 ProfileByte")
        profile, start = PROFILES[data[12]], 21
    return Header((chicks, elephants, giraffes), profile, start, int.from_bytes(data[start - 8 : start], "little"))


class Counts(TypedDict):
    """How many classes have which value; the first class of the longest win and of the longest loss, with its distance."""

    classes: int
    draw: int
    win: dict[int, int]
    loss: dict[int, int]
    longest: dict[str, tuple[int, str]]


class Db:
    """A database file that is open."""

    def __init__(self, data: Bytes, check: bool = True, classes: Callable[[str, Pieces], int] | None = None) -> None:
        """The tests are made in the order of docs/FORMAT.md; the digest is left out unless it is to be checked. `classes`
        counts those of a family; without it they are counted here."""
        self.pieces, self.profile, self.start, self.count = read_header(data)
        if self.count != (classes or class_count)(self.profile, self.pieces):
            raise Fault("E18 ClassCount")
        end = self.start + 2 * self.count
        if len(data) < end + 32:
            raise Fault("E15 Truncated")
        if len(data) > end + 32:
            raise Fault("E19 Trailing")
        if check:
            digest = hashlib.sha256()
            for start in range(0, end, 1 << 20):
                digest.update(data[start : min(start + (1 << 20), end)])
            if data[end:] != digest.digest():
                raise Fault("E20 Digest")
        self.data = data

    def record(self, position: Position) -> int:
        if not is_allowed(self.profile, position):
            raise Fault("E26 FarChick")
        if set_of(position) != self.pieces:
            raise Fault("E7 OtherSet")
        return self.record_at(class_number(self.profile, position))

    def record_at(self, number: int) -> int:
        if not 0 <= number < self.count:
            raise IndexError(f"no class {number}: there are {self.count}")
        place = self.start + 2 * number
        return int.from_bytes(self.data[place : place + 2], "little")

    def positions(self, first: int = 0, end: int | None = None) -> Iterator[tuple[str, str]]:
        """The position of each class from the first number to the one before the end, with its value, both as texts."""
        for number in range(first, self.count if end is None else min(end, self.count)):
            yield write_position(position_at(self.profile, self.pieces, number)), value_text(self.record_at(number))

    def value(self, text: str) -> str:
        """The value of the position of that text: `win D`, `loss D` or `draw`."""
        return value_text(self.record(read_position(text)))

    def moves(self, text: str) -> list[tuple[str, str]]:
        """Each move of the position with its value for the side that makes it, best first, equal ones in move order."""
        position = read_position(text)
        self.record(position)
        status, moves = status_and_moves(self.profile, position)
        if status == "caught":
            return [(move_text(position, moves[0]), "win 1")]
        valued = [(move_text(position, move), after_move(self.record(apply(position, move)))) for move in moves]
        return sorted(valued, key=lambda pair: rank_of(pair[1]))

    def stats(self) -> Counts:
        """How many classes have which value, and the first class of the longest win and of the longest loss, as texts."""
        counts: collections.Counter[int] = collections.Counter()
        first: dict[int, int] = {}
        for start in range(0, self.count, 1 << 16):
            many = min(1 << 16, self.count - start)
            place = self.start + 2 * start
            records = struct.unpack(f"<{many}H", self.data[place : place + 2 * many])
            for record, number in collections.Counter(records).items():
                counts[record] += number
                if record not in first:
                    first[record] = start + records.index(record)
        longest = {}
        for record in max((each for each in counts if each % 2), default=0), max((each for each in counts if each and not each % 2), default=0):
            if record:
                kind, distance = value_text(record).split(" ")
                longest[kind] = int(distance), write_position(position_at(self.profile, self.pieces, first[record]))
        wins = {record - 1: counts[record] for record in sorted(counts) if record and not record % 2}
        losses = {record - 1: counts[record] for record in sorted(counts) if record % 2}
        return {"classes": self.count, "draw": counts[0], "win": wins, "loss": losses, "longest": longest}


def open_db(path: str | os.PathLike[str], check: bool = True) -> Db:
    """The database file of that name, mapped into memory."""
    with open(path, "rb") as file:
        if file.seek(0, 2) == 0:
            raise Fault("E15 Truncated")
        return Db(mmap.mmap(file.fileno(), 0, access=mmap.ACCESS_READ), check)


# ---- certificates: a claim of one position, with lists of classes that show it (docs/FORMAT.md, The certificate)

EVER = 65535  # of an entry: never lost
CLAIMS = ["draw", "win", "loss", "win within", "loss within"]
Entries = dict[int, int]  # from a class to its plies
Listed = dict[Position, int]  # from a position to its plies


def entry_at(data: bytes, place: int, least: int) -> tuple[int, int]:
    """A class, and the place behind it. The number there says how far the class is from the last one below the least."""
    number = 0
    for digit in range(5):
        if place >= len(data):
            raise Fault("E15 Truncated")
        byte = data[place]
        place += 1
        number += byte % 128 << 7 * digit
        if byte < 128:
            if byte == 0 and digit:
                break
            return least - 1 + number, place
    raise Fault("E36 EntryNumber")


def entries_at(data: bytes, place: int, count: int, classes: int, is_ever_told: bool) -> tuple[Entries, int]:
    """That many entries as a dictionary from classes to plies, and the place behind them. Only what isn't lost may be told for ever."""
    entries: Entries = {}
    least = 0
    for _ in range(count):
        number, place = entry_at(data, place, least)
        if number < least:
            raise Fault("E37 EntryOrder")
        if number >= classes:
            raise Fault("E38 EntryClass")
        if place >= len(data):
            raise Fault("E15 Truncated")
        if data[place] == 255 and not is_ever_told:
            raise Fault("E42 EntryPlies")
        entries[number] = EVER if data[place] == 255 else data[place]
        place, least = place + 1, number + 1
    return entries, place


class Certificate:
    """A certificate: `profile`, `pieces`, the class `root`, the `claim` as a word and a number of plies, and the entries of both lists."""

    def __init__(self, data: bytes) -> None:
        """Reads a certificate's file. The tests are made in the order of docs/FORMAT.md."""
        if len(data) < 28:
            raise Fault("E15 Truncated")
        if data[:8] != b"DOBUCERT":
            raise Fault("E16 Magic")
        if data[8] != 1:
            raise Fault("E32 Version")
        self.pieces: Pieces = (data[9], data[10], data[11])
        if max(self.pieces) > 2 or data[12] != 2:
            raise Fault("E17 SetByte")
        if data[13] > 1:
            raise Fault("E27 ProfileByte")
        self.profile = PROFILES[data[13]]
        classes = class_count(self.profile, self.pieces)
        self.root, kind, self.plies, lost, held = struct.unpack("<IBBII", data[14:28])
        if self.root >= classes:
            raise Fault("E33 RootClass")
        if kind > 4 or self.plies == 255 or (kind == 0 and self.plies):
            raise Fault("E34 ClaimByte")
        self.claim: str = CLAIMS[kind]
        if lost > classes or held > classes:
            raise Fault("E35 EntryCount")
        self.lost, place = entries_at(data, 28, lost, classes, is_ever_told=False)
        self.held, place = entries_at(data, place, held, classes, is_ever_told=True)
        if len(data) < place + 32:
            raise Fault("E15 Truncated")
        if len(data) > place + 32:
            raise Fault("E19 Trailing")
        if data[place:] != hashlib.sha256(data[:place]).digest():
            raise Fault("E20 Digest")

    def position(self) -> Position:
        """The position of the claim: the representative of its class."""
        return self.position_at(self.root)

    def __str__(self) -> str:
        """The claim in a line, as `..l/.../L../... - - win 3`, with ` by rules B` behind it where it is made by these."""
        return f"{write_position(self.position())} {self.claimed()}" + (" by rules B" if self.profile == "B" else "")

    def claimed(self) -> str:
        return self.claim if self.claim == "draw" else f"{self.claim} {self.plies}"

    @functools.cache
    def position_at(self, number: int) -> Position:
        return position_at(self.profile, self.pieces, number)

    def positions_of(self, entries: Entries) -> Listed:
        """The plies of each position whose class is listed, of mirror images too, where the game goes on: others show by themselves."""
        listed: Listed = {}
        for number, plies in entries.items():
            position = self.position_at(number)
            if status(self.profile, position) == "open":
                listed[position] = listed[mirrored(position)] = plies
        return listed

    @functools.cached_property
    def lost_plies(self) -> Listed:
        return self.positions_of(self.lost)

    @functools.cached_property
    def held_plies(self) -> Listed:
        return self.positions_of(self.held)

    def asked(self, position: Position) -> tuple[str, list[Move]]:
        return status_and_moves(self.profile, position)

    def has_lost(self, position: Position) -> bool:
        """Whether the side to move has lost already: the enemy's lion has come home, or no move is left."""
        return status(self.profile, position) in ("tried", "stuck")

    # of positions that are lost

    def is_said_lost(self, position: Position, plies: int) -> bool:
        """Whether the side to move is said to lose within N plies, or has lost."""
        return self.lost_plies.get(position, EVER + 1) <= plies or self.has_lost(position)

    def is_answered(self, position: Position, plies: int) -> bool:
        """Whether the side to move captures the lion, or has a move to a position that is said to be lost within `plies`."""
        found, moves = self.asked(position)
        if found == "open":
            return any(self.is_said_lost(apply(position, move), plies) for move in moves)
        return found == "caught"

    def is_upheld(self, position: Position, plies: int) -> bool:
        """Whether an entry of the lost ones is shown by the others."""
        found, moves = self.asked(position)
        if found == "open":
            return plies >= 2 and all(self.is_answered(apply(position, move), plies - 2) for move in moves)
        return found != "caught"

    # of positions that aren't

    def is_said_held(self, position: Position, plies: int) -> bool:
        """Whether the side to move is said not to lose within `plies`."""
        found = status(self.profile, position)
        return found == "caught" or found == "open" and (plies <= 1 or self.held_plies.get(position, -1) >= plies)

    def is_safe(self, position: Position, plies: int) -> bool:
        """Whether the side to move can't capture the lion, and each of its moves leads to what is said not to be lost within `plies`."""
        found, moves = self.asked(position)
        return found != "caught" and all(self.is_said_held(apply(position, move), plies) for move in moves)

    def is_held(self, position: Position, plies: int) -> bool:
        """Whether an entry of the others is shown by the others."""
        found, moves = self.asked(position)
        if found == "open":
            least = EVER if plies == EVER else plies - 2
            return plies < 2 or any(self.is_safe(apply(position, move), least) for move in moves)
        return found == "caught"

    def is_shown(self) -> bool:
        """Whether the lists show the claim, where each entry is shown by the others."""
        root, plies = self.position(), self.plies
        if self.claim == "loss within":
            return self.is_said_lost(root, plies)
        if self.claim == "win within":
            return plies > 0 and self.is_answered(root, plies - 1)
        if self.claim == "loss":
            return self.is_said_lost(root, plies) and (plies == 0 or self.is_said_held(root, plies - 1))
        if self.claim == "win":
            return plies > 0 and self.is_answered(root, plies - 1) and (plies == 1 or self.is_safe(root, plies - 2))
        return self.is_said_held(root, EVER) and self.is_safe(root, EVER)

    def verify(self) -> None:
        """Raises what is wrong: the first entry that the others don't show, those of the lost ones first, or the claim."""
        for entries, is_shown in (self.lost, self.is_upheld), (self.held, self.is_held):
            for number, plies in entries.items():
                if not is_shown(self.position_at(number), plies):
                    raise Fault(f"E30 Unsupported class {number}")
        if not self.is_shown():
            raise Fault("E31 Claim")

    def reply(self, text: str) -> tuple[str, int] | None:
        """The move of the position that wins within the fewest plies by the lost ones, and these plies; none where there is no such move."""
        position = read_position(text)
        if not all(may_stand(self.profile, letter, square) for square, letter in enumerate(position[0])):
            raise Fault("E26 FarChick")
        if set_of(position) != self.pieces:
            raise Fault("E7 OtherSet")
        found, moves = self.asked(position)
        if found == "caught":
            return move_text(position, moves[0]), 1
        best: tuple[str, int] | None = None
        for move in moves:
            outcome = apply(position, move)
            plies = 0 if self.has_lost(outcome) else self.lost_plies.get(outcome, EVER)
            if plies < EVER and (best is None or plies + 1 < best[1]):
                best = move_text(position, move), plies + 1
        return best


def open_certificate(path: str | os.PathLike[str]) -> Certificate:
    """The certificate of that name."""
    with open(path, "rb") as file:
        return Certificate(file.read())


def main() -> None:
    if len(sys.argv) < 3:
        sys.exit("usage: python -m dobutsu.pure FILE POSITION..")
    try:
        db = open_db(sys.argv[1])
        for text in sys.argv[2:]:
            print(db.value(text))
    except Fault as fault:
        print(fault, file=sys.stderr)
        sys.exit(1)


if __name__ == "__main__":
    main()
