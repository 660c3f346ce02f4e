"""A database file as a table of values."""
from __future__ import annotations

import functools
import mmap
import os
import struct
from collections.abc import Iterable, Iterator
from types import TracebackType
from typing import TypeVar, Union

from . import pure, puzzles
from .library import Library, LibraryFile, load, paths
from .pure import Fault
from .position import Position, after_move
from .value import Move, Stats, Value

MANY = 1 << 16  # how many classes' positions are asked of the library at once
Asked = Union[str, Position]
Default = TypeVar("Default")


class Table:
    """A database file of Dobutsu shogi, mapped into memory: the value of each position of its piece set.

    A position is a `Position` or its text, as `dobutsu help` and docs/RULES.md have it; the side to move stands below. The answers are those of
    `dobutsu probe`, `moves`, `line` and `stats`. They are right where the file is, which `dobutsu check` says.

    >>> table = Table("testdata/lions_alone_2.db")
    >>> print(table["..l/.../L../... - -"])
    win 3
    >>> table.line("..l/.../L../... - -")
    ['La2-a3', 'lc4-b4', 'La3xb4']
    >>> table["..l/.../L../... C -"]  # doctest: +IGNORE_EXCEPTION_DETAIL
    Traceback (most recent call last):
    ...
    dobutsu.pure.Fault: E7 OtherSet
    >>> "..l/.../L../... C -" in table, table.get("..l/.../L../... C -", "another set")
    (False, 'another set')
    >>> next(iter(table)), len(table)
    ('.../.../.../Ll. - -', 54)

    Raises OSError where the file can't be opened, and `Fault` (E15 to E19, E27) where it is no database file, by its header and its length; the
    digest is read through by `dobutsu probe` and `check`, and not here. After `close` whatever is asked raises ValueError.
    """

    #: Which code answers: `libdobutsu 0.1.0`, the proved library, or `pure Python`, where none was found.
    engine: str

    def __init__(self, path: str | os.PathLike[str], library: str | None = None) -> None:
        found = load(library) if library else nearest_library()
        self._path = os.fspath(path)
        self._library: LibraryFile | None = None
        with open(path, "rb") as file:
            if os.fstat(file.fileno()).st_size == 0:
                raise Fault("E15 Truncated")
            # a private map can be handed to the library as it is: nothing is ever written to it
            self._map = mmap.mmap(file.fileno(), 0, access=mmap.ACCESS_COPY)
        try:
            self._db: pure.Db | None = pure.Db(self._map, False, found.class_count if found else None)
        except Fault:
            self._map.close()
            raise
        if found:
            self._library = LibraryFile(found, memoryview(self._map), self._db.profile, self._db.pieces)
        self.engine = f"libdobutsu {found.version}" if found else "pure Python"

    def __repr__(self) -> str:
        if self._db is None:
            return f"<Table {self._path!r}, closed>"
        return f"<Table {self._path!r}: set {self.set} by rules {self.rules}, {len(self)} classes>"

    def _open(self) -> pure.Db:
        """The file, which isn't closed."""
        if self._db is None:
            raise ValueError(f"the table {self._path!r} is closed")
        return self._db

    @property
    def set(self) -> str:
        """The piece set's name: the numbers of chicks, elephants and giraffes."""
        return "".join(map(str, self._open().pieces))

    @property
    def rules(self) -> str:
        """By which rules the values are: `A` or `B`."""
        return self._open().profile

    def __len__(self) -> int:
        """How many classes the file has."""
        return self._open().count

    def __getitem__(self, position: Asked) -> Value:
        """The position's value. Raises `Fault` where the text is no position (E1 to E6) or not of the file's set and rules (E7, E26)."""
        db, text = self._open(), text_of(position)
        return self._library.value(text) if self._library else Value.read(db.value(text))

    def get(self, position: Asked, default: Default | None = None) -> Value | Default | None:
        """The position's value, or the default where `table[position]` raises `Fault`."""
        try:
            return self[position]
        except Fault:
            return default

    def probe_many(self, positions: Iterable[Asked]) -> list[Union[Value, Fault]]:
        """The value of each position, or the `Fault` that `table[position]` would raise for it: here it is an answer, and isn't raised.

        By the library it is one call, for more than a hundred thousand a second.

        >>> Table("testdata/lions_alone_2.db").probe_many(["..l/.../L../... - -", "..l/.../L../... C -"])
        [Value('win', 3), Fault('E7 OtherSet')]
        """
        db, texts = self._open(), [text_of(position) for position in positions]
        if self._library:
            return self._library.values(texts)
        return [value_of_text(db, text) for text in texts]

    def __contains__(self, position: object) -> bool:
        """Whether it is a position of the file's set and rules, or the text of one."""
        return isinstance(position, (str, Position)) and self.get(position) is not None

    def __iter__(self) -> Iterator[str]:
        """The position of each class, in the order of the file."""
        return (text for text, _ in self.positions())

    def moves(self, position: Asked) -> list[Move]:
        """Each move with the value that the side that makes it then has, best first, equal ones in the move order.

        Where the enemy lion can be captured there is its first capture alone, and no move where the position is lost already. Raises `Fault` as
        `table[position]` does.
        """
        db, text = self._open(), text_of(position)
        if self._library:
            return self._library.moves(text)
        return [Move(move, Value.read(value)) for move, value in db.moves(text)]

    def line(self, position: Asked) -> list[str]:
        """Best play of both sides from the position to its end, as the moves' texts; none for a draw or where the game has ended.

        Squares are named as the side sees them that is to move at the start; the other side's pieces are small letters.
        """
        played: list[str] = []
        text: str | None = text_of(position)
        while text is not None and self[text].kind != "draw" and (moves := self.moves(text)):
            played.append(turned_move(moves[0].text) if len(played) % 2 else moves[0].text)
            text = after_move(self.rules, text, moves[0].text)
        return played

    def positions(self, first: int = 0, end: int | None = None) -> Iterator[tuple[str, Value]]:
        """The position of each class with its value, in the order of the file, from the class of the first number to that before the end.

        By the library it gives some hundred thousand a second, by pure Python some thousands.

        >>> [f"{text} = {value}" for text, value in Table("testdata/lions_alone_2.db").positions(2, 4)]
        ['.../.../l../L.. - - = win 1', '.../.../.l./L.. - - = win 1']

        Raises IndexError where a number is below 0 or above that of all classes.
        """
        db = self._open()
        end = db.count if end is None else end
        if not (0 <= first <= db.count and 0 <= end <= db.count):
            raise IndexError(f"classes {first} to {end} of {db.count}")
        if self._library:
            return self._positions(self._library, first, end)
        return ((text, Value.read(value)) for text, value in db.positions(first, end))

    def _positions(self, library: LibraryFile, first: int, end: int) -> Iterator[tuple[str, Value]]:
        """The same by the library, many at a time."""
        for start in range(first, end, MANY):
            count, db = min(MANY, end - start), self._open()
            place = db.start + 2 * start
            records = struct.unpack(f"<{count}H", db.data[place : place + 2 * count])
            for text, record in zip(library.positions(start, count), records):
                self._open()
                yield text, recorded(record)

    def puzzles(self, plies: int, count: int, seed: int | None = None) -> list[tuple[str, str]]:
        """Positions that one move alone wins soonest, in so many plies, an odd number of at least 3; each with that move; at most so many.

        In the order of the file, or shuffled by the seed, a number below 2^64: then each is as likely as any other to come next, and no two have
        as many pieces of each kind on the board and the lions on the same squares. They are those that `dobutsu puzzles` prints.

        >>> Table("testdata/lions_alone_2.db").puzzles(3, 2, 10)
        [('l../.../.L./... - -', 'Lb2-c3'), ('..l/.../L../... - -', 'La2-a3')]
        """
        return [(text, move) for _, text, move in puzzles.puzzles(self._open(), plies, count, seed)]

    def stats(self) -> Stats:
        """How many classes have which value. It looks at each record: a second for some ten million."""
        counts = self._open().stats()
        values = {Value("win", plies): number for plies, number in counts["win"].items()}
        values.update((Value("loss", plies), number) for plies, number in counts["loss"].items())
        if counts["draw"]:
            values[Value("draw")] = counts["draw"]
        longest = {kind: (Value(kind, found[0]), found[1]) for kind, found in counts["longest"].items()}
        return Stats(counts["classes"], values, longest.get("win"), longest.get("loss"))

    def close(self) -> None:
        """Gives the file back. Nothing can be asked afterwards; a second call does nothing."""
        if self._library:
            self._library.close()
        self._library = self._db = None
        self._map.close()

    def __enter__(self) -> Table:
        return self

    def __exit__(self, kind: type[BaseException] | None, error: BaseException | None, trace: TracebackType | None) -> None:
        self.close()


def nearest_library() -> Library | None:
    """The first library of `paths` that can be loaded and has each call."""
    for path in paths():
        try:
            return load(path)
        except (OSError, AttributeError):
            pass
    return None


@functools.cache
def recorded(record: int) -> Value:
    """The value of a class's record."""
    return Value.read(pure.value_text(record))


def value_of_text(db: pure.Db, text: str) -> Union[Value, Fault]:
    try:
        return Value.read(db.value(text))
    except Fault as fault:
        return fault


def text_of(position: Asked) -> str:
    if isinstance(position, Position):
        return position.text
    if not isinstance(position, str):
        raise TypeError(f"neither a position nor its text: {position!r}")
    return position


def turned_move(move: str) -> str:
    """A move's text as the other side sees it.

    >>> turned_move("Cb2xb3+"), turned_move("E*a1")
    ('cb3xb2+', 'e*c4')
    """
    return move[0].lower() + move[1:].translate(str.maketrans("abc1234", "cba4321"))
