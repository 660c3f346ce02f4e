"""A folder of database files, each question asked of the file of its position's set."""
from __future__ import annotations

import os
import pathlib
from types import TracebackType

from . import pure
from .position import Position
from .table import Asked, Default, Table, text_of
from .value import Move, Value


class MissingTable(KeyError):
    """No file was added for the position's set by these rules."""


def begins_table(file: pathlib.Path) -> bool:
    """Whether the file begins as a database file does, or ends before that shows."""
    with open(file, "rb") as opened:
        title = opened.read(7)
    return b"DOBUTSU".startswith(title)


class Tables:
    """The tables of a folder, by the rules that are asked for. A file is opened when it is first needed.

    >>> with Tables("testdata") as tables:
    ...     print(tables["..l/.../L../... - -"], tables.moves("..l/.../L../... - -")[0])
    win 3 La2-a3 win 3
    >>> Tables("testdata")["gle/.c./.C./ELG - -"]
    Traceback (most recent call last):
    ...
    dobutsu.tables.MissingTable: 'no table of 222 by rules A'

    Raises what `add` does, and ValueError for other rules than A and B.
    """

    def __init__(self, folder: str | os.PathLike[str] | None = None, rules: str = "A", library: str | None = None) -> None:
        if rules not in ("A", "B"):
            raise ValueError(f"no rules: {rules!r}; there are A and B")
        self.rules = rules
        self._library = library
        self._paths: dict[tuple[str, str], pathlib.Path] = {}
        self._tables: dict[tuple[str, str], Table] = {}
        if folder is not None:
            self.add(folder)

    def add(self, path: str | os.PathLike[str]) -> int:
        """Adds a file, or each file of a folder whose name ends in `.db`, but for those of another program, which don't begin as a database file does. Of two
        files of one set and rules the one that was added later is asked, and of a folder's the last by name. Answers how many files were added.

        Raises OSError where one can't be read, and `Fault` (E15 to E17, E27) where its header is none, of a folder's with its name behind it; its length is
        tested when it is opened. A folder's files before that one are added then.
        """
        path = pathlib.Path(path)
        if not path.is_dir():
            self._add_file(path)
            return 1
        files = [file for file in sorted(path.glob("*.db")) if begins_table(file)]
        for file in files:
            try:
                self._add_file(file)
            except pure.Fault as fault:
                raise pure.Fault(f"{fault}: {file}") from None
        return len(files)

    def _add_file(self, file: pathlib.Path) -> None:
        with open(file, "rb") as opened:
            header = pure.read_header(opened.read(21))
        family = "".join(map(str, header.pieces)), header.profile
        self._paths[family] = file
        if family in self._tables:
            self._tables.pop(family).close()

    def table(self, position: Asked) -> Table:
        """The table of the position's set. Raises `Fault` where the text is no position (E1 to E6), and `MissingTable`."""
        found = position if isinstance(position, Position) else Position(text_of(position))
        family = found.set, self.rules
        if family not in self._tables:
            if family not in self._paths:
                raise MissingTable(f"no table of {found.set} by rules {self.rules}")
            self._tables[family] = Table(self._paths[family], self._library)
        return self._tables[family]

    def __getitem__(self, position: Asked) -> Value:
        """The position's value. Raises what `table` does, and `Fault` (E26) as a table does."""
        return self.table(position)[position]

    def get(self, position: Asked, default: Default | None = None) -> Value | Default | None:
        """The position's value, or the default where it is none of these tables."""
        try:
            return self[position]
        except (pure.Fault, MissingTable):
            return default

    def __contains__(self, position: object) -> bool:
        """Whether it is a position of one of the tables, or the text of one."""
        return isinstance(position, (str, Position)) and self.get(position) is not None

    def moves(self, position: Asked) -> list[Move]:
        """Each move with its value, best first, as a table's `moves`."""
        return self.table(position).moves(position)

    def line(self, position: Asked) -> list[str]:
        """Best play to the end, as a table's `line`."""
        return self.table(position).line(position)

    def close(self) -> None:
        """Closes all files. They are opened again when they are asked."""
        while self._tables:
            self._tables.popitem()[1].close()

    def __enter__(self) -> Tables:
        return self

    def __exit__(self, kind: type[BaseException] | None, error: BaseException | None, trace: TracebackType | None) -> None:
        self.close()
