"""A certificate: a claim of one position, with lists of classes that show it."""
from __future__ import annotations

import os
import struct
from collections.abc import Iterable

from . import pure
from .library import Verifier, paths

MOST_ENTRY = 6  # bytes, five of a number and one of plies
PIECE = 1 << 20  # how many bytes are read at once


def read_file(path: str | os.PathLike[str]) -> bytes:
    """The bytes of the file; or where there are more than its header tells of, so many that one is too many. Raises `Fault` where the header is none."""
    with open(path, "rb") as file:
        data = file.read(28)
        try:
            pure.Certificate(data)
        except pure.Fault as fault:
            if len(data) < 28 or fault.number != 15:  # 15: the header is right, and the entries aren't there yet
                raise
        lost, held = struct.unpack("<II", data[20:])
        most = 28 + MOST_ENTRY * (lost + held) + 32 + 1
        while len(data) < most and (piece := file.read(min(PIECE, most - len(data)))):
            data += piece
    return data


class Certificate:
    """A certificate of Dobutsu shogi, as `dobutsu certify` makes it.

    >>> certificate = Certificate("testdata/one_chick.cert")
    >>> print(certificate)
    .c./l../.../.L. - - loss 8
    >>> certificate.verify()
    >>> certificate.reply("..l/.../..L/.C. - -")
    ('Cb1-b2', 7)
    >>> Certificate("testdata/one_chick.db")  # doctest: +IGNORE_EXCEPTION_DETAIL
    Traceback (most recent call last):
    ...
    dobutsu.pure.Fault: E16 Magic

    Raises OSError where the file can't be opened, and `Fault` where it is no certificate's, by all the tests of docs/FORMAT.md. What it claims is true
    only where `verify` says nothing. That goes by the proved library where it is found, in a second for the starting layout. Else, or with `library=""`, it
    goes by pure Python, a second opinion that is unproved: small ones take a moment, that of the starting layout a minute or two.
    """

    #: Which code verifies: `libdobutsu`, the proved library, or `pure Python`, where none was found.
    engine: str

    def __init__(self, path: str | os.PathLike[str], library: str | None = None) -> None:
        self._path = path
        self._data = read_file(path)
        self._pure = pure.Certificate(self._data)
        self._library = self._load(paths() if library is None else [library] if library else [], must=bool(library))
        self.engine = "libdobutsu" if self._library else "pure Python"

    def _load(self, found: Iterable[str], must: bool) -> Verifier | None:
        for path in found:
            try:
                return Verifier(path)
            except (OSError, AttributeError):
                if must:
                    raise
        return None

    @property
    def set(self) -> str:
        """The piece set's name: the numbers of chicks, elephants and giraffes."""
        return "".join(map(str, self._pure.pieces))

    @property
    def rules(self) -> str:
        """By which rules it is: `A` or `B`."""
        return self._pure.profile

    @property
    def position(self) -> str:
        """The position of the claim: the first of its class."""
        return pure.write_position(self._pure.position())

    @property
    def claim(self) -> str:
        """What it claims: `draw`, `win D`, `loss D`, `win within D` or `loss within D`."""
        return self._pure.claimed()

    def __repr__(self) -> str:
        return f"<Certificate {os.fspath(self._path)!r}: set {self.set} by rules {self.rules}, {self.position} {self.claim}>"

    def __str__(self) -> str:
        return str(self._pure)

    def __len__(self) -> int:
        """How many entries it has, in both lists."""
        return len(self._pure.lost) + len(self._pure.held)

    def verify(self) -> None:
        """Raises `Fault` where the lists don't show the claim: E30 with the first entry that the others don't show, or E31. Else the claim is true."""
        if self._library:
            self._library.verify(self._data)
        else:
            self._pure.verify()

    def reply(self, text: str) -> tuple[str, int] | None:
        """The move of the position by which its side wins soonest, by the lost classes, and within how many plies; none where no move leads there.

        Raises `Fault` where the text is no position (E1 to E6) or not of the certificate's set and rules (E7, E26). By the library the lost classes are
        looked at each time, so that the move wins whoever made the file, or E30 is raised: a second for the starting layout's certificate.
        """
        return self._library.reply(self._data, text) if self._library else self._pure.reply(text)
