"""The shared library `libdobutsu.so`, over ctypes: its calls on the bytes of a file that is mapped."""
from __future__ import annotations

import array
import ctypes
import functools
import itertools
import os
import pathlib
import struct
from collections.abc import Iterator, Sequence
from typing import Any, Union

from .pure import PROFILES, Fault, Pieces, hand_text
from .value import Move, Value

NAMES = {
    1: "Shape", 2: "Letter", 3: "Hand", 4: "Lions", 5: "Count", 6: "FarLion", 7: "OtherSet", 15: "Truncated", 16: "Magic", 17: "SetByte",
    18: "ClassCount", 19: "Trailing", 20: "Digest", 21: "Inconsistent", 23: "Memory", 24: "Io", 25: "SetText", 26: "FarChick", 27: "ProfileByte",
    28: "NoMove", 29: "Index", 30: "Unsupported", 31: "Claim", 32: "Version", 33: "RootClass", 34: "ClaimByte", 35: "EntryCount", 36: "EntryNumber",
    37: "EntryOrder", 38: "EntryClass", 42: "EntryPlies",
}  # fmt: skip
KINDS = "CEGHL"
VALUES = "draw", "win", "loss"
FROM_HAND = 12
UNLISTED = 41
LETTERS = b".CEGHLceghl".ljust(256, b"?")  # what stands on a square, by its number
POSITION_LEN = 18  # twelve squares, and three kinds in two hands
ANSWER = struct.Struct("=III")  # a fault, and a value's kind and plies
MOST_MOVES = 64  # room for a first try: no position was seen to have more than 38


class CValue(ctypes.Structure):
    _fields_ = [("kind", ctypes.c_uint32), ("plies", ctypes.c_uint32)]

    def value(self) -> Value:
        return value_of(self.kind, self.plies)


class CMove(ctypes.Structure):
    _fields_ = [
        ("kind", ctypes.c_uint32),
        ("start", ctypes.c_uint32),
        ("end", ctypes.c_uint32),
        ("catches", ctypes.c_uint32),
        ("grows", ctypes.c_uint32),
        ("value", CValue),
    ]

    def move(self) -> Move:
        letter, end = KINDS[self.kind], square(self.end)
        if self.start == FROM_HAND:
            return Move(f"{letter}*{end}", self.value.value())
        return Move(f"{letter}{square(self.start)}{'x' if self.catches else '-'}{end}{'+' if self.grows else ''}", self.value.value())


class CVersion(ctypes.Structure):
    _fields_ = [("major", ctypes.c_uint32), ("minor", ctypes.c_uint32), ("patch", ctypes.c_uint32)]


@functools.cache
def value_of(kind: int, plies: int) -> Value:
    return Value(VALUES[kind], plies)


class CClaim(ctypes.Structure):
    _fields_ = [(name, ctypes.c_uint32) for name in ("chicks", "elephants", "giraffes", "profile", "root", "kind", "plies", "within")]


def square(number: int) -> str:
    return "abc"[number % 3] + str(number // 3 + 1)


def paths() -> Iterator[str]:
    """Where the library may be: as the environment says, beside the package, beside its folder, or where the system looks."""
    package = pathlib.Path(__file__).resolve().parent
    if named := os.environ.get("DOBUTSU_LIBRARY"):
        yield named
    for near in (package / "libdobutsu.so", package.parent.parent / "libdobutsu.so"):
        if near.is_file():
            yield str(near)
    yield "libdobutsu.so"


class Library:
    """The library's calls. Raises OSError where it can't be loaded, AttributeError where it lacks a call."""

    def __init__(self, path: str) -> None:
        calls = ctypes.CDLL(path)
        size, number, bytes_at, words_at = ctypes.c_size_t, ctypes.c_uint32, ctypes.c_void_p, ctypes.POINTER(ctypes.c_uint64)
        asked: list[Any] = [bytes_at, size, words_at, size, ctypes.c_char_p, size]
        calls.dobutsu_count.argtypes = [number] * 4 + [words_at] * 2
        calls.dobutsu_index_words.argtypes = [number] * 4
        calls.dobutsu_index_words.restype = ctypes.c_uint64
        calls.dobutsu_index.argtypes = [number] * 4 + [words_at, size]
        calls.dobutsu_probe_by.argtypes = [*asked, ctypes.POINTER(CValue)]
        calls.dobutsu_moves_by.argtypes = [*asked, ctypes.POINTER(CMove), size, words_at]
        calls.dobutsu_probe_many.argtypes = [*asked, words_at, size, bytes_at, size]
        calls.dobutsu_probe_many.restype = ctypes.c_uint64
        calls.dobutsu_class_at.argtypes = [number] * 4 + [ctypes.c_uint64, bytes_at, size]
        for call in (calls.dobutsu_count, calls.dobutsu_index, calls.dobutsu_probe_by, calls.dobutsu_moves_by, calls.dobutsu_class_at):
            call.restype = number
        calls.dobutsu_version.restype = CVersion
        self.calls = calls

    @property
    def version(self) -> str:
        found = self.calls.dobutsu_version()
        return f"{found.major}.{found.minor}.{found.patch}"

    def class_count(self, rules: str, pieces: Pieces) -> int:
        """How many classes the family has."""
        positions, classes = ctypes.c_uint64(), ctypes.c_uint64()
        refuse(self.calls.dobutsu_count(*pieces, PROFILES.index(rules), positions, classes))
        return classes.value

    def index(self, rules: str, pieces: Pieces) -> ctypes.Array[ctypes.c_uint64]:
        """The index of the family: some hundredths of a second for the whole game."""
        family = [*pieces, PROFILES.index(rules)]
        count: int = self.calls.dobutsu_index_words(*family)
        words = (ctypes.c_uint64 * count)()
        refuse(self.calls.dobutsu_index(*family, words, len(words)))
        return words


    def positions(self, rules: str, pieces: Pieces, first: int, count: int) -> list[str]:
        """The texts of the positions by which that many classes stand, from the first number on."""
        found = (ctypes.c_uint8 * (POSITION_LEN * count))()
        refuse(self.calls.dobutsu_class_at(*pieces, PROFILES.index(rules), first, found, count))
        numbers = bytes(found)
        letters = numbers.translate(LETTERS).decode("ascii")
        return [position_text(numbers, letters, start) for start in range(0, len(numbers), POSITION_LEN)]


@functools.cache
def load(path: str) -> Library:
    return Library(path)


class LibraryFile:
    """A file's bytes, asked by the library. Its index of the family is made once, at the first question, so that each answer takes microseconds."""

    def __init__(self, library: Library, data: memoryview, rules: str, pieces: Pieces) -> None:
        self.library, self.rules, self.pieces = library, rules, pieces
        self.held = (ctypes.c_char * len(data)).from_buffer(data)

    @functools.cached_property
    def index(self) -> ctypes.Array[ctypes.c_uint64]:
        return self.library.index(self.rules, self.pieces)

    def value(self, text: str) -> Value:
        answer = CValue()
        refuse(self.library.calls.dobutsu_probe_by(*self.asked(text), answer))
        return answer.value()

    def values(self, texts: Sequence[str]) -> list[Union[Value, Fault]]:
        """The value of each text, or its fault."""
        if not texts:
            return []
        joined = "".join(texts)
        if joined.isascii():
            words, sizes = joined.encode("ascii"), map(len, texts)
        else:
            each = [text.encode("utf-8", "surrogatepass") for text in texts]
            words, sizes = b"".join(each), map(len, each)
        ends = (ctypes.c_uint64 * len(texts)).from_buffer(array.array("Q", itertools.accumulate(sizes)))
        answers = (ctypes.c_uint8 * (ANSWER.size * len(texts)))()
        held, index = self.held, self.index
        self.library.calls.dobutsu_probe_many(held, len(held), index, len(index), words, len(words), ends, len(ends), answers, len(ends))
        return [fault_of(fault) if fault else value_of(kind, plies) for fault, kind, plies in ANSWER.iter_unpack(answers)]

    def positions(self, first: int, count: int) -> list[str]:
        return self.library.positions(self.rules, self.pieces, first, count)

    def moves(self, text: str) -> list[Move]:
        count = ctypes.c_uint64(MOST_MOVES)
        while True:
            found = (CMove * count.value)()
            refuse(self.library.calls.dobutsu_moves_by(*self.asked(text), found, len(found), count))
            if count.value <= len(found):
                return [each.move() for each in found[: count.value]]

    def asked(self, text: str) -> tuple[object, ...]:
        words = text.encode("utf-8", "surrogatepass")
        return self.held, len(self.held), self.index, len(self.index), words, len(words)

    def close(self) -> None:
        del self.held


class Verifier:
    """The library's calls for certificates. Raises OSError where the library can't be loaded, AttributeError where it lacks one."""

    def __init__(self, path: str) -> None:
        library, bytes_at, size = ctypes.CDLL(path), ctypes.c_char_p, ctypes.c_size_t
        self.call, self.reply_call = library.dobutsu_verify, library.dobutsu_reply
        self.call.argtypes = [bytes_at, size, ctypes.POINTER(CClaim), ctypes.POINTER(ctypes.c_uint64)]
        self.reply_call.argtypes = [bytes_at, size, bytes_at, size, ctypes.POINTER(CMove)]
        self.call.restype = self.reply_call.restype = ctypes.c_uint32

    def verify(self, data: bytes) -> None:
        """Raises `Fault` where the bytes are no certificate's file that proves its claim."""
        claim, unsupported = CClaim(), ctypes.c_uint64()
        fault = self.call(data, len(data), claim, unsupported)
        if fault == 30:
            raise Fault(f"E30 Unsupported class {unsupported.value}")
        refuse(fault)

    def reply(self, data: bytes, text: str) -> tuple[str, int] | None:
        """The move that the bytes of a certificate give the position, and within how many plies it wins; none where they give none."""
        words, found = text.encode("utf-8", "surrogatepass"), CMove()
        fault = self.reply_call(data, len(data), words, len(words), found)
        if fault == UNLISTED:
            return None
        refuse(fault)
        move = found.move()
        return (move.text, move.value.plies) if move.value.kind == "win" else None


def refuse(fault: int) -> None:
    if fault:
        raise fault_of(fault)


def fault_of(number: int) -> Fault:
    return Fault(f"E{number} {NAMES.get(number, 'Unknown')}")


def position_text(numbers: bytes, letters: str, at: int) -> str:
    """The text of the position whose numbers begin there, with the letters that they stand for on the board."""
    rows = f"{letters[at + 9 : at + 12]}/{letters[at + 6 : at + 9]}/{letters[at + 3 : at + 6]}/{letters[at : at + 3]}"
    return f"{rows} {hand_of(numbers[at + 12 : at + 15], 'CEG')} {hand_of(numbers[at + 15 : at + 18], 'ceg')}"


@functools.cache
def hand_of(numbers: bytes, letters: str) -> str:
    chicks, elephants, giraffes = numbers
    return hand_text((chicks, elephants, giraffes), letters) or "-"
