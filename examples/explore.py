#!/usr/bin/env python3
"""Tells the value of a position and of each of its moves by a database's file, over the shared library.

usage: explore.py LIBRARY FILE POSITION ..

The first line of each position is its value, as `dobutsu probe` prints it; then a line a move, best first, as `dobutsu moves` does. A fault is
its number, as E7. LIBRARY is libdobutsu.so.
"""

import ctypes
import sys

HAND = 12
KINDS = "CEGHL"
MOST_MOVES = 38


class Value(ctypes.Structure):
    _fields_ = [("kind", ctypes.c_uint32), ("plies", ctypes.c_uint32)]

    def __str__(self):
        return "draw" if self.kind == 0 else f"{['', 'win', 'loss'][self.kind]} {self.plies}"


class Move(ctypes.Structure):
    _fields_ = [(name, ctypes.c_uint32) for name in ("kind", "start", "end", "catches", "grows")] + [("value", Value)]

    def __str__(self):
        letter, end = KINDS[self.kind], square(self.end)
        if self.start == HAND:
            return f"{letter}*{end} {self.value}"
        return f"{letter}{square(self.start)}{'x' if self.catches else '-'}{end}{'+' if self.grows else ''} {self.value}"


def square(number):
    return "abc"[number % 3] + str(number // 3 + 1)


def load(path):
    """The library, with what its calls take and give."""
    library = ctypes.CDLL(path)
    data, size = ctypes.c_void_p, ctypes.c_size_t
    library.dobutsu_probe.argtypes = [data, size, data, size, ctypes.POINTER(Value)]
    library.dobutsu_probe.restype = ctypes.c_uint32
    library.dobutsu_moves.argtypes = [data, size, data, size, ctypes.POINTER(Move), size, ctypes.POINTER(ctypes.c_uint64)]
    library.dobutsu_moves.restype = ctypes.c_uint32
    return library


def tell(library, file, file_len, text):
    """The lines of a position."""
    words = ctypes.create_string_buffer(text)
    value, moves, count = Value(), (Move * MOST_MOVES)(), ctypes.c_uint64()
    fault = library.dobutsu_probe(file, file_len, words, len(text), value)
    if fault == 0:
        fault = library.dobutsu_moves(file, file_len, words, len(text), moves, MOST_MOVES, count)
    return [f"E{fault}"] if fault else [str(value), *map(str, moves[: count.value])]


def main(path, name, *texts):
    library = load(path)
    with open(name, "rb") as opened:
        held = opened.read()
    file = (ctypes.c_char * max(1, len(held))).from_buffer_copy(held or b"\0")
    for text in texts:
        print(*tell(library, file, len(held), text.encode("utf-8", "surrogateescape")), sep="\n")


if __name__ == "__main__":
    if len(sys.argv) < 4:
        sys.exit(__doc__)
    main(*sys.argv[1:])
