"""An index of another family, or that lacks its end, is refused before any class is counted: library_index.py LIBRARY FILE

That 200 refusals take less than two seconds shows it, where counting once takes some hundredths of one. FILE is made, of the whole game and all draws.
"""
import ctypes
import mmap
import sys
import time
sys.path.insert(0, "python")
from dobutsu import library
calls = library.load(sys.argv[1])
classes = calls.class_count("A", (2, 2, 2))
with open(sys.argv[2], "wb") as file:
    file.write(b"DOBUTSU2" + bytes([2, 2, 2, 2, 0]) + classes.to_bytes(8, "little"))
    file.truncate(21 + 2 * classes + 32)
with open(sys.argv[2], "rb") as file:
    data = mmap.mmap(file.fileno(), 0, access=mmap.ACCESS_COPY)
whole = calls.index("A", (2, 2, 2))
short = (ctypes.c_uint64 * (len(whole) - 1))(*whole[: len(whole) - 1])
wrong = [short, calls.index("A", (2, 2, 1)), calls.index("B", (2, 2, 2)), calls.index("A", (0, 0, 0))]
held, text, value = (ctypes.c_char * len(data)).from_buffer(data), b"gle/.c./.C./ELG - -", library.CValue(7, 7)
start = time.monotonic()
for turn in range(200):
    index = wrong[turn % len(wrong)]
    assert calls.calls.dobutsu_probe_by(held, len(held), index, len(index), text, len(text), value) == 29 and (value.kind, value.plies) == (7, 7)
taken = time.monotonic() - start
assert calls.calls.dobutsu_probe_by(held, len(held), whole, len(whole), text, len(text), value) == 0 and (value.kind, value.plies) == (0, 0)
assert taken < 2, taken
print("200 refusals in", round(taken, 3), "s")
