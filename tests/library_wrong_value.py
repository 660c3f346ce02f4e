"""A file whose digest is right and the value of whose class 1 isn't: library_wrong_value.py LIBRARY FILE WRONG

Makes WRONG of FILE, and prints what dobutsu_check says of it.
"""
import ctypes
import hashlib
import sys
file = bytearray(open(sys.argv[2], "rb").read())
check = ctypes.CDLL(sys.argv[1]).dobutsu_check
def checked(file):
    broken = ctypes.c_uint64(77)
    fault = check((ctypes.c_char * len(file))(*file), ctypes.c_size_t(len(file)), ctypes.byref(broken))
    return f"E{fault} Inconsistent class {broken.value}" if fault == 21 else f"{fault} {broken.value}"
assert checked(file) == "0 77", checked(file)
file[23:25] = b"\0\0" if file[23:25] != b"\0\0" else b"\2\0"
assert checked(file) == "20 77", checked(file)
file[-32:] = hashlib.sha256(file[:-32]).digest()
open(sys.argv[3], "wb").write(file)
print("dobutsu:", checked(file))
