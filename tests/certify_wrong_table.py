"""A table in which positions have other values, and the digest that then belongs there: certify_wrong_table.py FROM TO POSITION CODE [POSITION CODE..]

A code is 0 for a draw, and one more than the plies of a win or a loss.
"""
import hashlib
import pathlib
import sys
sys.path.insert(0, "python")
from dobutsu import pure
data = bytearray(pathlib.Path(sys.argv[1]).read_bytes())
for text, code in zip(sys.argv[3::2], sys.argv[4::2]):
    place = (20 if data[7:8] == b"1" else 21) + 2 * pure.class_number("A", pure.read_position(text))
    data[place : place + 2] = int(code).to_bytes(2, "little")
pathlib.Path(sys.argv[2]).write_bytes(bytes(data[:-32]) + hashlib.sha256(data[:-32]).digest())
