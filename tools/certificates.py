#!/usr/bin/env python3
"""Joins certificates of one piece set and one profile: tools/certificates.py OUT CERTIFICATE..

The file that it writes claims what the first one does. It lists each class that one of them lists: as lost within the fewest plies that one of them says, and
as not lost within the most. What shows an entry in one of them shows it in the joined lists too. So where all of them prove what they claim, the file does,
and `reply` goes by all of them. As a module it writes certificates.
"""
import hashlib
import pathlib
import struct
import sys

sys.path.insert(0, str(pathlib.Path(__file__).resolve().parent.parent / "python"))
from dobutsu import pure  # noqa: E402


def number_bytes(number):
    """The number as LEB128 in its fewest bytes."""
    out = []
    while number >= 128:
        out.append(128 + number % 128)
        number //= 128
    return bytes([*out, number])


def entry_bytes(entries):
    out, least = bytearray(), 0
    for number, plies in sorted(entries.items()):
        out += number_bytes(number + 1 - least) + bytes([min(plies, 255)])
        least = number + 1
    return bytes(out)


def certificate_bytes(head, lost, held):
    """A file of these lists; its first 20 bytes say set, profile, root and claim."""
    contents = head + struct.pack("<II", len(lost), len(held)) + entry_bytes(lost) + entry_bytes(held)
    return contents + hashlib.sha256(contents).digest()


def joined(paths):
    """A file that claims what the first one does, with the entries of all."""
    files = [path.read_bytes() for path in paths]
    certificates = [pure.Certificate(data) for data in files]
    if len({(it.profile, it.pieces) for it in certificates}) != 1:
        sys.exit("certificates of several sets or profiles")
    lost, held = {}, {}
    for certificate in certificates:
        for number, plies in certificate.lost.items():
            lost[number] = min(plies, lost.get(number, plies))
        for number, plies in certificate.held.items():
            held[number] = max(plies, held.get(number, plies))
    return certificate_bytes(files[0][:20], lost, held)


if __name__ == "__main__":
    if len(sys.argv) < 3:
        sys.exit(__doc__.split("\n")[0])
    out, *paths = map(pathlib.Path, sys.argv[1:])
    out.write_bytes(joined(paths))
