"""Spoilt certificates with the fault that the reader in Python gives each: spoilt.py FOLDER takes each *.cert of the folder.

A line has the bytes in hexadecimal, a tab, and the fault, or nothing where the claim is proved. Each byte is changed in four ways, with the digest that then
belongs there; the file is cut; and classes that aren't open are listed as lost in place of others, which says nothing of them.
"""

import hashlib
import pathlib
import struct
import sys

sys.path[:0] = ["python", "tools"]
from certificates import certificate_bytes
from dobutsu import pure


def verdict(data):
    try:
        pure.Certificate(data).verify()
        return ""
    except pure.Fault as fault:
        return str(fault)


def sealed(contents):
    return contents + hashlib.sha256(contents).digest()


def with_lost(data, lost):
    """The same certificate with other lost classes."""
    held = pure.Certificate(data).held
    return certificate_bytes(data[:20], lost, held)


def ended_replies(certificate, number):
    """The classes two plies after that one in which the lion can be caught."""
    profile, found = certificate.profile, set()
    for _turn, outcome in moves_of(certificate, certificate.position_at(number)):
        for _reply, after in moves_of(certificate, outcome):
            if pure.status(profile, after) == "caught":
                found.add(pure.class_number(profile, after))
    return found


def moves_of(certificate, position):
    status, moves = pure.status_and_moves(certificate.profile, position)
    return [(move, pure.apply(position, move)) for move in moves] if status == "open" else []


def spoilt(data):
    contents = data[:-32]
    for place in range(len(contents)):
        for byte in {contents[place] ^ 1, (contents[place] + 1) % 256, (contents[place] + 254) % 256, 255} - {contents[place]}:
            yield sealed(contents[:place] + bytes([byte]) + contents[place + 1 :])
    for length in range(0, len(data), 9):
        yield data[:length]
    certificate = pure.Certificate(data)
    for number in list(certificate.lost)[:6]:
        others = {entry: plies for entry, plies in certificate.lost.items() if entry != number}
        yield with_lost(data, others)
        for user in list(certificate.lost)[:6]:
            yield with_lost(data, {**dict.fromkeys(ended_replies(certificate, user), 0), **others})


def overcounted():
    """A beginning of the whole game's that counts as many entries as there are classes."""
    data = pathlib.Path("testdata/222_A.cert").read_bytes()[:300]
    return data[:20] + struct.pack("<II", 588021930, 588021930) + data[28:]


if __name__ == "__main__":
    print(f"{overcounted().hex()}\t{verdict(overcounted())}")
    for path in sorted(pathlib.Path(sys.argv[1]).glob("*.cert")):
        for data in spoilt(path.read_bytes()):
            print(f"{data.hex()}\t{verdict(data)}")
