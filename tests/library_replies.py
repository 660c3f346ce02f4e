"""The move that a certificate gives each position of its set, by the library and by the reader in Python: library_replies.py LIBRARY FILE

And the faults, of the text, of the bytes, of the set, of an entry that isn't shown, in this order.
"""
import hashlib
import sys
sys.path.insert(0, "python")
from dobutsu import pure
from dobutsu.library import Verifier
library, data = Verifier(sys.argv[1]), open(sys.argv[2], "rb").read()
certificate, asked, moves = pure.Certificate(data), 0, 0
for number in range(pure.class_count(certificate.profile, certificate.pieces)):
    position = certificate.position_at(number)
    for text in map(pure.write_position, (position, pure.mirrored(position))):
        wanted = certificate.reply(text)
        assert library.reply(data, text) == wanted, (text, wanted)
        asked, moves = asked + 1, moves + (wanted is not None)


def fault_of(data, text):
    try:
        return library.reply(data, text)
    except pure.Fault as fault:
        return str(fault)


place = next(place for place in range(28, len(data)) if data[place] < 128) + 1  # the plies of the first entry
false = data[:place] + b"\0" + data[place + 1 : -32]
text, lions = pure.write_position(certificate.position()), "..l/.../L../... - -"
for spoilt, asked_for, fault in [
    (data[:40], "x", "E1 Shape"), (data[:-1], lions, "E15 Truncated"), (data[:-1] + bytes([data[-1] ^ 1]), lions, "E20 Digest"), (data, lions, "E7 OtherSet"),
    (false + hashlib.sha256(false).digest(), lions, "E7 OtherSet"), (false + hashlib.sha256(false).digest(), text, "E30 Unsupported"),
]:
    assert fault_of(spoilt, asked_for) == fault, (asked_for, fault_of(spoilt, asked_for), fault)
print(asked, "positions,", moves, "with a move")
