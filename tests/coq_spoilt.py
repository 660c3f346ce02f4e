"""Spoilt certificates, for both commands of coq/: coq_spoilt.py CERTIFICATES FOLDER [PROGRAM]

Of each *.cert of the folder CERTIFICATES three are spoilt by hand, in each of five ways in turn: an entry is left out, one has fewer plies or more, the claim
is of another position, of fewer plies, of another kind. Those go to coq/check and to coq/verify, which work in FOLDER; others, each byte changed and the file
cut, go to coq/verify alone. Each is accepted or refused, by the same fault and the same number, as pure Python does it, and the program where it is named.
"""
import collections
import itertools
import pathlib
import subprocess
import sys

sys.dont_write_bytecode = True
sys.path[:0] = ["tests", "python", "tools"]
import spoilt
from certificates import certificate_bytes
from dobutsu import pure

BY_HAND = 3  # of each certificate
STEP = 9  # of those that are changed in a byte, one in so many


def verdict(data):
    """The line that is printed of it: the claim, or the fault."""
    try:
        certificate = pure.Certificate(data)
        certificate.verify()
        return str(certificate)
    except pure.Fault as fault:
        return f"dobutsu: {fault}"


def said(*words):
    """What a command says first, of the claim on standard output or of the fault on standard error, with a status that fits."""
    ran = subprocess.run(words, capture_output=True, text=True)
    lines = [line for line in (ran.stdout + ran.stderr).splitlines() if not line.startswith("dobutsu: Coq refuses")]
    assert ran.returncode == lines[0].startswith("dobutsu: ") and bool(ran.stdout) != bool(ran.stderr), (words, ran)
    return lines[0]


def without(entries, at):
    return {number: plies for place, (number, plies) in enumerate(entries.items()) if place != at}


def changed(entries, at, by):
    return {number: min(plies + by, 254) if place == at else plies for place, (number, plies) in enumerate(entries.items())}


def by_hand(data):
    """The ways in turn, at other entries each time."""
    certificate = pure.Certificate(data)
    head, lost, held = data[:20], certificate.lost, certificate.held
    for at in itertools.count():
        if lost:
            yield certificate_bytes(head, without(lost, at % len(lost)), held)
            yield certificate_bytes(head, changed(lost, at % len(lost), -min(1, *lost.values())), held)
        if held:
            yield certificate_bytes(head, lost, without(held, at % len(held)))
            yield certificate_bytes(head, lost, changed(held, at % len(held), 1))
        if certificate.plies:
            yield certificate_bytes(head[:19] + bytes([certificate.plies - 1]), lost, held)
        yield certificate_bytes(head[:14] + (certificate.root + 1 + at).to_bytes(4, "little") + head[18:], lost, held)
        yield certificate_bytes(head[:18] + bytes([(head[18] + 1) % 5, certificate.plies or 1]), lost, held)


certificates, folder, program = pathlib.Path(sys.argv[1]), sys.argv[2], sys.argv[3] if len(sys.argv) > 3 else None
counts = collections.Counter()
file = pathlib.Path(folder, "spoilt.cert")
for number, path in enumerate(sorted(certificates.glob("*.cert"))):
    data = path.read_bytes()
    assert said("coq/verify", path, folder) == verdict(data) == str(pure.Certificate(data)), path
    hand = itertools.islice(by_hand(data), number % 5, number % 5 + BY_HAND)
    for each, is_by_hand in [*((each, True) for each in hand), *((each, False) for each in itertools.islice(spoilt.spoilt(data), number, None, STEP))]:
        file.write_bytes(each)
        wanted = verdict(each)
        assert said("coq/verify", file, folder) == wanted, (path, wanted, each.hex())
        if is_by_hand:
            assert said("coq/check", file, folder) == wanted, (path, wanted, each.hex())
            if program:
                assert said(program, "verify", "--cert", file) == wanted, (path, wanted, each.hex())
        counts[("by hand" if is_by_hand else "in a byte", wanted.split()[1] if wanted.startswith("dobutsu: ") else "accepted")] += 1
file.unlink()
assert counts[("by hand", "accepted")] and counts[("by hand", "E30")] and counts[("by hand", "E31")], counts
for way in ("by hand", "in a byte"):
    print(way, *(f"{fault}:{count}" for (kind, fault), count in sorted(counts.items()) if kind == way))
