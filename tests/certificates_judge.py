"""Changes each byte of each file of a folder in turn, in four ways, with the digest that then belongs there: certificates_judge.py FOLDER PROGRAM

What the reader in Python and the program say of each must be the same. What they accept must be true, by the value that the program computes without a table.
"""
import functools
import hashlib
import pathlib
import subprocess
import sys
sys.path.insert(0, "python")
from dobutsu import pure


@functools.cache
def value_of(program, profile, text):
    return subprocess.run([program, "value", "--rules", profile, text], capture_output=True, text=True, check=True).stdout.strip()


def holds(program, certificate):
    text = pure.write_position(certificate.position())
    kind, _, plies = value_of(program, certificate.profile, text).partition(" ")
    if certificate.claim.endswith(" within"):
        return certificate.claim == kind + " within" and int(plies) <= certificate.plies
    return certificate.claim == kind and int(plies or 0) == certificate.plies


def proved(certificate):
    """The line that says what the certificate proves, and by which rules where they are B."""
    rules = " by rules B" if certificate.profile == "B" else ""
    return str(certificate).removesuffix(rules) + rules


def verdict(data):
    """The line of a certificate that holds, with it, or the fault."""
    try:
        certificate = pure.Certificate(data)
        certificate.verify()
        return proved(certificate), certificate
    except pure.Fault as wrong:
        return f"dobutsu: {wrong}", None


def said(program, path):
    ran = subprocess.run([program, "verify", "--cert", path], capture_output=True, text=True)
    assert ran.returncode == (1 if ran.stderr else 0), (path, ran)
    return (ran.stdout + ran.stderr).strip()


folder, program = pathlib.Path(sys.argv[1]), sys.argv[2]
changed = folder / "changed"
accepted = refused = 0
for path in sorted(folder.glob("*.cert")):
    data = path.read_bytes()
    assert verdict(data)[1] and holds(program, verdict(data)[1]), path
    for place in range(len(data)):
        for byte in {data[place] ^ 1, (data[place] + 1) % 256, (data[place] + 254) % 256, 255} - {data[place]}:
            spoilt = bytearray(data)
            spoilt[place] = byte
            changed.write_bytes(spoilt)
            line, certificate = verdict(bytes(spoilt))
            assert certificate is None and said(program, changed) == line, (path, place, byte, line)
            if place >= len(data) - 32:
                continue
            sealed = bytes(spoilt[:-32]) + hashlib.sha256(spoilt[:-32]).digest()
            changed.write_bytes(sealed)
            line, certificate = verdict(sealed)
            assert said(program, changed) == line, (path, place, byte, line, said(program, changed))
            assert certificate is None or holds(program, certificate), (path, place, byte, line)
            accepted, refused = accepted + (certificate is not None), refused + (certificate is None)
assert accepted and refused, (accepted, refused)
print(f"{accepted} accepted, {refused} refused")
