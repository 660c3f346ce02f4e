"""A certificate with each byte changed, with the digest that then belongs there and without: library_certificates.py VERIFIER FILE FOLDER

VERIFIER is examples/verify.c, which has to say of each what the reader in Python does.
"""
import hashlib
import pathlib
import subprocess
import sys
sys.path.insert(0, "python")
from dobutsu import pure


def said(data):
    try:
        certificate = pure.Certificate(data)
        certificate.verify()
    except pure.Fault as wrong:
        number, _name, *more = str(wrong).split()
        return " ".join([number, *more])
    claim = certificate.claim + (f" {certificate.plies}" if certificate.claim != "draw" else "")
    return f"{''.join(map(str, certificate.pieces))} {certificate.profile} class {certificate.root} {claim}"


data, paths, wanted = pathlib.Path(sys.argv[2]).read_bytes(), [], []
for place in range(len(data) - 32):
    for byte in data[place] ^ 1, (data[place] + 254) % 256, 255:
        changed = data[:place] + bytes([byte]) + data[place + 1 : -32]
        for spoilt in changed + data[-32:], changed + hashlib.sha256(changed).digest(), changed[:place] + hashlib.sha256(changed[:place]).digest():
            paths.append(f"{sys.argv[3]}/{len(paths)}.cert")
            pathlib.Path(paths[-1]).write_bytes(spoilt)
            wanted.append(said(spoilt))
found = subprocess.run([sys.argv[1], *paths], capture_output=True, text=True, check=True).stdout.splitlines()
assert len(found) == len(paths), len(found)
for path, right, answer in zip(paths, wanted, found):
    assert right == answer, (path, right, answer)
print(len(paths), "changed certificates,", sum(" class " in answer and answer[0] != "E" for answer in found), "accepted")
