#!/usr/bin/env python3
"""Checks what a certificate claims, by pure Python: python3 examples/certificate.py FILE

Prints the claim where each entry of the file is shown by its moves, which takes a minute or two for `testdata/222_A.cert`; else the fault.
"""
import pathlib
import sys

sys.path.insert(0, str(pathlib.Path(__file__).resolve().parent.parent / "python"))
from dobutsu import Certificate, Fault  # noqa: E402

if len(sys.argv) != 2:
    sys.exit(__doc__.strip())
try:
    certificate = Certificate(sys.argv[1], "")  # "": by pure Python, not by the library
    certificate.verify()
    print(certificate)
except Fault as fault:
    sys.exit(f"{fault}: {fault.sentence}")
