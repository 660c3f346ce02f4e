"""Copies the largest certificate of a claim: certificates_pick.py FOLDER CLAIM TO"""
import pathlib
import shutil
import sys
sys.path.insert(0, "python")
from dobutsu import pure
found = [path for path in pathlib.Path(sys.argv[1]).glob("*.cert") if pure.open_certificate(path).claim == sys.argv[2]]
shutil.copy(max(found, key=lambda path: (path.stat().st_size, path.name)), sys.argv[3])
