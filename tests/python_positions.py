"""Prints some 40 positions of a file, spread over its classes, and texts that are refused: python_positions.py FILE"""
import sys
sys.path.insert(0, "python")
from dobutsu import pure
db = pure.open_db(sys.argv[1])
for number in range(0, db.count, max(1, db.count // 40)):
    print(pure.write_position(pure.position_at(db.profile, db.pieces, number)))
for text in ("x", "", "..l/.../L../... C EG", "C.l/.../.../L.. - -"):
    print(text)
