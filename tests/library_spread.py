"""Prints the positions of some 200 classes of a table, as they are spread over it: library_spread.py TABLE"""
import sys
sys.path.insert(0, "tools")
import read_db
db = read_db.open_db(sys.argv[1])
for number in range(0, db.count, max(1, db.count // 200)):
    print(read_db.write_position(read_db.position_at(db.profile, db.pieces, number)))
