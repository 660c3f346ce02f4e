"""Small certificates of one chick by both rules, made in pure Python alone: coq_make.py FOLDER

The values are worked out here by the definitions of docs/RULES.md, ply by ply. For each kind of claim and both rules the largest one that has at most
300 bytes is kept.
"""
import pathlib
import sys

sys.path[:0] = ["python", "tests"]
from certificates_make import make
from dobutsu import pure

SET = (1, 0, 0)


class Solved:
    """A family with its values, asked as a database file is."""

    def __init__(self, profile, pieces):
        self.profile, self.pieces, self.count = profile, pieces, pure.class_count(profile, pieces)
        games = [pure.status_and_moves(profile, position) for position in map(self.position_at, range(self.count))]
        nexts = [{self.class_after(number, move) for move in moves} if status == "open" else set() for number, (status, moves) in enumerate(games)]
        self.records = [{"caught": 2, "tried": 1, "stuck": 1, "open": 0}[status] for status, _ in games]
        for plies in range(1, self.count):
            won = plies % 2
            known = [record and (record % 2 == won) for record in self.records]  # won: whether it is lost for the other side; else whether it is won
            found = [n for n, record in enumerate(self.records) if not record and nexts[n] and (any if won else all)(known[after] for after in nexts[n])]
            for number in found:
                self.records[number] = plies + 1
            if not found and plies > 3:
                break

    def position_at(self, number):
        return pure.position_at(self.profile, self.pieces, number)

    def class_after(self, number, move):
        return pure.class_number(self.profile, pure.apply(self.position_at(number), move))

    def record_at(self, number):
        return self.records[number]


if __name__ == "__main__":
    folder = pathlib.Path(sys.argv[1])
    for profile in "AB":
        db, kept = Solved(profile, SET), {}
        for number in range(7, db.count, 13):
            for is_exact in (False, True):
                data, _ = make(db, number, is_exact)
                kind = data[18]
                if len(kept.get(kind, b"")) < len(data) <= 300:
                    kept[kind] = data
        for kind, data in kept.items():
            (folder / f"{profile}_{kind}.cert").write_bytes(data)
