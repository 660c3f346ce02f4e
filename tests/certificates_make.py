"""Small certificates made in pure Python from tables of the program: certificates_make.py FOLDER MOST STEP FILE..

Of every STEPth class and of some draws, for each claim that can be made, one of at most MOST bytes is written into the folder. The lines that they claim are
printed.
"""
import itertools
import pathlib
import struct
import sys
sys.path[:0] = ["python", "tools"]
from certificates import certificate_bytes
from dobutsu import pure

EVER = pure.EVER


def written(db, root, kind, plies, lost, held):
    head = b"DOBUCERT\1" + bytes([*db.pieces, 2, "AB".index(db.profile)]) + struct.pack("<IBB", root, kind, plies)
    return certificate_bytes(head, lost, held)


class Maker:
    """The entries that a table's values give, each with the most plies that are true of it."""

    def __init__(self, db):
        self.db, self.lost, self.held = db, {}, {}

    def known(self, position):
        """The class, and the plies of its loss, of its win, or neither."""
        number = pure.class_number(self.db.profile, position)
        kind, _, plies = pure.value_text(self.db.record_at(number)).partition(" ")
        return number, kind, int(plies or 0)

    def outcomes(self, position):
        status, moves = pure.status_and_moves(self.db.profile, position)
        return status, [pure.apply(position, move) for move in moves] if status == "open" else []

    def lose(self, position):
        """Lists a lost position, and the replies to each of its moves."""
        number, kind, plies = self.known(position)
        assert kind == "loss"
        status, outcomes = self.outcomes(position)
        if status != "open" or number in self.lost:
            return
        self.lost[number] = plies
        for outcome in outcomes:
            self.answer(outcome)

    def answer(self, position):
        """Lists the reply that wins soonest."""
        status, outcomes = self.outcomes(position)
        if status == "open":
            lost = [(self.known(reply), reply) for reply in outcomes]
            self.lose(min((known[2], known[0], reply) for known, reply in lost if known[1] == "loss")[2])

    def hold(self, position, plies):
        """Lists a position that isn't lost within its plies, and where it goes."""
        number, kind, least = self.known(position)
        assert kind != "loss" or least > plies
        status, outcomes = self.outcomes(position)
        if status != "open" or plies <= 1 or self.held.get(number, -1) >= plies:
            return
        self.held[number] = plies
        self.be_safe(max(outcomes, key=self.how_long), EVER if plies == EVER else plies - 2)

    def how_long(self, position):
        """For how long the side that isn't to move holds out there."""
        number, kind, plies = self.known(position)
        return {"loss": 2 * EVER - plies, "draw": EVER, "win": plies}[kind], -number

    def be_safe(self, position, plies):
        for reply in self.outcomes(position)[1]:
            self.hold(reply, plies)


def make(db, number, is_exact):
    """The certificate of that class, and what it claims."""
    position, maker = pure.position_at(db.profile, db.pieces, number), Maker(db)
    _number, kind, plies = maker.known(position)
    if kind == "draw":
        maker.hold(position, EVER)
        maker.be_safe(position, EVER)
        data = written(db, number, 0, 0, {}, maker.held)
    else:
        (maker.lose if kind == "loss" else maker.answer)(position)
        if is_exact and kind == "loss" and plies:
            maker.hold(position, plies - 1)
        if is_exact and kind == "win" and plies >= 2:
            maker.be_safe(position, plies - 2)
        data = written(db, number, {"win": 1, "loss": 2}[kind] + (0 if is_exact else 2), plies, maker.lost, maker.held)
    claim = kind if kind == "draw" else f"{kind} {'' if is_exact else 'within '}{plies}"
    return data, f"{pure.write_position(position)} {claim}"


if __name__ == "__main__":
    folder = pathlib.Path(sys.argv[1])
    most, step = int(sys.argv[2]), int(sys.argv[3])
    for path in sys.argv[4:]:
        db = pure.open_db(path)
        draws = [number for number in range(db.count) if db.record_at(number) == 0]
        for number, is_exact in itertools.product(sorted({*range(7, db.count, step), *draws[:: 1 + len(draws) // 12]}), (False, True)):
            data, line = make(db, number, is_exact)
            if len(data) <= most:
                (folder / f"{pathlib.Path(path).stem}_{number}_{int(is_exact)}.cert").write_bytes(data)
                print(line)
