"""What tools/read_db.py says of 200 classes of a table, spread over it; to COUNTS what `stats` and `puzzles` print: reader_ask.py TABLE COUNTS"""
import sys
sys.path.insert(0, "tools")
import read_db


def ask(db):
    """Prints each position with its value and its moves, whose best has the position's own value."""
    for number in range(0, db.count, max(1, db.count // 200)):
        text = read_db.write_position(read_db.position_at(db.profile, db.pieces, number))
        value, moves = db.value(text), db.moves(text)
        assert read_db.class_number(db.profile, read_db.read_position(text)) == number
        assert not moves or moves[0][1] == value
        print(text, value, *map(" ".join, moves), sep=" = ")


def count(db, lines):
    """Writes what `stats` prints."""
    stats = db.stats()
    assert sum(stats["win"].values()) + sum(stats["loss"].values()) + stats["draw"] == db.count
    counts = [(distance, kind, number) for kind in ("win", "loss") for distance, number in stats[kind].items()]
    print("classes", db.count, file=lines)
    for kind in ("win", "loss"):
        print(kind, sum(stats[kind].values()), file=lines)
    print("draw", stats["draw"], file=lines)
    for distance, kind, number in sorted(counts):
        print(kind, distance, number, file=lines)
    for kind in ("win", "loss"):
        print("longest", kind, *stats["longest"][kind], file=lines)


def puzzles(db, plies):
    """The first ten positions that one move alone wins soonest, in so many plies, with that move."""
    found, won = [], f"win {plies}"
    for number in range(db.count):
        text = read_db.write_position(read_db.position_at(db.profile, db.pieces, number))
        best = [move for move, value in db.moves(text) if value == won] if db.value(text) == won else []
        if len(best) == 1:
            found.append(text + "  " + best[0])
        if len(found) == 10:
            break
    return found or ["none"]


table = read_db.open_db(sys.argv[1])
ask(table)
with open(sys.argv[2], "w") as counts:
    count(table, counts)
    for length in (3, 5, 7):
        print(*puzzles(table, length), sep="\n", file=counts)
