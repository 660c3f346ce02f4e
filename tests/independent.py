#!/usr/bin/env python3
"""What tests/independent.sh asks of both programs.

independent.py published                     compares independent/published.txt with docs/results.csv
independent.py published SET RULES FILE      compares a file's SHA-256 with the published one
independent.py positions FILE N              prints N positions of a table, spread over its classes, half of them mirrored, and some that are refused
independent.py ends FILE                     prints how the table's games end, as its example `ends` does, by pure Python
independent.py ways FILE POSITION VALUE      looks whether standard input has the table's classes of that value as its example `reached` tells them: whether
                                             moves from the position lead to each, in how few plies, and by which moves
independent.py deepest FILE N                prints N positions of a table: of those that are won, lost and drawn in turn, those with the greatest distances
independent.py spoilt db|cert FIRST SECOND FOLDER
                                             spoils files in each of several ways, and compares what both programs say of them
"""
import csv
import hashlib
import pathlib
import random
import re
import subprocess
import sys

TOP = pathlib.Path(__file__).resolve().parent.parent
sys.path.insert(0, str(TOP / "tools"))
import read_db  # noqa: E402

EACH_KIND = 25  # spoilt files of each way of spoiling


def published():
    """The row of each table: set, rules, positions, classes, SHA-256 of the file."""
    rows = [line.split() for line in (TOP / "independent" / "published.txt").read_text().splitlines()[1:]]
    return {(row[0], row[1]): row for row in rows}


def compare_published(*words):
    told = published()
    if words:
        name, rules, path = words
        found = hashlib.sha256(pathlib.Path(path).read_bytes()).hexdigest()
        wrong = [f"{name} {rules}: {found}"] if found != told[name, rules][4] else []
        count = 1
    else:
        rows = list(csv.DictReader((TOP / "docs" / "results.csv").open()))
        kept = [[row[it] for it in ("set", "rules", "positions", "classes", "file_sha256")] for row in rows]
        wrong = [f"{row[0]} {row[1]}: {row[2:]}" for row in kept if told.get((row[0], row[1])) != row]
        wrong += [] if len(told) == 54 and len(kept) == 45 else [f"{len(told)} published tables and {len(kept)} rows"]
        count = len(kept)
    print(*wrong or [f"{count} tables"], sep="\n")
    return not wrong


def positions(path, count):
    """Positions as the file's classes have them, every other one mirrored; of many, ten are followed by texts that are refused."""
    db, count = read_db.open_db(path), int(count)
    for at in range(count):
        position = read_db.position_at(db.profile, db.pieces, at * db.count // count)
        print(read_db.write_position(read_db.mirrored(position) if at % 2 else position))
        if count > 100 and at % (count // 10) == 0:
            print(REFUSED[at // (count // 10) % len(REFUSED)])
    return True


def ends(path):
    """By what the won classes of a small table end, of equal moves by the first, and how many of those won later have one winning move."""
    db, kinds, alone = read_db.open_db(path), {}, 0

    def end(text):
        if text not in kinds:
            position, value = read_db.read_position(text), db.value(text)
            if value in ("win 1", "loss 0"):
                kinds[text] = "capture" if read_db.status(db.profile, position) == "caught" else "try"
            else:
                best = next(move for move in read_db.status_and_moves(db.profile, position)[1] if read_db.move_text(position, move) == db.moves(text)[0][0])
                kinds[text] = end(read_db.write_position(read_db.apply(position, best)))
        return kinds[text]

    counts = {(is_soon, kind): 0 for is_soon in (True, False) for kind in ("capture", "try")}
    for text, value in db.positions():
        if value.startswith("win"):
            counts[value == "win 1", end(text)] += 1
            alone += value != "win 1" and sum(told.startswith("win") for _, told in db.moves(text)) == 1
    for is_soon, name in (True, "won in 1"), (False, "won later"):
        print(f"{name}: {counts[is_soon, 'capture']} by capture, {counts[is_soon, 'try']} by try")
    print(f"one winning move: {alone}")
    return True


def ways(path, start, value):
    """Compares the classes that are told with those of the table, their plies with a search's, and plays the moves."""
    db, first = read_db.open_db(path), read_db.read_position(start)
    plies, level = {read_db.class_number(db.profile, first): 0}, [first]
    for count in range(1, 255):
        after = {read_db.class_number(db.profile, next_one): next_one for it in level for _, next_one in successors(db.profile, it)}
        level = [position for number, position in after.items() if number not in plies]
        plies.update((number, count) for number in after if number not in plies)
    told = dict(line.rstrip("\n").split(": ", 1) for line in sys.stdin if ": " in line)
    wanted = [text for text, found in db.positions() if found == value]
    assert [*told] == wanted, f"{len(told)} classes, wanted {len(wanted)}"
    for text in wanted:
        least = plies.get(number_of(db, text))
        if least is None:
            assert told[text] == "not reached", text
            continue
        count, moves = told[text].split(" plies: ")
        position = first
        for ply, move in enumerate(moves.split()):
            if ply % 2:
                move = move[0].upper() + move[1:].translate(str.maketrans("ac1234", "ca4321"))
            position = dict(successors(db.profile, position))[move]
        assert int(count) == len(moves.split()) == least and read_db.class_number(db.profile, position) == number_of(db, text), text
    reached = sum(told[text] != "not reached" for text in wanted)
    print(f"{len(wanted)} classes, {reached} reached")
    return 0 < reached < len(wanted)


def number_of(db, text):
    return read_db.class_number(db.profile, read_db.read_position(text))


def successors(profile, position):
    """The moves of a position, if it is open, by their texts, with what each leads to."""
    status, moves = read_db.status_and_moves(profile, position)
    return [(read_db.move_text(position, move), read_db.apply(position, move)) for move in moves] if status == "open" else []


def deepest(path, count):
    """The positions whose certificates are the largest."""
    db = read_db.open_db(path)
    records = memoryview(db.data[db.start: db.start + 2 * db.count]).cast("H")
    classes = sorted(range(db.count), key=lambda it: -records[it])
    kinds = [[it for it in classes if records[it] and records[it] % 2 == odd] for odd in (0, 1)] + [[it for it in classes if not records[it]]]
    for at in range(int(count)):
        kind = kinds[at % 3] or kinds[1]
        print(read_db.write_position(read_db.position_at(db.profile, db.pieces, kind[at // 3])))
    return True


# Texts of no position, of a position of another set, and of one that rules B don't have.
REFUSED = ["", "x", "..l/.../.../L.x - -", "..l/.../.../L.. GC -", ".../.../.../L.. - -", "..l/.../.../L.. CCC -", "L../.../.../..l - -",
           "gle/.c./.C./ELG - -", "C.l/.../.../L.. - -", "..l/.../.../L.. - - -"]


# ---- spoilt files


def sealed(body):
    return body + hashlib.sha256(body).digest()


def with_byte(data, place, byte):
    return data[:place] + bytes([byte]) + data[place + 1:]


def cut(whole, chance, _head):
    return whole[: chance.randrange(len(whole))]


def longer(whole, chance, _head):
    return whole + chance.randbytes(chance.randint(1, 3))


def turned(whole, chance, _head):
    place = chance.randrange(len(whole))
    return with_byte(whole, place, whole[place] ^ 1 << chance.randrange(8))


def headed(whole, chance, head):
    """A byte of the head is another, and the digest is right."""
    return sealed(with_byte(whole, chance.randrange(head), chance.choice([0, 1, 2, 3, 50, 128, 255]))[:-32])


def changed(whole, chance, head):
    """A byte of the records or entries is another, and the digest is right."""
    place = chance.randrange(min(head, len(whole) - 33), len(whole) - 32)
    return sealed(with_byte(whole, place, chance.choice([0, 1, 2, 255, whole[place] ^ 1, (whole[place] + 2) % 256]))[:-32])


def shortened(whole, chance, head):
    """A part of the records or entries is gone, and the digest is right."""
    place = chance.randrange(min(head, len(whole) - 33), len(whole) - 32)
    return sealed(whole[:place] + whole[place + chance.randint(1, 2): -32])


WAYS = [cut, longer, turned, headed, changed, shortened]


def said(program, words):
    """Whether it takes the file, and the fault by number, name and class, without the texts that each has of its own."""
    ran = subprocess.run([program, *words], capture_output=True, text=True)
    fault = re.search(r"E\d+ \w+(?: class \d+)?", ran.stderr)
    return (True, ran.stdout) if ran.returncode == 0 else (False, fault and fault[0])


def compare_spoilt(kind, first, second, folder):
    """Each file is spoilt in each way, so that each way has EACH_KIND files."""
    if kind == "db":
        head, words, sources = 21, ["check", "--db"], ["testdata/lions_alone.db", "testdata/lions_alone_2.db", "testdata/one_chick_2.db", "100_B.db"]
    else:
        head, words, sources = 28, ["verify", "--cert"], ["testdata/one_chick.cert", "made_16.cert", "made_17.cert", "made_18.cert", "made_19.cert"]
    chance, different, taken = random.Random(29), [], 0
    files = [path if (path := TOP / name).exists() else pathlib.Path(folder).parent / name for name in sources]
    for way in WAYS:
        for number in range(EACH_KIND):
            source = files[number % len(files)]
            spoilt = pathlib.Path(folder) / f"{way.__name__}_{number}.{kind}"
            spoilt.write_bytes(way(source.read_bytes(), chance, head))
            answers = [said(program, [*words, str(spoilt)]) for program in (first, second)]
            taken += answers[0][0]
            if answers[0] != answers[1] or answers[0][1] is None:
                different.append(f"{source.name}, {way.__name__} {number}: {answers[0]}, {answers[1]}")
    count = len(WAYS) * EACH_KIND
    print(*different, f"{count} files, of which {taken} are taken and {len(different)} judged otherwise", sep="\n")
    return not different and taken < count // 4


if __name__ == "__main__":
    calls = {"published": compare_published, "positions": positions, "ends": ends, "ways": ways, "deepest": deepest, "spoilt": compare_spoilt}
    if sys.argv[1:2] == [] or sys.argv[1] not in calls:
        sys.exit(__doc__.strip())
    sys.exit(0 if calls[sys.argv[1]](*sys.argv[2:]) else 1)
