"""The files that scenes open. Tables are made here by pure Python, or stand in testdata/; certificates are made of the values of a table, by docs/FORMAT.md."""
import functools
import hashlib
import pathlib
import struct

from program import TOP, read_db

GAMES = pathlib.Path(__file__).parent / "games"  # games as files, in the letters and the forms that records have
LOSS, WON, DRAWN = ".../..l/.../L.. - c", ".l./.../.C./.L. - -", ".../l../.../L.C - -"
KINDS = {"draw": 0, "win": 1, "loss": 2, "win within": 3, "loss within": 4}


def sealed(body):
    return bytes(body) + hashlib.sha256(body).digest()


@functools.cache
def solved(profile, pieces):
    """The records of a small set, by going over all classes until nothing changes."""
    count = read_db.class_count(profile, pieces)
    outcomes, records = [], [0] * count
    for number in range(count):
        position = read_db.position_at(profile, pieces, number)
        status, moves = read_db.status_and_moves(profile, position)
        outcomes.append((status, [read_db.class_number(profile, read_db.apply(position, move)) for move in moves] if status == "open" else []))
        records[number] = {"caught": 2, "open": 0}.get(status, 1)
    for plies in range(1, 1 << 15):
        found = []
        for number, (status, after) in enumerate(outcomes):
            if records[number] or status != "open":
                continue
            told = [records[it] for it in after]
            if plies % 2 and any(it % 2 == 1 and it == plies for it in told):
                found.append(number)
            if plies % 2 == 0 and all(it and it % 2 == 0 for it in told) and max(told) == plies:
                found.append(number)
        for number in found:
            records[number] = plies + 1
        if not found and plies > 2 and plies > max(records):
            return records
    return records


def table(profile, pieces):
    records = solved(profile, pieces)
    body = b"DOBUTSU2" + bytes([*pieces, 2, "AB".index(profile)]) + struct.pack("<Q", len(records)) + struct.pack(f"<{len(records)}H", *records)
    return sealed(body)


def group(entry):
    """A number in groups of seven bits, the lowest first."""
    out = bytearray()
    while entry >= 128:
        out.append(entry % 128 + 128)
        entry //= 128
    return bytes([*out, entry])


def listed(entries):
    out, last = b"", -1
    for of, plies in entries:
        out += group(of - last) + bytes([plies])
        last = of
    return out


def certificate(values, root, claim, plies, change=lambda head, lost, held: None):
    """A certificate of set 100 by rules A of all its values; `change` may spoil its head and lists."""
    parts = [value.split() for value in values]
    lost = [(of, int(part[1])) for of, part in enumerate(parts) if part[0] == "loss" and part[1] != "0"]
    held = [(of, 255 if part[0] != "loss" else int(part[1]) - 1) for of, part in enumerate(parts) if part != ["loss", "0"]]
    head = bytearray(b"DOBUCERT" + bytes([1, 1, 0, 0, 2, 0]) + struct.pack("<IBB", root, KINDS[claim], plies))
    change(head, lost, held)
    return sealed(bytes(head) + struct.pack("<II", len(lost), len(held)) + listed(lost) + listed(held))


def spoil(place, byte):
    def change(head, lost, held):
        head[place] = byte
    return change


def only_lost(head, lost, held):
    held.clear()


def shorter(head, lost, held):
    lost[200] = (lost[200][0], lost[200][1] - 2)


def longer(head, lost, held):
    place = next(i for i, (_, plies) in enumerate(held) if 3 < plies < 255)
    held[place] = held[place][0], held[place][1] + 2


def needed(db, root):
    """The classes that a solution of a won position needs, by one move of the winner each: those that are lost, with their plies."""
    found, left = {}, [read_db.read_position(root)]
    while left:
        position = left.pop()
        status, moves = read_db.status_and_moves("A", position)
        if status != "open":
            continue
        best = min((db.record(read_db.apply(position, move)), order, move) for order, move in enumerate(moves) if db.record(read_db.apply(position, move)) % 2)
        after = read_db.apply(position, best[2])
        number = read_db.class_number("A", after)
        if best[0] > 1 and number not in found:
            found[number] = best[0] - 1
            left += [read_db.apply(after, move) for move in read_db.status_and_moves("A", after)[1]]
    return sorted(found.items())


def made_of_table(name, whole):
    """How a table's file is spoilt, by its name."""
    return {
        "empty.db": lambda: b"", "short.db": lambda: whole[:20], "cut.db": lambda: whole[:-1], "title.db": lambda: b"X" + whole[1:], "set.db": lambda: whole[:8] + b"\3" + whole[9:],
        "rules.db": lambda: whole[:12] + b"\2" + whole[13:], "classes.db": lambda: whole[:13] + bytes([whole[13] ^ 1]) + whole[14:], "other_set.db": lambda: whole[:9] + b"\1" + whole[10:],
        "longer.db": lambda: whole + b"x", "record.db": lambda: whole[:99] + bytes([whole[99] ^ 1]) + whole[100:], "digest.db": lambda: whole[:-1] + bytes([whole[-1] ^ 1]),
        "losses.db": lambda: sealed(whole[:21] + b"\3\0" * ((len(whole) - 53) // 2)), "wins.db": lambda: sealed(whole[:21] + b"\x0a\0" * ((len(whole) - 53) // 2)),
        "zeros.db": lambda: sealed(whole[:21] + b"\0\0" * ((len(whole) - 53) // 2)), "lost.db": lambda: whole,
    }[name]()


def all_draws(pieces, others=()):
    """A table of a set by rules A in which each record is a draw, but the first ones."""
    count = read_db.class_count("A", pieces)
    return sealed(b"DOBUTSU2" + bytes([*pieces, 2, 0]) + struct.pack("<Q", count) + struct.pack(f"<{len(others)}H", *others) + bytes(2 * (count - len(others))))


class Files:
    """Files by their names, made in a folder when they are asked for first."""

    kept = {}

    def __init__(self, folder):
        self.folder, self.paths = pathlib.Path(folder) / "scenes", {}
        self.folder.mkdir(exist_ok=True)
        self.tables = {"100A.db": read_db.Db((TOP / "testdata/one_chick_2.db").read_bytes()), "000A.db": read_db.Db((TOP / "testdata/lions_alone_2.db").read_bytes())}
        self.values = [value for _, value in self.tables["100A.db"].positions()]

    @classmethod
    def at(cls, folder):
        if str(folder) not in cls.kept:
            cls.kept[str(folder)] = cls(folder)
        return cls.kept[str(folder)]

    def table_of(self, position, name):
        """The table that is open under that name, where it is of the position's set."""
        db = self.tables.get(name)
        return db if db and db.pieces == read_db.set_of(position) else None

    def number(self, text):
        return read_db.class_number("A", read_db.read_position(text))

    def __getitem__(self, name):
        if name not in self.paths:
            data = self.made(name)
            file = name if "." in name else f"{name}.db"
            self.paths[name] = self.folder / file
            self.paths[name].write_bytes(data)
        return self.paths[name]

    def made(self, name):
        whole = (TOP / "testdata/one_chick_2.db").read_bytes()
        cert = lambda *about: certificate(self.values, self.number(about[0]), *about[1:])
        good = lambda: cert(LOSS, "loss", 6)
        if name == "100A":
            return whole
        if name == "000A":
            return (TOP / "testdata/lions_alone_2.db").read_bytes()
        if name == "lions_alone.db":
            return (TOP / "testdata/lions_alone.db").read_bytes()
        if (GAMES / name).exists():
            return (GAMES / name).read_bytes()
        if name == "222_A.cert":
            return (TOP / "testdata/222_A.cert").read_bytes()
        if name == "giraffes.db":  # a set with two of a kind
            return all_draws((0, 0, 2))
        if name == "draws.db":  # a megabyte and a half
            return all_draws((1, 1, 1))
        if name == "large.db":  # 24 MB
            return all_draws((2, 1, 1), (2, 3, 2, 4))
        if name == "draws_spoilt.db":
            draws = bytearray(all_draws((1, 1, 1)))
            draws[10**6] ^= 1
            return bytes(draws)
        if name == "100B":
            data = table("B", (1, 0, 0))
            self.tables["100B.db"] = read_db.Db(data)
            return data
        if name == "line.db":  # the first records follow from their moves', and the line breaks behind them
            spoilt, db, position = bytearray(whole), self.tables["100A.db"], read_db.read_position(WON)
            for step in range(5):
                if step >= 3:
                    place = 21 + 2 * read_db.class_number("A", position)
                    spoilt[place : place + 2] = b"\x50\0"
                if step == 4:
                    break
                text = db.moves(read_db.write_position(position))[0][0]
                position = read_db.apply(position, next(it for it in read_db.status_and_moves("A", position)[1] if read_db.move_text(position, it) == text))
            return sealed(spoilt[:-32])
        if name == "stuck.cert":
            return sealed(b"DOBUCERT" + bytes([1, 2, 2, 2, 2, 0]) + struct.pack("<IBBII", self.number("GEl/LGE/CC./... - -"), 4, 0, 0, 0))
        if name == "one.cert":
            def one_solution(head, lost, held):
                lost[:] = needed(self.tables["100A.db"], WON)
                held.clear()
            return cert(WON, "win within", 5, one_solution)
        if name == "loose.cert":
            longest = max((int(value.split()[1]), of) for of, value in enumerate(self.values) if value.startswith("loss"))

            def loose(head, lost, held):
                lost[:] = [(of, plies + 20 if of == longest[1] else plies) for of, plies in lost]
            return cert(read_db.write_position(read_db.position_at("A", (1, 0, 0), longest[1])), "loss within", longest[0] + 20, loose)
        certificates = {
            "loss.cert": lambda: good(), "win.cert": lambda: cert(WON, "win", 5), "draw.cert": lambda: cert(DRAWN, "draw", 0), "loss_within.cert": lambda: cert(LOSS, "loss within", 8),
            "win_within.cert": lambda: cert(WON, "win within", 5), "lost.cert": lambda: cert(LOSS, "loss within", 6, only_lost),
            "version.cert": lambda: cert(LOSS, "loss", 6, spoil(8, 2)), "set.cert": lambda: cert(LOSS, "loss", 6, spoil(9, 3)), "columns.cert": lambda: cert(LOSS, "loss", 6, spoil(12, 3)),
            "rules.cert": lambda: cert(LOSS, "loss", 6, spoil(13, 2)), "root.cert": lambda: cert(LOSS, "loss", 6, spoil(17, 1)), "claim.cert": lambda: cert(LOSS, "loss", 6, spoil(18, 5)),
            "claim_255.cert": lambda: cert(LOSS, "loss", 6, spoil(19, 255)), "held.cert": lambda: cert(LOSS, "loss", 6, longer), "told_exact.cert": lambda: cert(LOSS, "loss", 8),
            "shorter.cert": lambda: cert(LOSS, "loss", 4), "win_sooner.cert": lambda: cert(WON, "win", 3), "win_later.cert": lambda: cert(WON, "win", 7),
            "draw_won.cert": lambda: cert(WON, "draw", 0), "draw_lost.cert": lambda: cert(LOSS, "draw", 0), "entry.cert": lambda: cert(LOSS, "loss", 6, shorter), "short.cert": lambda: good()[:20], "half.cert": lambda: sealed(good()[:900]),
            "longer.cert": lambda: good() + b"x", "digest.cert": lambda: good()[:-1] + bytes([good()[-1] ^ 1]), "count.cert": lambda: sealed(good()[:20] + b"\xff\xff\xff\0" + good()[24:-32]),
            "number.cert": lambda: sealed(good()[:28] + b"\x80\0" + good()[30:-32]), "order.cert": lambda: sealed(good()[:28] + b"\1\2\0\2" + good()[32:-32]),
            "plies.cert": lambda: sealed(good()[:28] + b"\1\xff" + good()[30:-32]),
        }
        return certificates[name]() if name in certificates else made_of_table(name, whole)
