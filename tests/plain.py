#!/usr/bin/env python3
"""What tests/plain.sh asks beside plain/.

plain.py sparse RULES FILE N     makes a file of the whole game with values at the classes of N positions, and of those that their moves lead to, and none
                                 elsewhere; prints these positions. The values say the class, so that another class shows. The digest is wrong
plain.py answers WORD FILE       what `--each` of the program prints of the positions on standard input, by pure Python: WORD is probe, moves or best
plain.py texts N                 prints N lines that are almost texts of positions of lions, or of one chick
plain.py moves                   prints the texts of all moves: drops, and steps that catch or don't; a lion doesn't leave row 4
plain.py costliest               prints positions whose class takes the most steps to find: both lions on column b, all else as in the mirror image
plain.py spoilt ASK FILE FOLDER  spoils a file's header and length, and compares the fault that the program ASK prints of each with pure Python's
"""
import itertools
import pathlib
import random
import subprocess
import sys

sys.dont_write_bytecode = True
sys.path.insert(0, str(pathlib.Path(__file__).resolve().parent.parent / "python"))
from dobutsu import pure  # noqa: E402

WHOLE = (2, 2, 2)


def sparse(rules, path, count):
    chance, classes = random.Random(90), pure.class_count(rules, WHOLE)
    with open(path, "wb") as file:
        file.write(b"DOBUTSU2" + bytes([*WHOLE, 2, pure.PROFILES.index(rules)]) + classes.to_bytes(8, "little"))
        file.truncate(21 + 2 * classes + 32)

        def put(position):
            number = pure.class_number(rules, position)
            file.seek(21 + 2 * number)
            file.write((number * 40503 // 8 % 65534 + 1).to_bytes(2, "little"))

        evens = even_boards(lambda kind: [chance.choice(pure.FORMS_OF[kind]) for _ in range(2)])
        evens = [pure.write_position(position) for position in evens if pure.is_allowed(rules, position)]
        texts = ["gle/.c./.C./ELG - -", *chance.sample(evens, int(count) // 2)]
        while len(texts) < int(count):
            position = pure.position_at(rules, WHOLE, chance.randrange(classes))
            texts.append(pure.write_position(pure.mirrored(position) if len(texts) % 2 else position))
        for text in texts:
            position = pure.read_position(text)
            put(position)
            status, moves = pure.status_and_moves(rules, position)
            for move in moves if status == "open" else []:
                put(pure.apply(position, move))
    print(*texts, sep="\n")


def answer(db, word, text):
    try:
        if word == "probe":
            return db.value(text)
        lines = [" ".join(move) for move in db.moves(text)] or ["end"]
        return lines[0] if word == "best" else "\n".join([*lines, ""])
    except pure.Fault as fault:
        return str(fault) + ("\n" if word == "moves" else "")


def answers(word, path):
    db = pure.open_db(path, check=False)
    for line in sys.stdin.buffer.read().decode("latin-1").split("\n")[:-1]:
        print(answer(db, word, line))


def texts(count):
    chance, usual = random.Random(90), b"./ -CEGHLceghl"
    for _ in range(int(count)):
        board, hands = chance.choice([b"..l/.../L../...", b"..l/.c./L../...", b".l./.../L../..H"]), chance.choice([b" - -", b" - -", b" C -", b" - c"])
        text = bytearray(board + hands)
        for _ in range(chance.randrange(4)):
            place, byte = chance.randrange(len(text)), chance.choice(usual) if chance.randrange(5) else chance.choice([1, 9, 65, 127, 128, 200, 255])
            way = chance.randrange(5)
            text[place : place + (way != 0)] = bytes([byte] * (way != 1) * chance.choice([1, 1, 2]))
        sys.stdout.buffer.write(bytes(text) + b"\n")


def even_boards(forms_of):
    """Boards with all pieces, both lions on column b and each kind's squares as in the mirror image. The letters of a kind's two pieces come from a call."""
    for lions in itertools.product((1, 4, 7), (1, 4, 7, 10)):
        if lions[0] == lions[1]:
            continue
        evens = [(3 * row, 3 * row + 2) for row in range(4)] + [tuple(square for square in (1, 4, 7, 10) if square not in lions)]
        for chosen in itertools.permutations(evens, 3):
            board = ["."] * 12
            board[lions[0]], board[lions[1]] = "L", "l"
            for squares, kind in zip(chosen, pure.KINDS):
                for square, letter in zip(squares, forms_of(kind)):
                    board[square] = letter
            yield "".join(board), (0, 0, 0), (0, 0, 0)


def moves():
    for start in range(12):
        at = pure.square_name(start)
        print(*(f"{letter}*{at}" for letter in "CEG"), sep="\n")
        for letter in "CEGHL" if start < 9 else "EGH":
            for end in pure.targets(letter, start):
                grown = "+" if letter == "C" and end >= 9 else ""
                print(f"{letter}{at}-{pure.square_name(end)}{grown}", f"{letter}{at}x{pure.square_name(end)}{grown}", sep="\n")


def costliest():
    return [pure.write_position(position) for position in even_boards(lambda kind: {"C": "HH", "E": "ee", "G": "GG"}[kind])]


def spoilt_files(data, chance):
    """The file cut, longer, and with bytes of its header changed."""
    yield data
    for length in [*range(30), len(data) - 33, len(data) - 32, len(data) - 1]:
        yield data[:length]
    yield data + b"x"
    for place in range(21):
        for byte in {0, 1, 2, 3, chance.choice(b"12"), data[place] ^ 1 << chance.randrange(8)} - {data[place]}:
            changed = bytearray(data)
            changed[place] = byte
            yield bytes(changed[: chance.choice([20, 21, len(data) - 1, len(data), len(data)])])


def spoilt(ask, path, folder):
    different, count, chance = [], 0, random.Random(90)
    file = pathlib.Path(folder) / "spoilt.db"
    for data in spoilt_files(pathlib.Path(path).read_bytes(), chance):
        try:
            pure.Db(data, check=False)
            wanted = ""
        except pure.Fault as fault:
            wanted = str(fault)
        file.write_bytes(data)
        for way in "bytes", "reader":
            found = subprocess.run([ask, "probe", way, str(file)], input="", capture_output=True, text=True)
            count += 1
            if found.stdout.strip() != wanted or found.returncode != bool(wanted) or found.stderr:
                different.append(f"{len(data)} bytes, {data[:21].hex()}: {found.stdout.strip()}, wanted {wanted}")
    print(*different[:5], f"{count} files, {len(different)} refused otherwise", sep="\n")
    return not different


if __name__ == "__main__":
    calls = {"sparse": sparse, "answers": answers, "texts": texts, "moves": moves, "costliest": lambda: print(*costliest(), sep="\n"), "spoilt": spoilt}
    if sys.argv[1:2] == [] or sys.argv[1] not in calls:
        sys.exit(__doc__.strip())
    sys.exit(1 if calls[sys.argv[1]](*sys.argv[2:]) is False else 0)
