"""What the program `dobutsu` tells, from which the expected values come, and the small files that it builds."""
import hashlib
import os
import pathlib
import random
import subprocess
import sys

TOP = pathlib.Path(__file__).resolve().parents[2]
sys.path.insert(0, str(TOP / "tools"))
import read_db


class Program:
    """The program of that name; `files` keeps what it builds, `folder` has what tests spoil."""

    def __init__(self, name, files, folder):
        self.name, self.files, self.folder = name, pathlib.Path(files), pathlib.Path(folder)

    def run(self, *words, given=None):
        return subprocess.run([self.name, *map(str, words)], input=given, capture_output=True, text=True).stdout

    def build(self, pieces, rules):
        """A file of that set by those rules."""
        path = self.files / f"{pieces}{rules}.db"
        if not path.exists():
            own = path.with_name(f"{os.getpid()}-{path.name}")  # other tests may build it meanwhile
            self.run("build", "--set", pieces, "--rules", rules, "--nodes", 2, "--out", own)
            own.replace(path)
        return path

    def spoilt(self, name, whole):
        """A file of that name with those bytes and their right digest."""
        body, path = bytes(whole[:-32]), self.folder / name
        path.write_bytes(body + hashlib.sha256(body).digest())
        return path

    def values(self, path, positions):
        return self.run("probe", "--db", path, "--each", given="".join(text + "\n" for text in positions)).split("\n")[: len(positions)]

    def moves(self, path, position):
        told = self.run("moves", "--db", path, position).split("\n")[:-1]
        return [] if told == ["end"] else told

    def line(self, path, position):
        return self.run("line", "--db", path, position).strip()

    def puzzles(self, path, plies):
        """The positions that one move alone wins soonest, with that move, mirror images too."""
        told = dict(line.split("  ") for line in self.run("puzzles", "--db", path, "--plies", plies, "--count", 10**6).split("\n")[:-1] if "  " in line)
        mirrored = {read_db.write_position(read_db.mirrored(read_db.read_position(text))): mirrored_move(move) for text, move in told.items()}
        return {**mirrored, **told}


def mirrored_move(text):
    """The move with the columns a and c exchanged: they are all small letters behind the piece's."""
    return text[0] + text[1:].translate(str.maketrans("ac", "ca"))


def some_positions(pieces, rules, number, seed):
    """Positions drawn from all classes of a family, each as it is or mirrored."""
    draw, family = random.Random(seed), tuple(map(int, pieces))
    for _ in range(number):
        position = read_db.position_at(rules, family, draw.randrange(read_db.class_count(rules, family)))
        yield read_db.write_position(draw.choice([position, read_db.mirrored(position)]))
