"""Games in which one side plays by a certificate: certificates_book.py PROGRAM CERTIFICATE GAMES POSITION..

From each position the side to move has a reply each time, which wins within two plies fewer than the one before or less, until the other side has lost. That
side plays what lasts longest by the certificate in every second game, the first among them, and else by chance. The reader in Python gives the replies, and
in the first game the program says the same. A line a position says how many plies the first reply takes at most, and how many replies there were.
"""
import random
import subprocess
import sys
sys.path.insert(0, "python")
from dobutsu import pure

program, path, games, *starts = sys.argv[1:]
certificate, chance = pure.open_certificate(path), random.Random(7)


def after(position, text):
    """The position after the move, or nothing where it catches the lion."""
    status, moves = certificate.asked(position)
    move = next(it for it in moves if pure.move_text(position, it) == text)
    return None if status == "caught" else pure.apply(position, move)


def lasting(position):
    """How long a position lasts by the certificate; of equal ones chance says which."""
    return certificate.reply(pure.write_position(position))[1], chance.random()


def play(text, is_long, is_asked):
    """The plies of each reply of a game."""
    told = []
    while True:
        move, plies = certificate.reply(text)
        assert not told or plies <= told[-1] - 2, (text, move, plies, told)
        told.append(plies)
        if is_asked:
            printed = subprocess.run([program, "reply", "--cert", path, text], capture_output=True, text=True, check=True).stdout
            assert printed == f"{move} win within {plies}\n", (text, printed, move, plies)
        position = after(pure.read_position(text), move)
        assert (position is None or certificate.has_lost(position)) == (plies == 1), (text, move, plies)
        if plies == 1:
            return told
        status, answers = certificate.asked(position)
        assert status == "open", (text, move, status)
        outcomes = [pure.apply(position, answer) for answer in answers]
        text = pure.write_position(max(outcomes, key=lasting) if is_long else chance.choice(outcomes))


for start in starts:
    played = [play(start, game % 2 == 0, game == 0) for game in range(int(games))]
    print(start, "win within", played[0][0], "replies", sum(map(len, played)), "in the longest game", max(map(len, played)))
