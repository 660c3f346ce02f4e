"""300 certificates, and the moves that they give, against the tables that they were made of: certify_ask.py PROGRAM FOLDER TABLE..

Each exact one is made where it may have as many entries as it has, and refused where it may have one less.
"""
import collections
import pathlib
import subprocess
import sys
sys.path.insert(0, "python")
from dobutsu import pure


def lines(*words):
    return subprocess.run(words, capture_output=True, text=True, check=True).stdout.splitlines()


def best_moves(certificate, text):
    """The moves that win within the fewest plies by the lost classes, in their order."""
    position = pure.read_position(text)
    status, moves = certificate.asked(position)
    if status == "caught":
        return [pure.move_text(position, moves[0])]
    plies = {}
    for move in moves:
        after = pure.apply(position, move)
        plies[pure.move_text(position, move)] = 0 if certificate.has_lost(after) else certificate.lost_plies.get(after, pure.EVER)
    return [move for move, least in plies.items() if least == min(plies.values())]


def lost_outcomes(db, position, plies):
    """The classes to which moves lead and that are lost in so many plies, in their order."""
    outcomes = [pure.apply(position, move) for move in pure.status_and_moves(db.profile, position)[1]]
    numbers = {pure.class_number(db.profile, outcome) for outcome in outcomes}
    return sorted(number for number in numbers if pure.value_text(db.record_at(number)) == f"loss {plies}")


def chosen(db, kind, numbers, count):
    """So many of the classes, spread over them; the last of the won ones is won in 3 by moves to several classes."""
    spread = numbers[:: max(1, len(numbers) // count)][:count]
    if kind == "win":
        won = (number for number in numbers if pure.value_text(db.record_at(number)) == "win 3")
        spread[-1] = next(number for number in won if len(lost_outcomes(db, pure.position_at(db.profile, db.pieces, number), 2)) > 1)
    return spread


def has_just(made, *words):
    """Whether the entries that were made are as many as these words take, by the last one, and one less is too few."""
    most = sum(int(line.split()[1]) for line in made[1:])
    again = subprocess.run([*words, str(most - 1)], capture_output=True, text=True, check=False)
    refused = f"dobutsu: E39 TooMany more than {most - 1} entries\n"
    return lines(*words, str(most)) == made and (most == 0 or (again.returncode, again.stdout, again.stderr) == (1, "", refused))


program, folder = sys.argv[1], pathlib.Path(sys.argv[2])
certificate = folder / "one.cert"
kinds = collections.Counter()
equal = 0
for path in sys.argv[3:]:
    db = pure.open_db(path)
    rules = " by rules B" if db.profile == "B" else ""
    by_kind = collections.defaultdict(list)
    for number in range(db.count):
        by_kind[pure.value_text(db.record_at(number)).split()[0]].append(number)
    for kind, count in ("win", 9), ("loss", 9), ("draw", 7):
        found = by_kind[kind]
        for number in chosen(db, kind, found, count):
            position = pure.position_at(db.profile, db.pieces, number)
            text = pure.write_position(position)
            (value,) = lines(program, "probe", "--db", path, text)
            for exact in (), ("--exact",):
                made = lines(program, "certify", "--db", path, "--out", certificate, *exact, text)
                claim = f"{text} {value if exact or value == 'draw' else value.replace(' ', ' within ')}{rules}"
                assert made[0] == claim and made[1].startswith("lost ") and made[2].startswith("held ") and len(made) == 3, made
                assert lines(program, "verify", "--cert", certificate) == [claim], (text, claim)
                assert not exact or has_just(made, program, "certify", "--db", path, "--out", folder / "other.cert", "--exact", text, "--most"), made
                plies = int(value.partition(" ")[2] or 0)
                if value.startswith("win") and plies > 1:
                    # of equal classes the first
                    assert pure.open_certificate(certificate).lost.get(lost_outcomes(db, position, plies - 1)[0]) == plies - 1, text
                if value.startswith("win"):
                    (reply,) = lines(program, "reply", "--cert", certificate, text)
                    move, _, plies = reply.partition(" win within ")
                    assert 1 <= int(plies) <= int(value.split()[1]), (text, reply)
                    assert any(line.split()[:2] == [move, "win"] for line in lines(program, "moves", "--db", path, text)), (text, reply)
                    best = best_moves(pure.open_certificate(certificate), text)
                    assert move == best[0], (text, reply, best)
                    equal += len(best) > 1
                if value.startswith("loss"):
                    assert lines(program, "reply", "--cert", certificate, text) == [value.replace(" ", " within ")], text
                kinds[value.split()[0] + " exactly" * bool(exact)] += 1
assert equal, "no position with equal moves"
print(sum(kinds.values()), dict(sorted(kinds.items())), "of equal moves the first", equal)
