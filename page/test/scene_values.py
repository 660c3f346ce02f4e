"""The values that a scene shows against those of pure Python (python/dobutsu/pure.py), which reads the same files."""
import functools

from program import read_db

TURN = str.maketrans("abc1234", "cba4321")


def named(text, side):
    """A move as the page writes it where that side makes it."""
    return text[0].lower() + text[1:].translate(TURN) if side else text


@functools.cache
def moves_of(db, position):
    """The moves with their values, best first; of catches all, since the page shows each."""
    board = read_db.read_position(position)
    if read_db.status(db.profile, board) != "caught":
        return db.moves(position)
    steps, _ = read_db.all_moves(db.profile, board)
    return [(read_db.move_text(board, move), "win 1") for move in steps if board[0][move[2]] == "l"]


def after(db, position, text):
    board = read_db.read_position(position)
    return read_db.apply(board, next(it for it in read_db.status_and_moves(db.profile, board)[1] if read_db.move_text(board, it) == text))


@functools.cache
def best_line(db, position, side):
    """The winner's shortest and the loser's longest way, each time the first of the best moves."""
    out = []
    if db.value(position) == "draw":
        return out
    while True:
        moves = moves_of(db, position) if read_db.status(db.profile, read_db.read_position(position)) in ("open", "caught") else []
        if not moves:
            return out
        out.append(named(moves[0][0], side))
        if moves[0][1] == "win 1" and read_db.status(db.profile, read_db.read_position(position)) == "caught":
            return out
        position, side = read_db.write_position(after(db, position, moves[0][0])), 1 - side


def kind_and_plies(value):
    words = value.split()
    return words[0], int(words[-1]) if len(words) > 1 else 0


def judged_wrong(facts, files):
    """The moves that were played: what each was worth and what the best would have been."""
    position, side = read_db.read_position(facts["start"]), facts["first"]
    for text, value, best in facts["judged"]:
        own = text[0].upper() + text[1:].translate(TURN) if side else text
        found = next((it for it in read_db.status_and_moves("A", position)[1] if read_db.move_text(position, it) == own), None)
        if found is None:
            return
        db = files.table_of(position, facts["file"])
        if value and db and not facts["isCertificate"]:
            words = read_db.write_position(position)
            wanted = dict(moves_of(db, words))[own], db.value(words)
            if (value, best) != wanted:
                yield f"{text} is judged {value} by {best}, and not {wanted}"
        if position[0][found[2]] == "l":
            return
        position, side = read_db.apply(position, found), 1 - side


def wrong_values(facts, files):
    """What the page shows of values and isn't so."""
    db = files.tables.get(facts["file"])
    if facts["isBroken"] or (db is None and not facts["isCertificate"]):
        return
    position, side = facts["position"], facts["side"]
    if facts["isCertificate"]:
        yield from wrong_bounds(facts, files)
        return
    wanted = [[named(text, side), value] for text, value in moves_of(db, position)] if read_db.status(db.profile, read_db.read_position(position)) in ("open", "caught") else []
    if facts["value"] != db.value(position):
        yield f"value {facts['value']}, and not {db.value(position)}"
    if facts["moves"] != wanted:
        yield f"moves {facts['moves']}, and not {wanted}"
    line = best_line(db, position, side)
    if facts["line"] != line:
        yield f"line {facts['line']}, and not {list(line)}"
    for square, tag in facts["tags"]:
        tags = {f"{value[0].upper()} {value.split()[1]}" if value != "draw" else "draw" for text, value in wanted if text.rstrip("+").endswith(square)}
        if tag not in tags:
            yield f"tag {tag} on {square}, and not one of {tags}"
    yield from judged_wrong(facts, files)


def wrong_bounds(facts, files):
    """By a certificate: who wins by the table of its set, within at most so many plies."""
    board = read_db.read_position(facts["position"])
    db = files.table_of(board, "100A.db")
    if db is None or db.pieces != read_db.set_of(board):
        return
    told = [(facts["value"], db.value(facts["position"]))]
    values = {named(text, facts["side"]): value for text, value in moves_of(db, facts["position"])} if read_db.status("A", board) in ("open", "caught") else {}
    told += [(value.split(", ")[-1], values.get(text)) for text, value in facts["moves"]]
    for value, true in told:
        if value and (true is None or kind_and_plies(value)[0] != kind_and_plies(true)[0] or kind_and_plies(value)[1] < kind_and_plies(true)[1]):
            yield f"bound {value}, where it is {true}"
