"""Values, moves and lines as the page tells them of files of both rules, against the program."""
from program import read_db, some_positions


def of_a_file(checks, screen, program, pieces, rules, number):
    """As many positions of that set by those rules."""
    path = program.build(pieces, rules)
    screen.give(path)
    checks.expect(f"the file of {pieces} by rules {rules} is open", screen.files()[-1][1], False)
    positions = list(some_positions(pieces, rules, number, f"{pieces}{rules}"))
    for position, value in zip(positions, program.values(path, positions)):
        about = f"{position} by rules {rules}"
        screen.enter(position)
        checks.expect(f"value of {about}", screen.value(), value)
        moves = program.moves(path, position)
        if moves and screen.told().endswith("can catch the lion."):  # the program tells the first catch alone, the page all of them
            shown, lion = screen.moves(), read_db.square_name(read_db.read_position(position)[0].index("l"))
            checks.expect(f"catches of {about}", [shown[0], {it.split(" ", 1)[1] for it in shown}], [moves[0], {"win 1"}])
            checks.expect(f"all of them catch the lion of {about}", [it for it in shown if f"x{lion}" not in it], [])
        else:
            checks.expect(f"moves of {about}", screen.moves(), moves)
        line = program.line(path, position)
        checks.expect(f"line of {about}", screen.line() or {"draw": "draw"}.get(value, "end"), line)


def values(number):
    """As many positions of each of some sets by both rules."""
    def run(checks, screen, program):
        for pieces, rules in [("100", "A"), ("100", "B"), ("101", "A"), ("101", "B"), ("011", "A")]:
            of_a_file(checks, screen, program, pieces, rules, number)
    return run


def far(checks, screen, program):
    """A line of which the first move is only one by rules A, a chick that is dropped where it never moves."""
    path, position = program.build("111", "A"), ".../.../Lel/.G. C -"
    screen.give(path)
    screen.enter(position)
    line = program.line(path, position)
    checks.expect("it begins with that drop", line.split(" ")[0], "C*a4")
    checks.expect("its line", screen.line(), line)


PARTS = {"values": values(40), "short": values(10), "far": far}
NAMED = {"short"}  # told/values has its positions too
