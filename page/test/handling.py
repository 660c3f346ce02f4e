"""A piece on each square, the arrow keys on the board, and exercises as they are drawn."""
from program import read_db

PLAIN = ".l./.../.C./.L. - -"


def square(name):
    return f"[data-square='{'abc'.index(name[0]) + 3 * (int(name[1]) - 1)}']"


def twelve(checks, screen, program):
    """A hen of either side on each of the twelve squares is chosen by a click, goes where the rules let it, and is moved there by another."""
    for sky in (False, True):
        name = lambda at: read_db.square_name(11 - at if sky else at)
        for start in range(12):
            text, wanted = hen_on(start)
            screen.open(("#~" if sky else "#") + text.replace(" ", "_"))
            screen.browser.click(square(name(start)))
            checks.expect(f"{'Sky' if sky else 'Forest'}, from {name(start)}", screen.seen("squares", ".target"), sorted(map(name, wanted)))
            screen.browser.click(square(name(wanted[0])))
            screen.settle()
            checks.expect(f"to {name(wanted[0])}", [it[1:] for it in screen.record()[1:]], [f"{name(start)}-{name(wanted[0])}"])
    screen.open()


def hen_on(start):
    """A position of three pieces with the mover's hen on that square, in which no lion can be caught, and the squares that the hen reaches."""
    for own in range(9):
        for other in range(3, 12):
            if len({start, own, other}) == 3:
                letters = {start: "H", own: "L", other: "l"}
                position = "".join(letters.get(at, ".") for at in range(12)), (0, 0, 0), (0, 0, 0)
                status, moves = read_db.status_and_moves("A", position)
                reached = [end for letter, at, end in moves if at == start]
                if status == "open" and reached:
                    return read_db.write_position(position), reached


def edges(checks, screen, program):
    """Arrow keys go from square to square as the screen shows them, flipped or not, and stay at the board's edges."""
    there = lambda: screen.js("DobutsuCore.squareName(+document.activeElement.dataset.square)")
    walk = [("ArrowUp", "b2"), ("ArrowRight", "c2"), ("ArrowDown", "c1"), ("ArrowLeft", "b1"), ("ArrowDown", "b1"), ("ArrowRight", "c1"), ("ArrowRight", "c1"),
            ("ArrowUp", "c2"), ("ArrowUp", "c3"), ("ArrowUp", "c4"), ("ArrowUp", "c4"), ("ArrowLeft", "b4"), ("ArrowLeft", "a4"), ("ArrowLeft", "a4")]
    flipped = [("ArrowDown", "b2"), ("ArrowRight", "a2"), ("ArrowRight", "a2"), ("ArrowUp", "a1"), ("ArrowUp", "a1"), ("ArrowLeft", "b1"), ("ArrowLeft", "c1"), ("ArrowLeft", "c1")]
    for about, steps in [("", walk), (" on a flipped board", flipped)]:
        screen.focus(square("b1"))
        for number, (key, wanted) in enumerate(steps, 1):
            screen.key(key)
            checks.expect(f"{key}, step {number}{about}", there(), wanted)
        screen.press("flip")
    checks.expect("nothing went wrong", screen.js("document.getElementById('broken').textContent"), "")


def no_values(screen):
    """Whether no value is seen or heard anywhere but in what the reader asked for."""
    return screen.value() == "" and not screen.seen("hasValues")


def draw_one(screen):
    screen.js("document.getElementById('draw').click()")
    screen.settle("!/Drawing/.test(document.getElementById('task').textContent)")


def exercises(checks, screen, program):
    path = program.build("100", "A")
    screen.give(path)
    lengths = screen.js("[...document.getElementById('exercise-length').options].map(it => +it.value)")
    counted = [int(line.split()[1]) for line in program.run("stats", "--db", path).split("\n") if line.startswith("win ") and len(line.split()) == 3]
    checks.expect("the lengths that are offered", lengths, [plies for plies in counted if plies >= 3])
    goes = lambda text: "C" not in text[:3] and "c" not in text[12:15]  # no chick stands where it never moves
    for plies in lengths[:4] + lengths[-1:]:
        known = {text: move for text, move in program.puzzles(path, plies).items() if goes(text)}
        screen.choose("exercise-length", str(plies))
        for _ in range(3):
            draw_one(screen)
            if not known:
                checks.expect(f"no exercise of {plies} plies is told", "was found" in screen.text("task"))
                continue
            position = screen.position()
            checks.expect(f"the exercise {position} of {plies} plies is one", position in known)
            checks.expect("its task", screen.text("task"), f"Forest is to move and wins in {plies} plies, by one move alone. Which?")
            checks.expect("its values are hidden", [no_values(screen), screen.told()], [True, screen.text("task")])
            right = known.get(position, "")
            wrong = next((it for it in screen.moves() if it != right), None)
            if wrong:
                screen.play(wrong)
                found = [screen.position(), screen.told().startswith(f"{wrong} isn't it ("), screen.told()]
                checks.expect(f"{wrong} is refused", found, [position, True, screen.text("verdict")])
            screen.play(right)
            checks.expect(f"{right} is taken", [screen.record()[1:], screen.text("verdict"), screen.value() != ""], [[right], f"{right} is right.", True])
    screen.choose("exercise-length", str(lengths[0]))
    draw_one(screen)
    screen.press("answer")
    checks.expect("the answer is shown", screen.text("verdict"), f"The move is {program.puzzles(path, lengths[0])[screen.position()]}.")
    screen.enter(PLAIN)
    checks.expect("another position ends the exercise", screen.text("task"), "")
    screen.choose("exercise-length", str(lengths[2]))
    for language in ("ja", "kana", "en"):
        screen.language(language)
        checks.expect(f"the length that was chosen stays, {language}", screen.js("document.getElementById('exercise-length').value"), str(lengths[2]))
    chosen_file(checks, screen, program)
    screen.open()
    screen.js("Object.assign(Answers.limits, { small: 100, window: 200, sample: 200 })")  # so the file is a large one
    screen.give(path)
    for plies in lengths[:3]:
        screen.choose("exercise-length", str(plies))
        draw_one(screen)
        checks.expect(f"an exercise of {plies} plies out of a window", screen.position() in program.puzzles(path, plies))
    screen.open()


def chosen_file(checks, screen, program):
    """Exercises are of the file that is chosen, by its rules."""
    screen.give(program.build("000", "A"), program.build("100", "A"), program.build("100", "B"))
    for place, pieces, rules in [(0, "000", "A"), (2, "100", "B"), (1, "100", "A")]:
        screen.js(f"document.getElementById('exercise-file').selectedIndex = {place}; document.getElementById('exercise-file').dispatchEvent(new Event('change'))")
        screen.settle("document.querySelector('#exercise-card[aria-busy=false]')")
        screen.choose("exercise-length", "3")
        draw_one(screen)
        found = [screen.js("DobutsuCore.setOf(Game.now().position).join('')"), screen.js("Game.state.profile"), screen.position() in program.puzzles(program.build(pieces, rules), 3)]
        checks.expect(f"an exercise of {pieces} by rules {rules}", found, [pieces, rules, True])


PARTS = {"twelve": twelve, "edges": edges, "exercises": exercises}
