"""What a teacher uses: exercises as they are drawn, and the worksheet."""
import collections
import time

from program import read_db
from dobutsu import puzzles  # which program's reader makes findable

PLAIN = ".l./.../.C./.L. - -"


def exercise(screen, start, move, plies):
    """Puts that exercise on the board, whatever would be drawn."""
    screen.js(f"Answers.drawExercise = async () => ({{ position: DobutsuCore.readPosition({start!r}), move: {{ letter: {move[0]!r}, "
              f"from: {square(move[1:3])}, to: {square(move[4:6])} }} }})")
    screen.choose("exercise-length", str(plies))
    screen.js("document.getElementById('draw').click()")
    screen.settle("Exercise.isAsked()")


def square(name):
    return "abc".index(name[0]) + 3 * (int(name[1]) - 1)


def quick(checks, screen, program):
    """Of two exercises that are asked for in a row the second is the one."""
    screen.give(program.build("100", "A"))
    screen.js("""(() => {
      const drawn = [["..l/.../L../... - c", 600], [".l./.../.C./.L. - -", 100]].map(([text, wait]) => ({ position: DobutsuCore.readPosition(text), wait }));
      let asked = 0;
      Answers.drawExercise = async () => {
        const { position, wait } = drawn[asked++];
        await new Promise((done) => setTimeout(done, wait));
        return { position, move: { letter: "L", from: 1, to: 3 } };
      };
      document.getElementById("draw").click();
      document.getElementById("draw").click();
    })()""")
    time.sleep(1)
    screen.settle("Exercise.isAsked()")
    checks.expect("the exercise on the board", [screen.position(), screen.text("task") != ""], [PLAIN, True])


def worksheet(checks, screen, program):
    """A worksheet has exercises of one length, no two of them alike, and fits a sheet of paper."""
    path = program.build("100", "A")
    screen.give(path)
    screen.choose("exercise-length", "5")
    print_sheet(screen)
    texts = screen.seen("texts", ".sheet-text")
    known = program.puzzles(path, 5)
    checks.expect("each is an exercise", [it for it in texts if it not in known], [])
    checks.expect("there are six of them, or all that differ", 2 <= len(texts) <= 6)
    answers = screen.seen("texts", ".sheet-answers")[0]
    checks.expect("their answers", answers, "Answers: " + " ".join(f"{i + 1}. {known[it]}" for i, it in enumerate(texts)))
    alike = lambda a, b: screen.js(f"Worksheet.areAlike(DobutsuCore.readPosition({a!r}), DobutsuCore.readPosition({b!r}))")
    checks.expect("no two are alike", [(a, b) for a in texts for b in texts if a < b and alike(a, b)], [])
    for a, b, wanted in [(PLAIN, PLAIN, True), ("..l/.../C../L.. - -", "l../.../..C/..L - -", True), (PLAIN, "l../.../.C./.L. - -", True),
                         (PLAIN, "..l/.../.C./L.. - -", False), ("..l/.../.../L.. C -", "..l/.../.../L.. - c", True), (PLAIN, "..l/.../C../.L. - -", False)]:
        checks.expect(f"whether {a} and {b} are alike", alike(a, b), wanted)
    checks.expect("the sheet stays for a browser that prints later", screen.js("document.body.classList.contains('sheet')"))
    screen.browser.call("Emulation.setEmulatedMedia", media="print")
    checks.expect("what is printed", screen.seen("visible", "sheet", "table", "value-card", "files"), ["sheet"])
    checks.expect("answers are upside down", screen.js("getComputedStyle(document.querySelector('.sheet-answers')).transform"), "matrix(-1, 0, 0, -1, 0, 0)")
    screen.browser.call("Emulation.setEmulatedMedia", media="")
    checks.expect("it is one sheet", screen.pages(), 1)
    checks.expect("behind it the page prints itself again", screen.js("document.body.classList.contains('sheet')"), False)


def print_sheet(screen):
    """Prints a worksheet, as far as the page goes."""
    screen.js("window.sheet = false; window.print = () => { window.sheet = document.body.classList.contains('sheet'); }")
    screen.js("document.getElementById('worksheet').click()")
    screen.browser.wait("window.sheet === true")
    screen.settle()


def seeded(checks, screen, program):
    """An exercise by a seed is the program's by the same seed, or its mirror image."""
    path = program.build("100", "A")
    screen.give(path)
    db = read_db.open_db(path)
    for few in (2000, 0):
        screen.js(f"Answers.limits.few = {few}")
        for seed in range(1, 9):
            wanted = puzzles.puzzles(db, 5, 1, seed)[0][0]
            found = screen.js(f"(async () => DobutsuCore.classNumber('A', (await Answers.drawExercise(Files.last(), Game.engine(), 5, () => false, () => true, {seed}n)).position))()")
            checks.expect(f"the exercise of seed {seed}, {few}", found, wanted)


def stuck(checks, screen, program):
    """No exercise has a chick that can never move, unless the reader lets it."""
    path = program.build("100", "A")
    screen.give(path)
    screen.choose("exercise-length", "17")
    goes = lambda text: "C" not in text[:3] and "c" not in text[12:15]
    drawn = lambda: screen.js("(async () => { const met = []; for (let i = 0; i < 60; i++) met.push((await Exercise.drawOne()).start); return met; })()")
    checks.expect("there are both kinds", {goes(text) for text in program.puzzles(path, 17)}, {True, False})
    checks.expect("none has one", all(map(goes, drawn())))
    screen.js("document.getElementById('no-stuck').click()")
    checks.expect("but where they may", not all(map(goes, drawn())))


def evenly(checks, screen, program):
    """Each exercise is as likely as any other: 40 draws for each that there is, of a file that is read whole and of one that is surveyed."""
    path = program.build("100", "A")
    screen.give(path)
    for plies in (5, 7):
        classes = sorted({screen.seen("classNumber", "A", text) for text in program.puzzles(path, plies)})
        for limits in ({"small": 1 << 20}, {"small": 100, "window": 300, "kept": 10, "passes": 50}):
            screen.js(f"Object.assign(Answers.limits, {limits})".replace("'", ""))
            drawn = collections.Counter()
            for _ in range(40):  # calls of which each has an answer soon
                drawn.update(screen.js(f"""(async () => {{
                  const met = [];
                  while (met.length < {len(classes)}) {{
                    const {{ position }} = await Answers.drawExercise(Files.last(), Game.engine(), {plies}, () => false);
                    met.push(DobutsuCore.classNumber("A", position));
                  }}
                  return met;
                }})()"""))
            checks.expect(f"{plies} plies: all that there are are drawn", sorted(drawn), classes)
            square = sum((count - 40) ** 2 / 40 for count in drawn.values())
            most = len(classes) + 5 * (2 * len(classes)) ** 0.5  # five deviations above the mean of chi square
            checks.expect(f"{plies} plies: as often as each other, {limits}, chi square {square:.0f} of at most {most:.0f}", square < most)


PARTS = {"quick": quick, "worksheet": worksheet, "seeded": seeded, "stuck": stuck, "evenly": evenly}
