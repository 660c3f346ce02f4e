"""What must not stop the page: practice that is undone past its beginning, a lion that is hung, an exercise whose rules or file are others, a card that can't
be drawn, and a thousand random acts."""
import json
import pathlib

from certificates import LOSS, WON, Maker
from classroom import exercise

PLAIN = ".l./.../.C./.L. - -"


def rest(screen):
    """Leaves class mode, setting up, playing out and practice, whatever is on, with a small file open and the values shown in English."""
    screen.settle_files()
    screen.js("if (document.getElementById('lesson-end').checkVisibility()) document.getElementById('lesson-end').click()")
    screen.js("if (document.getElementById('play').getAttribute('aria-pressed') === 'true') document.getElementById('play').click()")
    screen.enter(PLAIN)
    screen.language("en")
    screen.choose("rules", "A")
    screen.choose("measure", "plies")
    if screen.text("hide") == "Show values":
        screen.press("hide")
    screen.enter(PLAIN)


def buttons_live(checks, screen, program, about):
    """Whether each button does what it says."""
    screen.give(program.build("100", "A"))
    rest(screen)
    checks.expect(f"{about}: nothing is told as gone wrong", screen.js("document.getElementById('broken').textContent"), "")
    checks.expect(f"{about}: value, moves and line", [screen.value(), len(screen.moves()), screen.line()], ["win 5", 5, "Lb1-a2 lb4-c4 La2-a3 lc4-b4 La3xb4"])
    screen.browser.click("[data-square='1']")
    screen.browser.click("[data-square='3']")
    screen.settle()
    checks.expect(f"{about}: a move by clicks", screen.current(), "Lb1-a2")
    for button, wanted in [("undo", "start"), ("redo", "Lb1-a2"), ("next", "lb4-c4")]:
        screen.press(button)
        checks.expect(f"{about}: {button}", screen.current(), wanted)
    screen.press("start")
    checks.expect(f"{about}: start", screen.position(), PLAIN)
    first = "document.querySelector('.square').dataset.square"
    before = screen.js(first)
    screen.press("flip")
    checks.expect(f"{about}: flip", screen.js(first) != before)
    screen.press("flip")
    screen.press("edit")
    checks.expect(f"{about}: set up", screen.js("Setup.isOn()"))
    screen.press("edit")
    checks.expect(f"{about}: done", screen.js("Setup.isOn()"), False)
    screen.press("play")
    checks.expect(f"{about}: play out", screen.text("play"), "Stop")
    screen.press("play")
    checks.expect(f"{about}: stop", screen.text("play"), "Play out")
    screen.enter(PLAIN)
    screen.press("practise")
    checks.expect(f"{about}: practise", screen.text("practise"), "Stop practising")
    screen.press("practise")
    checks.expect(f"{about}: stop practising", [screen.text("practise"), screen.value()], ["Practise", "win 5"])
    screen.js("document.getElementById('exercise-length').selectedIndex = 0; document.getElementById('draw').click()")
    screen.settle("Exercise.isAsked()")
    screen.press("answer")
    checks.expect(f"{about}: an exercise and its answer", screen.text("verdict").startswith("The move is "))
    screen.press("lesson")
    checks.expect(f"{about}: class mode", screen.js("document.getElementById('lesson-end').checkVisibility()"))
    screen.press("lesson-end")
    screen.press("language")
    checks.expect(f"{about}: language", screen.js("document.documentElement.lang"), "ja")
    screen.press("language")
    for _ in screen.files():
        screen.js("(document.querySelector('#files .close') || document.body).click()")
        screen.settle()
    checks.expect(f"{about}: files are closed", screen.js("document.querySelectorAll('#files b').length"), 0)


HERE = pathlib.Path(__file__).parent
SEEDS, USUAL = range(1, 25), 3  # those that can be named, and how many are tried where none is


def do_acts(screen, program, seed, number):
    """Acts drawn at random from that seed: what went wrong, and all of them."""
    maker, folder = Maker(program), program.folder
    whole = maker.path.read_bytes()
    (folder / "cut.db").write_bytes(whole[:-1])
    paths = [maker.path, program.build("000", "A"), program.build("100", "B"), maker.write("won.cert", WON, "win", 5), maker.write("lost.cert", LOSS, "loss within", 6),
             maker.write("wrong.cert", LOSS, "loss within", 4), folder / "cut.db"]
    given = [{"name": path.name, "base64": screen.base64(path)} for path in paths]
    for name in ("held.js", "acts.js"):
        screen.js((HERE / name).read_text())
    screen.choose("speed", "fast")
    return screen.js(f"Acts.run({seed}, {number}, {json.dumps(given)})")


def acts(seed):
    """A thousand acts drawn at random from that seed leave no exception, no dead button, and no value but that of the position on the board."""
    def run(checks, screen, program):
        checks.expect("what went wrong", do_acts(screen, program, seed, 1000)["wrong"], [])
        thrown = [it for it in screen.browser.events if it["method"] == "Runtime.exceptionThrown"]
        checks.expect("exceptions", [it["params"]["exceptionDetails"]["text"] for it in thrown], [])
        buttons_live(checks, screen, program, f"behind the acts of seed {seed}")
    return run


def same(checks, screen, program):
    """A seed does the same acts each time, so that what it finds is found again."""
    first = do_acts(screen, program, 1, 200)["done"]
    screen.afresh()
    checks.expect("the same acts", do_acts(screen, program, 1, 200)["done"], first)


def outlived(checks, screen, program):
    """An exercise ends where its file's rules do, and where a file that was opened in its place is closed: what is left open doesn't judge it."""
    maker = Maker(program)
    certificate = maker.write("lost.cert", LOSS, "loss within", 6)

    def is_over(about, wanted):
        checks.expect(f"{about}: it is over", [screen.js("Exercise.isAsked()"), screen.text("task"), screen.score()], [False, wanted, ""])
        screen.play("La2-b1")  # of which the certificate says nothing
        checks.expect(f"{about}: a move is a move again", [screen.record(), screen.js("document.getElementById('broken').textContent")], [["start", "La2-b1"], ""])

    screen.give(program.build("100", "B"), certificate)
    exercise(screen, "..l/.../L../... - c", "La2-a3", 3)
    checks.expect("an exercise by rules B", [screen.js("Exercise.isAsked()"), screen.js("Game.state.profile")], [True, "B"])
    screen.choose("rules", "A")
    is_over("other rules", "")
    screen.open()
    screen.give(certificate, maker.path)
    exercise(screen, "..l/.../L../... - c", "La2-a3", 3)
    screen.give(maker.path)
    checks.expect("it goes on where its file is opened again", screen.js("Exercise.isAsked()"))
    screen.js("[...document.querySelectorAll('#files .close')].at(-1).click()")
    screen.settle("document.querySelectorAll('#files b').length === 1")
    is_over("a file that was opened in its place", "A certificate has no exercises: open a table.")


PARTS = {**{f"acts_{seed}": acts(seed) for seed in SEEDS}, "same": same, "outlived": outlived}
NAMED = {f"acts_{seed}" for seed in SEEDS[USUAL:]}
