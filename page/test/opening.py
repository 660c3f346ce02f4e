"""Files that are read short, that end before their line does, large ones, and one that stands in the page."""
import subprocess
import sys

from program import TOP

PLAIN = ".l./.../.C./.L. - -"
TRIED = ".../L../..l/h.. - -"  # won by a try, La3-a4


def short(checks, screen, program):
    """A read that gives fewer bytes than it was asked for is a fault, and no value."""
    screen.give(program.build("100", "A"))
    screen.enter(PLAIN)
    screen.js("Files.last().kept.clear(); Files.last().file = new Blob([new Uint8Array(100)])")
    screen.enter("..l/.../.../L.. C -")
    checks.expect("no value by a short read", screen.value(), "")
    checks.expect("no moves with values", [it for it in screen.moves() if " " in it], [])


def ends_early(checks, screen, program):
    """A line that ends before its distance says so, and so does the file's name."""
    whole = bytearray(program.build("100", "A").read_bytes())
    number = lambda text: screen.seen("classNumber", "A", text)
    screen.enter(TRIED)
    tried = [it for it in screen.seen("outcomes", TRIED) if screen.js(f"Game.engine().moves('A', DobutsuCore.readPosition({it!r})).status") == "tried"]
    for text, record in [(TRIED, 4)] + [(it, 3) for it in tried]:
        at = 21 + 2 * number(text)
        whole[at : at + 2] = record.to_bytes(2, "little")
    screen.give(program.spoilt("early.db", whole))
    screen.enter(TRIED)
    checks.expect("the line breaks", screen.end(), "No move fits here: this file isn't the right table.")
    checks.expect("the file is told as broken", screen.files()[-1][1], True)


def large(checks, screen, program):
    """A file of over 64 MB is opened without its digest, which the page says, and a value is still two bytes of it."""
    classes, path = 588_021_930, program.folder / "large.db"
    with path.open("wb") as file:
        file.write(b"DOBUTSU2" + bytes([2, 2, 2, 2, 0]) + classes.to_bytes(8, "little"))
        file.truncate(21 + 2 * classes + 32)
    screen.give(path, seconds=600)  # it is read once for its exercises
    screen.in_both(checks, "a large file", screen.files, [["large.db set 222, rules A, 588,021,930 classes, digest not tested", False]],
                   [["large.db セット 222、ルール A、588,021,930 局面（左右対称は1つ）、ダイジェスト未テスト", False]])
    screen.enter("gle/.c./.C./ELG - -")
    checks.expect("a record of zeros", screen.value(), "draw")


# What is said of the position while the page opens its file, from the beginning.
SAID = """window.said = [];
new MutationObserver(() => {
  const words = document.getElementById("value")?.innerText.trim();
  if (words && words !== window.said.at(-1)) window.said.push(words);
}).observe(document, { childList: true, subtree: true, characterData: true });"""


def given(checks, screen, program):
    """The page that Python makes with the solution in it: the claim is shown as not checked yet, then its value, checked by the proved engine."""
    page = program.folder / "solved.html"
    subprocess.run([sys.executable, TOP / "page/build.py", "--with", TOP / "testdata/222_A_first_moves.cert", "-", page], check=True, stdout=subprocess.DEVNULL)
    script = screen.browser.call("Page.addScriptToEvaluateOnNewDocument", source=SAID)["identifier"]
    screen.browser.open(page.as_uri())
    screen.browser.wait("!!document.querySelector('#value b')?.textContent")
    said = screen.js("window.said")
    checks.expect("the claim is shown before", [it for it in said if it.startswith("Claimed, and not checked yet: loss within 78.")] != [])
    checks.expect("no value is before it", [it for it in said[:-1] if it.startswith("loss")], [])
    checks.expect("then the value", screen.value(), "loss within 78")
    checks.expect("by what it was checked", screen.files()[-1][0].endswith("checked by proved code"))
    checks.expect("the engine", screen.js("[document.getElementById('badge').textContent, document.getElementById('badge').title.includes('made from the proved sources')]"), ["proved engine", True])
    screen.browser.call("Page.removeScriptToEvaluateOnNewDocument", identifier=script)
    screen.open()
    screen.browser.events.clear()  # this page was asked for too


PARTS = {"short": short, "ends_early": ends_early, "large": large, "given": given}
