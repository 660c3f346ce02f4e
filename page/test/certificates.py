"""Certificates: what one says of its position and of others, replies, claims of each kind, wrong ones, and a file that stands in the page itself.

The files are made here of all values of a small set, by docs/FORMAT.md: a lost class is lost within its plies, and one that isn't is held.
"""
import base64
import hashlib
import pathlib
import random
import re
import struct
import sys
import time

from browser import Browser
from program import read_db
from screen import Screen

sys.path.insert(0, str(pathlib.Path(__file__).resolve().parents[1]))
import build

LOSS, WON, DRAWN = ".../..l/.../L.. - c", ".l./.../.C./.L. - -", ".../l../.../L.C - -"
KINDS = {"draw": 0, "win": 1, "loss": 2, "win within": 3, "loss within": 4}


def values_of(path):
    """The value of each class of a file."""
    db = read_db.open_db(path)
    return [value for _, value in db.positions()]


def number(entry):
    """A number in groups of seven bits, the lowest first."""
    out = bytearray()
    while entry >= 128:
        out.append(entry % 128 + 128)
        entry //= 128
    return bytes([*out, entry])


def listed(entries):
    out, last = b"", -1
    for of, plies in entries:
        out += number(of - last) + bytes([plies])
        last = of
    return out


def made(values, root, claim, plies, change=lambda head, lost, held: None):
    """A certificate of set 100 by rules A; `change` may spoil its head and lists."""
    parts = [value.split() for value in values]
    lost = [(of, int(part[1])) for of, part in enumerate(parts) if part[0] == "loss" and part[1] != "0"]
    held = [(of, 255 if part[0] != "loss" else int(part[1]) - 1) for of, part in enumerate(parts) if part != ["loss", "0"]]
    head = bytearray(b"DOBUCERT" + bytes([1, 1, 0, 0, 2, 0]) + struct.pack("<IBB", root, KINDS[claim], plies))
    change(head, lost, held)
    body = bytes(head) + struct.pack("<II", len(lost), len(held)) + listed(lost) + listed(held)
    return body + hashlib.sha256(body).digest()


class Maker:
    def __init__(self, program):
        self.program, self.path = program, program.build("100", "A")
        self.values = values_of(self.path)

    def number(self, text):
        return read_db.class_number("A", read_db.read_position(text))

    def write(self, name, root, claim, plies, change=lambda head, lost, held: None):
        path = self.program.folder / name
        path.write_bytes(made(self.values, self.number(root), claim, plies, change))
        return path


def spoil(place, byte):
    def change(head, lost, held):
        head[place] = byte
    return change


def faulty(data):
    """What docs/FORMAT.md says of a certificate, by the reader in Python: its fault, or none."""
    path = pathlib.Path(__file__).resolve().parents[2] / "python"
    sys.path.insert(0, str(path))
    from dobutsu import pure
    try:
        pure.Certificate(data).verify()
        return ""
    except pure.Fault as fault:
        return str(fault)


# What is changed in a certificate: an entry of a list is taken out, or its plies are others; or the claim's are.
CHANGES = [("lost", -2), ("lost", 2), ("lost", -1), ("lost", None), ("held", 2), ("held", 1), ("held", -2), ("held", None), ("claim", 2), ("claim", -2)]


def mutated(checks, screen, program):
    """Exact certificates with an entry or the claim changed: each is refused, or passes, as by the reader in Python."""
    maker, draw, told = Maker(program), random.Random(76), set()
    for number, (what, by) in enumerate(2 * CHANGES):
        claim, root, plies = [("loss", LOSS, 6), ("win", WON, 5)][number % 2]

        def change(head, lost, held):
            if what == "claim":
                head[19] += by
                return
            entries = lost if what == "lost" else held
            place = draw.choice([i for i, (_, old) in enumerate(entries) if 3 < old < 250])
            of, old = entries[place]
            entries[place : place + 1] = [] if by is None else [(of, old + by)]

        data = made(maker.values, maker.number(root), claim, plies, change)
        wanted, file = faulty(data), base64.b64encode(data).decode()
        found = screen.js(f"Certificates.examine(new Blob([Uint8Array.from(atob('{file}'), (c) => c.charCodeAt(0))]), Game.engine(), 1e6, () => {{}})"
                          ".then(() => '', (fault) => fault.fault || String(fault))")
        checks.expect(f"certificate {number}, {what} by {by}", found, wanted)
        told.add(wanted.split(" ")[0])
    checks.expect("some pass, and some don't by each fault", sorted(told), ["", "E30", "E31"])


def given(checks, screen, program):
    """A file that stands in the page is open from the beginning. In a browser of its own, whose log is of other pages."""
    maker, start = Maker(program), '<script>"use strict";\n'
    whole, browser = screen.page.read_text(encoding="utf-8"), Browser()
    try:
        for path, name in [(maker.path, "100A.db"), (maker.write("mine.cert", LOSS, "loss", 6), "mine.cert")]:
            page = program.folder / "given.html"
            page.write_text(whole.replace(start, start + build.file_line(path)), encoding="utf-8")
            own = Screen(browser, page)
            own.afresh()
            checks.expect(f"{name} is open", [own.files()[0][0].split()[0], own.value() != ""], [name, True])
        checks.expect("its position is on the board", maker.number(own.position()), maker.number(LOSS))
        own.open("#.l./.../.C./.L._-_-")
        checks.expect("a link to another position", [own.position(), own.value()], [WON, "win within 5"])
    finally:
        browser.close()


def parsed(whole):
    """The head and the lost entries of a certificate whose held list is empty."""
    count, held = struct.unpack("<II", whole[20:28])
    assert held == 0
    entries, place, last = [], 28, -1
    for _ in range(count):
        step, shift = 0, 0
        while True:
            byte = whole[place]
            step, shift, place = step + (byte % 128 << shift), shift + 7, place + 1
            if byte < 128:
                break
        last += step
        entries.append((last, whole[place]))
        place += 1
    return bytearray(whole[:20]), entries


def sealed(head, entries):
    body = bytes(head) + struct.pack("<II", len(entries), 0) + listed(entries)
    return body + hashlib.sha256(body).digest()


def whole_game(rules):
    """The whole game's certificate by those rules: both engines pass it, the proved call in seconds, and refuses it with a claim, an entry or a number changed."""
    def run(checks, screen, program):
        is_proved, path = screen.js("Game.engine().isProved"), program.folder / "spoilt.cert"
        source = pathlib.Path(__file__).resolve().parents[2] / "testdata" / f"222_{rules}.cert"
        by = "checked by proved code" if is_proved else "checked by JavaScript"
        screen.give(source, seconds=600)  # JavaScript takes a minute of a processor of its own
        said = f"222_{rules}.cert certificate of set 222, rules {rules}: the second player wins the game, loss within 78; {by}"
        checks.expect(f"{rules}: the file", screen.files(), [[said, False]])
        if not is_proved:
            return
        head, entries = parsed(source.read_bytes())
        root = struct.unpack("<I", head[14:18])[0]
        late = next(place for place, (_, plies) in enumerate(entries) if plies == 60)
        without_root = [entry for entry in entries if entry[0] != root]
        soon = [(of, 2 if place == late else plies) for place, (of, plies) in enumerate(entries)]
        for name, lost, plies, words in [
            ("a claim of 76", entries, 76, "The certificate's entries don't show its claim. (E31)"),
            ("no entry of the root", without_root, 78, "The certificate's entries don't show its claim. (E31)"),
            ("a loss in 60 told as one in 2", soon, 78, "An entry of the certificate isn't shown by the others. (E30)"),
            ("every second entry", entries[::2], 78, "An entry of the certificate isn't shown by the others. (E30)"),
        ]:
            path.write_bytes(sealed(head[:19] + bytes([plies]), lost))
            screen.give(path)
            checks.expect(f"{rules}: {name}", screen.files()[-1], [f"spoilt.cert {words}", True])
    return run


def beside(checks, screen, program):
    """A worker checks a certificate while the page answers; how far that is is told, and it can be stopped. What it claims is hidden with the values."""
    screen.give(program.build("100", "A"))
    whole = pathlib.Path(__file__).resolve().parents[2] / "testdata" / "222_A.cert"
    screen.js("window.told = []; new MutationObserver(() => told.push(document.getElementById('files').textContent)).observe(document.getElementById('files'), "
              "{ childList: true, subtree: true, characterData: true })")
    screen.browser.give_files("#file", whole)
    screen.browser.wait("/Checking 222_A.cert… [1-9]/.test(document.getElementById('files').textContent)")
    since = time.time()
    screen.enter(WON)
    screen.play("Lb1-a2")
    screen.press("undo")
    waited = time.time() - since  # other tests run beside this one; a page that checks by itself is silent for twenty seconds
    checks.expect(f"the page answers soon, in {waited:.1f} s", [screen.value(), waited < 12], ["win 5", True])
    checks.expect("the check goes on", screen.js("document.getElementById('files').getAttribute('aria-busy')"), "true")
    checks.expect("the table is open beside it", screen.js("document.querySelector('#files b').textContent"), "100A.db")
    checks.expect("what stops it", screen.label("#files .work button"), "Stop checking 222_A.cert")
    screen.js("document.querySelector('#files .work button').click()")
    screen.settle_files()
    checks.expect("it is stopped, and not open", [it for it, _ in screen.files()], ["100A.db set 100, rules A, 2,124 classes, digest tested"])
    percents = [int(it) for it in re.findall(r"Checking 222_A.cert… (\d+) %", " ".join(screen.js("told")))]
    checks.expect("how far it was went up", [percents == sorted(percents), len(set(percents)) > 1], [True, True])
    screen.give(Maker(program).write("mine.cert", LOSS, "loss", 6))
    screen.press("hide")
    by = "proved code" if screen.js("Game.engine().isProved") else "JavaScript"
    english, japanese = f"mine.cert certificate of set 100, rules A: its claim is hidden; checked by {by}", "mine.cert 証明書、セット 100、ルール A：主張は隠しています。"
    screen.in_both(checks, "a claim that is hidden", lambda: screen.files()[-1][0][: len(english) if screen.js("Texts.language()") == "en" else len(japanese)], english, japanese)
    screen.press("hide")
    checks.expect("and shown", screen.files()[-1][0], f"mine.cert certificate of set 100, rules A: a position, loss 6; checked by {by}")
    screen.js("window.Worker = function () { throw new Error('there is none'); }")
    screen.give(Maker(program).write("here.cert", LOSS, "loss", 6))
    checks.expect("where there is no worker the page itself checks", screen.files()[-1][0], f"here.cert certificate of set 100, rules A: a position, loss 6; checked by {by}")


PARTS = {"beside": beside, "mutated": mutated, "given": given, "whole_A": whole_game("A"), "whole_B": whole_game("B")}
NAMED = {"whole_B"}  # which Firefox and the proved engine check
