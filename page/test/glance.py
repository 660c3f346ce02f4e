"""The set at a glance: counts, the chart, and what is a click away, of open files against docs/ and the program, and of the whole game against docs/."""
import csv
import re

from layout import LANGUAGES
from program import TOP
from mistakes import WIDTHS

COUNTED = "document.querySelector('#glance[aria-busy=false] #glance-of:not([hidden])')"
DOCS = TOP / "docs"


def rows(name):
    with (DOCS / name).open() as file:
        return list(csv.DictReader(file))


def begin(screen):
    screen.js("document.getElementById('glance').open = true")
    screen.settle(COUNTED)


def told(screen):
    return screen.text("glance-told")


def chart(screen):
    """Each value with how many classes have it, read by the buttons from the least distance on."""
    found = []
    while screen.is_enabled("glance-less"):
        screen.press("glance-less")
    while True:
        found.append(screen.text("glance-value"))
        if not screen.is_enabled("glance-more"):
            return found
        screen.press("glance-more")


def bars(screen):
    """How many bars of wins go up and how many of losses go down."""
    return screen.js("[['wins', /v-/g], ['losses', /v\\d/g]].map(([it, way]) => document.querySelector(`#glance-chart .${it}`).getAttribute('d').match(way).length)")


def links(screen):
    return screen.seen("texts", "#glance-links button")


def zugzwangs_told(both, half):
    return f"Zugzwangs, in which nobody wants to move: {int(both):,} lost by whoever has to, {int(half):,} lost by one side where the other one draws."


def press(screen, words):
    screen.js(f"[...document.querySelectorAll('#glance-links button')].find(it => it.textContent.startsWith({words!r})).click()")
    screen.settle(COUNTED)


def of_docs(checks, screen, pieces, rules):
    """What the card says of a set, against docs/."""
    about, of = f"{pieces} by rules {rules}", {row["value"]: int(row["classes"]) for row in rows(f"distances/{pieces}_{rules}.csv")}
    row = next(row for row in rows("results.csv") if (row["set"], row["rules"]) == (pieces, rules))
    share = lambda name: f"{100 * int(row[name]) / int(row['classes']):.1f}\u00a0%"
    checks.expect(f"shares of {about}", told(screen), f"{int(row['classes']):,} classes by rules {rules}: the side to move wins {share('won')}, draws {share('drawn')} and loses {share('lost')}.")
    last = max(int(value.split()[1]) for value in of if value != "draw")
    values = [f"{'win' if plies % 2 else 'loss'} {plies}" for plies in range(last + 1)]
    checks.expect(f"the chart of {about}", chart(screen), [f"{value}: {of.get(value, 0):,} {'class' if of.get(value) == 1 else 'classes'}" for value in values])
    checks.expect(f"its bars", bars(screen), [sum(it.startswith(kind) for it in of) for kind in ("win", "loss")])
    for kind in ("win", "loss"):
        press(screen, f"The longest {kind}")
        checks.expect(f"the longest {kind} of {about}", [screen.position(), f"The longest {kind}: {kind} {row[f'longest_{kind}']}" in links(screen)],
                      [row[f"longest_{kind}_class"], True])
    checks.expect(f"rules of {about}", screen.js("Game.state.profile"), rules)


def files(checks, screen, program):
    """Open files: counts, the longest win and loss, zugzwangs, positions of a value and those that one move alone saves."""
    for pieces, rules in (("100", "A"), ("010", "A"), ("100", "B")):
        path = program.build(pieces, rules)
        screen.give(path)
        begin(screen)
        of_docs(checks, screen, pieces, rules)
        counts = dict(line.rsplit(" ", 1) for line in program.run("zugzwangs", "--db", path).split("\n")[:2])
        checks.expect(f"zugzwangs of {pieces}", screen.text("glance-zugzwangs"), zugzwangs_told(counts["lost by both"], counts["loss and draw"]))
        deepest = re.search(r"^deepest (.+)  loss (\d+)  loss (\d+)$", program.run("zugzwangs", "--db", path), re.MULTILINE)
        checks.expect("whether there is a deepest one", any(it.startswith("The deepest") for it in links(screen)), deepest is not None)
        if deepest:
            press(screen, f"The deepest zugzwang: loss {deepest[2]}, for the other side loss {deepest[3]}")
            checks.expect("it is on the board", [screen.position(), screen.value()], [deepest[1], f"loss {deepest[2]}"])
        for _ in range(5):
            press(screen, "A zugzwang")
            turned = screen.js("DobutsuCore.writePosition(DobutsuCore.turned(Game.now().position))")
            mine, other = screen.value(), program.values(path, [turned])[0]
            checks.expect(f"{screen.position()} is a zugzwang", mine.startswith("loss ") and mine != "loss 0" and other != "loss 0" and not other.startswith("win"))
            press(screen, "A position that one move alone saves")
            values = [line.split(" ", 1)[1] for line in program.moves(path, screen.position())]
            checks.expect(f"{screen.position()} is saved by one move alone", [len(values) > 1, [it.startswith("loss") for it in values].count(False)], [True, 1])
        seen = set()
        while screen.text("glance-value").split()[:2] != ["win", "5:"]:
            screen.press("glance-less")
        for _ in range(5):
            screen.js("document.getElementById('glance-show').click()")
            screen.settle(COUNTED)
            seen.add(screen.position())
            checks.expect("one of the chosen value", screen.value(), "win 5")
        checks.expect("not the same each time", len(seen) > 1)


def whole(checks, screen, program):
    """The whole game without a file, by both rules."""
    begin(screen)
    for rules in "AB":
        screen.choose("glance-set", rules)
        of_docs(checks, screen, "222", rules)
        zugzwangs = next((row for row in rows("results_zugzwangs.csv") if (row["set"], row["rules"]) == ("222", rules)), None)
        checks.expect(f"zugzwangs by rules {rules}", screen.text("glance-zugzwangs"), zugzwangs_told(zugzwangs["lost_by_both"], zugzwangs["loss_and_draw"]) if zugzwangs else "")
        deepest = [f"The deepest zugzwang: loss {zugzwangs['loss']}, for the other side loss {zugzwangs['turn_loss']}"] if zugzwangs else []
        checks.expect(f"the deepest one by rules {rules}", [it for it in links(screen) if it.startswith("The deepest")], deepest)
        if zugzwangs:
            press(screen, deepest[0])
            checks.expect("it is on the board", screen.position(), zugzwangs["deepest"])
        alone = [row["move"] for row in rows("results_first_moves.csv") if row["rules"] == rules and row["winning_replies"] == "1"]
        checks.expect("first moves behind which one answer alone wins", [it for it in links(screen) if it.startswith("After")], [f"After {move} one answer alone wins" for move in alone])
        press(screen, f"After {alone[0]}")
        checks.expect("the first is on the board", [screen.record(), screen.js("Game.state.start")], [["start", alone[0]], "gle/.c./.C./ELG - -"])
        checks.expect("no position of a value without a file", screen.seen("visible", "glance-show"), [])


def sizes(checks, screen, program):
    """The card fits at each width in each language and theme."""
    screen.give(program.build("010", "A"))
    begin(screen)
    for language in LANGUAGES:
        screen.language(language)
        for width in WIDTHS:
            screen.browser.size(width, 900, 1, width < 500)
            screen.settle(COUNTED)
            about = f"{width} pixels, {language}"
            checks.expect(f"{about}: width", screen.js("document.documentElement.scrollWidth"), width)
            checks.expect(f"{about}: texts that are cut", screen.seen("cut"), [])
            checks.expect(f"{about}: what is too small", screen.seen("tooSmall", *((44, 36) if width < 500 else (28, 28))), [])
            checks.expect(f"{about}: what lies on something else", screen.seen("overlaps", "#glance-of > *"), [])
        for theme in ("light", "dark"):
            screen.theme(theme)
            checks.expect(f"{language}, {theme}: texts that are too pale", screen.seen("tooPale"), [])
        checks.expect(f"{language}: its texts", screen.js("/undefined|NaN|object/.test(document.getElementById('glance-card').innerText)"), False)


PARTS = {"files": files, "whole": whole, "sizes": sizes}
