"""Languages of one shape, widths, sizes, contrasts; and that nothing leaves the page."""
import json


PLAIN = ".l./.../.C./.L. - -"
WIDTHS = (320, 360, 480, 768, 1024, 1280, 1600, 1920)


def languages(checks, screen, program):
    screen.give(program.build("100", "A"))
    screen.enter(PLAIN)
    shapes = screen.seen("shapes")
    checks.expect("all languages have the same texts", shapes[1:], [shapes[0]] * 2)
    for language, value, heading in [("en", "win 5", "Dobutsu shogi"), ("ja", "勝ち 5手", "どうぶつしょうぎ")]:
        screen.language(language)
        checks.expect(f"the value in {language}", screen.value(), value)
        checks.expect(f"the heading in {language}", screen.js("document.querySelector('h1 span').textContent"), heading)
        missing = screen.seen("missing")
        checks.expect(f"texts that are missing in {language}", missing, [])
        screen.choose("measure", "moves")
        checks.expect(f"the value in moves in {language}", screen.value(), {"en": "wins in 3 moves", "ja": "自分の3手目で勝ち"}[language])
        screen.choose("measure", "plies")
    ours = screen.js("['Lion', 'Undo', 'Redo', 'Moves', 'Value', 'Forest', 'Sky', 'win ', 'plies'].filter(it => document.body.innerText.includes(it))")
    checks.expect("English words left in Japanese", ours, [])
    screen.open()
    checks.expect("the language is kept", screen.js("document.documentElement.lang"), "ja")
    screen.language("en")


def widths(checks, screen, program):
    screen.give(program.build("100", "A"))
    screen.enter(PLAIN)
    screen.press("edit")
    screen.js("document.querySelectorAll('details').forEach(it => { it.open = true; })")
    for language, measure in [("en", "plies"), ("en", "moves"), ("ja", "moves")]:
        screen.language(language)
        screen.choose("measure", measure)
        for width in WIDTHS:
            screen.browser.size(width, 900, 1, width < 500)
            screen.settle()
            checks.expect(f"nothing is wider than {width} pixels in {language}", screen.js("document.documentElement.scrollWidth"), width)
            cut = screen.seen("cut")
            checks.expect(f"texts that don't fit at {width} pixels in {language}", cut, [])
            broken = screen.seen("onTwoLines")
            checks.expect(f"values on two lines at {width} pixels in {language}", broken, [])
            if width < 500:
                checks.expect(f"what is too small for a finger at {width} pixels in {language}", screen.seen("tooSmall", 44, 36), [])
            else:
                checks.expect(f"what is too small for a pointer at {width} pixels in {language}", screen.seen("tooSmall", 24, 24), [])
    screen.browser.size(1180, 1000)
    screen.language("en")
    screen.choose("measure", "plies")
    screen.press("edit")


def contrasts(checks, screen, program):
    path = program.build("100", "A")
    broken = program.folder / "broken.db"
    broken.write_bytes(path.read_bytes()[:-1])
    screen.give(path, broken)
    for theme in ("light", "dark"):
        screen.theme(theme)
        checks.expect(f"marks that are too pale, {theme}", screen.seen("paleMarks"), [])
        for text in (PLAIN, ".l./.../LC./... - -", "..l/.../L../... - C", "nothing"):
            screen.enter(text)
            screen.js("document.querySelector('#moves button') && document.querySelector('.square .piece').closest('.square').click()")
            checks.expect(f"texts that are too pale, {theme}, {text}", screen.seen("tooPale"), [])
        screen.press("edit")
        checks.expect(f"texts that are too pale, {theme}, setting up", screen.seen("tooPale"), [])
        screen.press("edit")
    screen.press("theme")


# What a page might do to send something, and the rule of the policy that refuses it.
ATTEMPTS = {
    "a request": "connect-src", "a request to this machine": "connect-src", "a request of a file": "connect-src", "a beacon": "connect-src",
    "a socket": "connect-src", "a picture": "img-src", "a script": "script-src-elem", "a frame": "frame-src", "a form": "form-action", "a worker": "worker-src",
    "a request of a worker": "connect-src",
}


def asked(checks, screen):
    """By the log of a browser's whole run: nothing was asked for but the page itself, and nothing went wrong in it."""
    events = screen.browser.events
    sought = {it["params"]["request"]["url"].split("#")[0] for it in events if it["method"] == "Network.requestWillBeSent"}
    checks.expect("what was asked for", {it for it in sought if not it.startswith(("data:", "blob:"))} - {screen.url, "about:blank"}, set())
    wrong = [json.dumps(it)[:300] for it in events if it["method"] == "Runtime.exceptionThrown"]
    checks.expect("exceptions", wrong, [])
    said = [json.dumps(it["params"])[:300] for it in events if it["method"] in ("Runtime.consoleAPICalled", "Log.entryAdded")]
    checks.expect("what the console says", said, [])


def private(checks, screen, program):
    """Each way to send something is refused by the page's policy, or isn't there."""
    asked(checks, screen)
    checks.expect("constructors of peer connections", screen.js("[typeof RTCPeerConnection, typeof webkitRTCPeerConnection]"), ["undefined", "undefined"])
    for what, rule in ATTEMPTS.items():
        checks.expect(f"{what} is refused by the page's policy", screen.seen("refused", what), rule)
    screen.open()
    screen.browser.events.clear()  # what was tried stands in the log too


PARTS = {"languages": languages, "widths": widths, "contrasts": contrasts, "privacy": private}
