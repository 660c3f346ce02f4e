"""Links and what outlives a reload: the address with rules, side and moves, a pasted link, a wrong one, hidden values, kept choices."""
import json

PLAIN = ".l./.../.C./.L. - -"
CHICK = "#.l./.../.C./.L._-_-"


def asked(checks, screen, program):
    """An exercise and practice hide values until they end, and no longer than their page."""
    path = program.build("100", "A")
    screen.give(path)
    for button, end in (("draw", lambda: screen.enter(PLAIN)), ("draw", lambda: screen.press("answer")), ("practise", lambda: screen.press("practise")), ("practise", lambda: screen.press("start"))):
        screen.enter(PLAIN)
        screen.press(button)
        screen.settle("View.options.isHidden")
        checks.expect(f"{button} hides values", [screen.value(), screen.text("hide")], ["", "Show values"])
        end()
        checks.expect(f"behind {button} they are shown", [screen.value() != "", screen.text("hide")], [True, "Hide values"])
    screen.enter(PLAIN)
    screen.press("practise")
    screen.open(CHICK)
    screen.give(path)
    checks.expect("and at the next visit", screen.value(), "win 5")
    screen.press("hide")
    screen.press("practise")
    screen.press("practise")
    checks.expect("what was hidden before it is hidden still", screen.text("hide"), "Show values")
    screen.press("hide")


def silent(checks, screen, program):
    """An engine that never answers gives way to the script engine after three seconds, and the head says which engine is at work."""
    hung = screen.browser.call("Page.addScriptToEvaluateOnNewDocument", source="window.DobutsuWasm = Object.freeze({ open: () => new Promise(() => {}) });"
                               "Object.defineProperty(window, 'DobutsuWasm', { value: window.DobutsuWasm, writable: false });")
    screen.open()
    screen.browser.call("Page.removeScriptToEvaluateOnNewDocument", identifier=hung["identifier"])
    checks.expect("the script engine answers", screen.js("Game.engine().isProved"), False)
    screen.in_both(checks, "the head says so", lambda: screen.text("badge"), "script engine", "普通のエンジン")
    checks.expect("moves can be played", len(screen.moves()), 4)
    said = [it for it in screen.browser.events if it["method"] == "Runtime.consoleAPICalled"]
    checks.expect("the console says why", ["doesn't answer" in json.dumps(it) for it in said], [True])
    screen.browser.events[:] = [it for it in screen.browser.events if it["method"] not in ("Runtime.consoleAPICalled", "Runtime.exceptionThrown")]


PARTS = {"asked": asked, "silent": silent}
