"""The focus in the lists beside the board, and on buttons that look up."""

PLAIN = ".l./.../.C./.L. - -"


def focus(checks, screen, program):
    """The focus stays at its place in a list whose buttons are made anew."""
    screen.give(program.build("100", "A"))
    screen.enter(PLAIN)
    screen.focus("#moves li:nth-child(2) button")
    screen.key("h")
    checks.expect("the focus in the moves", screen.js("[...document.querySelectorAll('#moves button')].indexOf(document.activeElement)"), 1)
    screen.key("h")
    screen.focus("#line .move")
    screen.press("hide")
    screen.press("hide")
    screen.focus("#line .move")
    screen.js("View.drawFiles()")
    screen.choose("measure", "moves")
    checks.expect("the focus in the line", screen.js("[...document.querySelectorAll('#line .move')].indexOf(document.activeElement)"), 0)


def steady(checks, screen, program):
    """*Next move*, *Undo* and *Redo* keep the focus while they look up, and where they have come to an end."""
    screen.give(program.build("100", "A"))
    screen.enter(PLAIN)
    screen.focus("#next")
    for number in range(1, 7):
        screen.key("Enter")
        checks.expect(f"Next move, {number} times", [screen.js("document.activeElement.id"), len(screen.record()) - 1], ["next", min(number, 5)])
    checks.expect("at the end of the line", [screen.is_enabled("next"), screen.js("document.getElementById('next').disabled")], [False, False])
    screen.focus("#undo")
    for number in range(4, -2, -1):
        screen.key("Enter")
        checks.expect(f"Undo, to {number}", [screen.js("document.activeElement.id"), screen.js("Game.state.cursor")], ["undo", max(number, 0)])
    screen.focus("#redo")
    screen.key("Enter", "Enter")
    checks.expect("Redo", [screen.js("document.activeElement.id"), screen.js("Game.state.cursor")], ["redo", 2])


PARTS = {"focus": focus, "steady": steady}
