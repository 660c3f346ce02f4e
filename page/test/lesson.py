"""Class mode at nine sizes: the board fills the window, with the sentence below."""
from handling import PLAIN

SIZES = ((320, 568), (360, 740), (480, 900), (768, 1024), (1024, 768), (1280, 720), (1366, 768), (1600, 900), (1920, 1080))


def begin(screen, program):
    screen.give(program.build("100", "A"))
    screen.enter(PLAIN)
    screen.press("lesson")


def sizes(checks, screen, program):
    """The board is as high as the window leaves it beside the sentence, nothing is cut, in each language."""
    begin(screen, program)
    screen.play("Cb2-b3")
    for language in ("en", "ja", "kana"):
        screen.language(language)
        for width, height in SIZES:
            screen.browser.size(width, height, 1, width < 500)
            screen.settle()
            about = f"{width} by {height}, {language}"
            board, words = screen.seen("box", "#board"), screen.seen("box", "#lesson-say")
            checks.expect(f"{about}: width", screen.js("document.getElementById('table').scrollWidth"), width)
            checks.expect(f"{about}: texts that are cut", screen.seen("cut"), [])
            checks.expect(f"{about}: what is too small", screen.seen("tooSmall", *((44, 36) if width < 500 else (28, 28))), [])
            checks.expect(f"{about}: the sentence is below the board, in the window", board["bottom"] <= words["top"] < words["bottom"] <= height)
            share = (board["bottom"] - board["top"]) / height
            checks.expect(f"{about}: the board's share of the height, {share:.2f}", share > (0.8 if width > height else 0.44))
            overlaps = screen.seen("overlaps", "#board, #lesson-say, .side, .controls, #lesson-tools")
            checks.expect(f"{about}: what lies on something else", overlaps, [])
        checks.expect(f"{language}: texts that are too pale", screen.seen("tooPale"), [])


PARTS = {"sizes": sizes}
