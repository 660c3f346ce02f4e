"""Where things stand at six sizes, in three languages and both themes: nothing is cut, the palette and the value are in view, a sheet is one sheet; and in windows
that aren't high, and with large letters."""
PLAIN = ".l./.../.C./.L. - -"
SIZES = ((1920, 1080), (1366, 768), (1280, 720), (1024, 768), (768, 1024), (360, 740))
LANGUAGES = ("en", "ja", "kana")


def at(screen, size):
    screen.browser.size(*size, 1, size[0] < 500)
    screen.js("scrollTo(0, 0)")
    screen.settle()


def sizes(checks, screen, program):
    """Nothing is wider than the window, cut or too small, in any language and theme, values shown and setting up."""
    screen.give(program.build("100", "A"))
    screen.enter(PLAIN)
    screen.play("Cb2-b3")
    for theme in ("light", "dark"):
        screen.theme(theme)
        for language in LANGUAGES:
            screen.language(language)
            for size in SIZES:
                at(screen, size)
                about = f"{size[0]} by {size[1]}, {language}, {theme}"
                least = (44, 36) if size[0] < 500 else (28, 28)
                checks.expect(f"{about}: width", screen.js("document.documentElement.scrollWidth"), size[0])
                checks.expect(f"{about}: texts that are cut", screen.seen("cut"), [])
                checks.expect(f"{about}: what is too small", screen.seen("tooSmall", *least), [])
                checks.expect(f"{about}: texts near a border", screen.seen("crowded", ".controls button, .row button, header > button", 8), [])
            checks.expect(f"{language}, {theme}: texts that are too pale", screen.seen("tooPale"), [])


def fold(checks, screen, program):
    """The value, and on wide screens the board's buttons too, are above the fold."""
    screen.give(program.build("100", "A"))
    screen.enter(PLAIN)
    for language in LANGUAGES:
        screen.language(language)
        for size in SIZES:
            at(screen, size)
            checks.expect(f"the value is in view, {size}, {language}", screen.seen("box", "#value")["bottom"] <= size[1])
            if size[0] > 500:
                checks.expect(f"the buttons are in view, {size}, {language}", screen.seen("box", "#start")["bottom"] <= size[1])


LYING = ((844, 390, True), (667, 375, True), (640, 400, False), (720, 450, False))  # phones that lie on their side, and a desk's window at 200 %
BESIDE = 760  # from so many pixels on the board is beside what is said of it
# What leaves the board's card, and whether the squares are squares.
LEAVING = """(() => {
  const card = document.getElementById("table").getBoundingClientRect(), isIn = (box) => box.left >= card.left && box.right <= card.right && box.top >= card.top && box.bottom <= card.bottom;
  return [...document.querySelectorAll("#table .slot, #table .who, #table button, #board")].filter((it) => it.checkVisibility() && !isIn(it.getBoundingClientRect())).map((it) => it.id || it.className);
})()"""
SQUARE = "(({ width, height }) => Math.abs(width - height) < 1.5)(document.querySelector('.square').getBoundingClientRect())"


def lying(checks, screen, program):
    """In a window that isn't high the board fits, and where there is room beside it all is in view at once."""
    screen.give(program.build("100", "A"))
    screen.enter(PLAIN)
    for language in LANGUAGES:
        screen.language(language)
        for width, height, is_touched in LYING:
            screen.browser.size(width, height, 1, is_touched)
            screen.js("scrollTo(0, 0)")
            screen.settle()
            about, box = f"{width} by {height}, {language}", screen.seen("box", "#table")
            checks.expect(f"{about}: the board with its hands and buttons fits the window", box["bottom"] - box["top"] <= height)
            checks.expect(f"{about}: what leaves the board's card", screen.js(LEAVING), [])
            checks.expect(f"{about}: squares", screen.js(SQUARE))
            checks.expect(f"{about}: width", screen.js("document.documentElement.scrollWidth"), width)
            checks.expect(f"{about}: texts that are cut", screen.seen("cut"), [])
            if width >= BESIDE:
                checks.expect(f"{about}: all is in view", [box["bottom"] <= height, screen.seen("box", "#value")["bottom"] <= height], [True, True])


# The texts that are smaller than the smallest ones have to be.
SMALL = """(() => [...document.querySelectorAll("body *")].filter((it) => it.checkVisibility() && !it.closest("svg, option") && [...it.childNodes].some((part) => part.nodeType === 3 && part.textContent.trim())
  && parseFloat(getComputedStyle(it).fontSize) < 22).map((it) => it.id || it.className || it.tagName))()"""


def letters(checks, screen, program):
    """All texts grow with the browser's own size of letters, and stay in their places."""
    sizes = lambda standard: screen.browser.call("Page.setFontSizes", fontSizes={"standard": standard, "fixed": standard})
    screen.give(program.build("100", "A"))
    screen.enter(PLAIN)
    screen.play("Cb2-b3")
    screen.js("document.querySelectorAll('details').forEach((it) => { it.open = true; })")
    sizes(32)
    try:
        for language in LANGUAGES:
            screen.language(language)
            for size in ((1280, 800), (768, 1024), (390, 844)):
                at(screen, size)
                about = f"{size[0]} by {size[1]}, {language}"
                checks.expect(f"{about}: texts that don't grow", screen.js(SMALL), [])
                checks.expect(f"{about}: width", screen.js("document.documentElement.scrollWidth"), size[0])
                checks.expect(f"{about}: texts that are cut", screen.seen("cut"), [])
                checks.expect(f"{about}: what leaves the board's card", screen.js(LEAVING), [])
    finally:
        sizes(16)


def paper(checks, screen, program):
    """A position with 25 moves and a line of 47 plies is one sheet, in each language and measure."""
    screen.give(program.build("100", "A"))
    screen.enter(PLAIN)
    for language in LANGUAGES:
        screen.language(language)
        for measure in ("plies", "moves"):
            screen.choose("measure", measure)
            screen.seen("fillLists", 25, 47)
            checks.expect(f"25 moves and 47 plies", screen.js("[document.querySelectorAll('#moves li').length, document.querySelectorAll('#line .step').length]"), [25, 47])
            checks.expect(f"one sheet, {language}, in {measure}", screen.pages(), 1)
            screen.settle()


# The part of the window, in hundredths, that no card covers.
EMPTY = """(() => {
  const boxes = [...document.querySelectorAll("header, .card")].filter((it) => it.checkVisibility()).map((it) => it.getBoundingClientRect());
  const isFree = (x, y) => !boxes.some((it) => x >= it.left && x <= it.right && y >= it.top && y <= it.bottom);
  let free = 0, all = 0;
  for (let y = 2; y < innerHeight; y += 8) for (let x = 2; x < innerWidth; x += 8) { all++; free += isFree(x, y); }
  return Math.round(100 * free / all);
})()"""


def filled(checks, screen, program):
    """A projector's window isn't left empty by a third, with a file and while one practises; nor is a large one."""
    for size in ((1280, 720), (1920, 1080)):
        at(screen, size)
        screen.give(program.build("100", "A"))
        screen.enter(PLAIN)
        checks.expect(f"with a file, {size}", screen.js(EMPTY) < 33)
        screen.press("practise")
        checks.expect(f"in practice, {size}", screen.js(EMPTY) < 33)
        screen.press("practise")
        screen.press("hide")


ROUND = "..l/.../.../L.. C -", 25 * "La1-a2 lc4-b4 La2-a1 lb4-c4 "  # a game of a hundred plies


def beside(checks, screen, program):
    """At 1,280 by 800 the board and its buttons stay in view beside a game of a hundred plies, whose ply 80 is chosen in the strip or in the record."""
    at(screen, (1280, 800))
    screen.give(program.build("100", "A"))
    screen.enter(ROUND[0])
    screen.press("paste-game")
    screen.js(f"document.getElementById('game-text').value = {ROUND[1]!r}")
    screen.press("take-game")
    checks.expect("the game is there, and what goes on with it has the focus", [len(screen.record()), screen.js("document.activeElement.id")], [101, "paste-game"])
    checks.expect("the board is in view behind it", screen.seen("box", "#board")["top"] >= 0)
    for place, selector in (("strip", "#strip .cell"), ("record", "#record .move")):
        screen.js(f"document.querySelectorAll({selector!r})[0].click()")
        screen.settle()
        before = screen.seen("squares", ".last")
        screen.js(f"document.querySelectorAll({selector!r})[79].scrollIntoView({{ block: 'center' }})")
        screen.js(f"document.querySelectorAll({selector!r})[79].click()")
        screen.settle()
        table = screen.seen("box", "#table")
        checks.expect(f"ply 79 in the {place} is in view", screen.js(f"(([it, box]) => it.top >= box.top - 1 && it.bottom <= box.bottom + 1)([document.querySelectorAll({selector!r})[79], document.getElementById({place!r})].map((it) => it.getBoundingClientRect()))"))
        checks.expect(f"ply 79 in the {place}: the board changes in view", [table["top"] >= 0, table["bottom"] <= 800, screen.js("scrollY") > 100, screen.seen("squares", ".last") != before], [True] * 4)


BROKEN = """(() => [...document.querySelectorAll('#caption .whole, #sheet .whole, #sheet .sheet-text')].filter((it) => it.checkVisibility())
  .map((it) => [it.textContent, new Set([...it.getClientRects()].map((box) => Math.round(box.top))).size, it.scrollWidth > it.clientWidth + 1 && it.clientWidth > 0]))()"""


def unbroken(checks, screen, program):
    """On paper neither the caption's position nor an answer of a worksheet with its number stands on two lines, nor is one cut, in any language."""
    def told(words, least):
        screen.browser.call("Emulation.setEmulatedMedia", media="print")
        found = screen.js(BROKEN)
        screen.browser.call("Emulation.setEmulatedMedia", media="")
        checks.expect(f"{words}: there are some", len(found) >= least)
        checks.expect(f"{words}: on two lines, or cut", [it for it in found if it[1] != 1 or it[2]], [])

    screen.browser.size(720, 1000, 1, False)  # about the width of a sheet
    screen.give(program.build("100", "A"))
    screen.js("window.print = () => {}")
    for language in LANGUAGES:
        screen.language(language)
        screen.enter("gle/.c./.C./ELG - -")
        told(f"the caption, {language}", 1)
        screen.enter(PLAIN)
        screen.choose("exercise-length", "5")
        for number, answers in (("6", "below"), ("12", "apart")):
            screen.choose("sheet-number", number)
            screen.choose("sheet-answers", answers)
            screen.js("document.getElementById('worksheet').click()")
            screen.settle("document.body.classList.contains('sheet') && !/…/.test(document.getElementById('task').textContent)")
            told(f"{number} exercises, answers {answers}, {language}", 4)
            screen.js("dispatchEvent(new Event('afterprint'))")


PARTS = {"filled": filled, "sizes": sizes, "fold": fold, "lying": lying, "letters": letters, "paper": paper, "beside": beside, "unbroken": unbroken}
