"""The stories of the scenes about looks: windows, fingers, colours, languages, settings, help, and what goes wrong."""
PLAIN = ".l./.../.C./.L. - -"
CARDS = {"Board.draw": "Board", "View.drawMoves": "Moves", "View.drawValue": "Value", "View.drawRecord": "Moves played", "Practice.draw": "Practise", "Exercise.draw": "Exercises"}


def opened(at, tell):
    at.run("document.querySelectorAll('details').forEach((it) => { it.open = true; })", until="document.querySelector('#glance[aria-busy=false] #glance-of:not([hidden])')", tell=tell)


def phone(at):
    """A phone: one column, the value first, fingers."""
    at.table(PLAIN, tell="a table is open", size=(360, 740), touch=True)
    at.touch("b1")
    at.touch("a2", tell="a move by two taps")
    at.touch("b4", "c4", tell="a move by a drag")
    at.press("edit")
    at.press("edit", tell=False)
    at.press("practise", tell="practice begins where the board is")
    at.press("practise", tell=False)
    at.press("hide", tell=False)
    at.language("ja")
    at.choose("measure", "moves")
    at.paper()


def small(at):
    """The smallest phone, with all cards open."""
    at.table(PLAIN, tell=False, size=(320, 568), touch=True)
    at.play("Cb2-b3", tell=False)
    opened(at, "all is open")
    at.language("kana")


def lying(at):
    """A phone that lies on its side, and a window at 200 %: the board between hands and buttons."""
    at.table(PLAIN, tell="a table is open", size=(844, 390), touch=True)
    at.touch("b1", tell=False)
    at.touch("a2", tell="a move by two taps")
    at.press("edit")
    at.press("edit", tell=False)
    at.press("lesson", tell="class mode")
    at.press("lesson-end", tell=False)
    at.size(640, 400, touch=True, tell="at 200 %")


def tablet(at):
    """Windows between a phone and a desk."""
    at.table(PLAIN, tell=False)
    at.play("Cb2-b3", tell=False)
    at.size(480, 900, tell="480 wide")
    at.size(768, 1024)
    at.size(1024, 768)
    at.language("ja")


def wide(at):
    """Large windows: three columns."""
    at.table(PLAIN, tell=False)
    at.play("Cb2-b3", tell=False)
    at.size(1366, 768, tell="1366 wide")
    at.size(1920, 1080)
    at.language("kana")


def dark(at):
    """Dark colours."""
    at.table(PLAIN, tell=False)
    at.press("theme", tell=False)
    at.press("theme", tell="a table is open")
    at.play("Cb2-b3")
    at.click("b4")
    at.key("Escape", tell=False)
    at.give("cut.db", "loss.cert")
    at.enter("nothing")
    at.press("edit")
    at.press("edit", tell=False)
    at.press("lesson", tell=False)
    at.stroke("a1", "c3", tell="class mode")
    at.press("lesson-end", tell=False)
    opened(at, "all is open")
    at.paper()
    at.press("theme", tell="as the system")
    at.press("theme", tell="light")


def system_dark(at):
    """A system that is dark, and goes over to light."""
    prefers = lambda value: at.browser.call("Emulation.setEmulatedMedia", features=[{"name": "prefers-color-scheme", "value": value}])
    prefers("dark")
    try:
        at.table(PLAIN, tell="the page is dark")
        prefers("light")
        at.tell("the system goes over")
    finally:  # a scene that is left at a difference leaves no dark system to the next one
        prefers("")


def japanese(at):
    """The page in Japanese."""
    at.table(PLAIN, tell=False)
    at.language("ja", tell="a table is open")
    at.run("document.querySelectorAll('#moves button')[4].click()", tell="a move is played")
    at.click("b4")
    at.key("Escape", tell=False)
    at.choose("measure", "moves")
    at.press("edit")
    at.press("edit", tell=False)
    opened(at, "all is open")
    at.enter(".../.l./.L./.C. - -")
    at.enter("..l/C../.../L.. - -")
    at.enter("..l/.../.../L.. C -")
    at.press("copy-game", tell=False)
    at.press("copy", tell="copied")
    at.run("document.execCommand = () => false; Object.defineProperty(navigator, 'clipboard', { value: undefined })", tell=False)
    at.press("link", tell="not copied")
    at.paper()


def kana(at):
    """The page in kana."""
    at.table(PLAIN, tell=False)
    at.language("kana", tell="a table is open")
    at.run("document.querySelectorAll('#moves button')[4].click()", tell="a move is played")
    at.click("b4")
    at.key("Escape", tell=False)
    at.choose("measure", "moves")
    at.press("edit")
    at.press("edit", tell=False)
    opened(at, "all is open")
    at.enter("..l/C../.../L.. - -")
    at.press("copy", tell="copied")
    at.paper()


def in_japan(at):
    """A browser in Japanese sees the page in Japanese first."""
    at.browser.call("Emulation.setLocaleOverride", locale="ja-JP")
    at.browser.call("Network.setUserAgentOverride", userAgent=at.js("navigator.userAgent"), acceptLanguage="ja-JP")
    try:
        at.open(tell="a first visit")
    finally:
        at.browser.call("Network.setUserAgentOverride", userAgent=at.js("navigator.userAgent"), acceptLanguage="en-US")
        at.browser.call("Emulation.setLocaleOverride")


def settings(at):
    """The settings, each chosen."""
    at.table(PLAIN, tell=False)
    at.on("Settings", tell="they are open")
    at.choose("measure", "moves")
    at.choose("rules", "B")
    at.choose("rules", "A", tell=False)
    at.choose("speed", "slow")
    at.press("arrow", tell="no arrow")
    at.press("arrow", tell="an arrow")
    at.press("letters")
    at.press("theme")
    at.press("theme")
    at.language("ja")
    at.press("theme")
    at.press("theme")
    at.language("kana")
    at.press("theme")
    at.press("theme")


def kept(at):
    """What was chosen at an earlier visit is there."""
    at.table(PLAIN, stored={"language": "kana", "theme": "dark", "measure": "moves", "speed": "slow", "arrow": "off", "letters": "off", "sheet-number": "12", "sheet-answers": "apart"}, tell="another visit")
    at.run("document.getElementById('settings-card').firstElementChild.open = true", tell="its settings")


def kept_wrong(at):
    """What is stored is nonsense."""
    at.table(PLAIN, stored={"language": "xx", "theme": "pink", "measure": "miles", "speed": "never", "sheet-number": "99", "sheet-answers": "nowhere", "hidden": "maybe"}, tell="another visit")
    at.run("document.getElementById('settings-card').firstElementChild.open = true", tell="its settings")


def help_card(at):
    """The help."""
    at.open(tell=False)
    at.on("Help", tell="it is open")


def copied(at):
    """Texts and links that are copied, where the browser has no clipboard too."""
    at.table(PLAIN, tell=False)
    at.play("Lb1-a2", tell=False)
    at.press("copy", tell="the text")
    at.press("link", tell="the link")
    at.later(tell="a second later the first button is as before")
    at.later(tell="and the other one")
    at.run("Object.defineProperty(navigator, 'clipboard', { value: undefined }); document.execCommand = (name) => { Scene.told.copied = `${name}: ${document.activeElement.value}`; return true; }", tell=False)
    at.press("link", tell="without a clipboard")
    at.run("document.execCommand = () => false", tell=False)
    at.press("copy", tell="it can't be copied")
    at.press("copy-game", tell="nor the game")


def fences(at):
    """Cards and buttons that can't be drawn are told in a line, and all else goes on."""
    at.table(PLAIN, tell=False)
    for call in CARDS:
        at.js(f"window.kept = {call}; {call} = () => {{ throw new Error('as planted'); }}")
        at.language("ja", tell=False)
        at.language("en", tell=f"{call} fails")
        at.js(f"{call} = window.kept")
        at.language("ja", tell=False)
        at.language("en", tell=False)
        at.enter(PLAIN, tell=f"{call} is whole again")
    at.js("acts = Board.flip; Board.flip = () => { throw new Error('as planted'); }")
    at.press("flip", tell="a button fails")
    at.language("ja", tell="in ja")
    at.language("kana", tell="in kana")
    at.language("en", tell=False)
    at.js("Board.flip = acts")
    at.press("flip", tell="and goes again")
    at.click("b1", tell=False)
    at.js("window.kept = Notation.shown; Notation.shown = () => { throw new Error('as planted'); }")
    at.click("a2", tell="a move on the board fails")
    at.js("Notation.shown = window.kept")
    at.key("Escape", tell="and its piece is let go")
    at.js("setTimeout(() => { throw new Error('outside of all fences'); }, 0); new Promise((done) => setTimeout(done, 20))")
    at.tell("what no fence stands around")
    at.js("Promise.reject(new Error('later')); new Promise((done) => setTimeout(done, 20))")
    at.tell("and later")


def no_script(at):
    """Without JavaScript the page says what is needed."""
    at.browser.call("Emulation.setScriptExecutionDisabled", value=True)
    try:
        at.browser.call("Page.navigate", url="about:blank")
        at.browser.call("Page.navigate", url=at.screen.url)
        at.browser.wait("document.readyState === 'complete' && !!document.querySelector('main')")
        at.out += ["== the page is open", *at.js("[...document.querySelectorAll('noscript p')].filter(it => it.checkVisibility()).map(it => it.textContent)")]
    finally:
        at.browser.call("Emulation.setScriptExecutionDisabled", value=False)
        at.open(tell=False)


STORIES = {it.__name__: it for it in (phone, small, lying, tablet, wide, dark, system_dark, japanese, kana, in_japan, settings, kept, kept_wrong, help_card, copied, fences, no_script)}
