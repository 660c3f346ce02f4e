"""The stories of the scenes about a position, its moves, the board and what is set up. Each is a function of a Stage (scenes.py), whose first told state is
written whole; what it says of itself heads its file. A new one is added to STORIES by its name, and written by `page/test/scenes.py --renew NAME`."""
import stories_class
import stories_files
import stories_looks
import stories_play

PLAIN = ".l./.../.C./.L. - -"
DROPS = "..l/.../.../L.. C -"
SIX = {
    "wins": PLAIN, "loses": ".../..l/.../L.. - c", "catches": ".../.l./.L./.C. - -", "tries": ".../L../..l/h.. - -", "has lost": ".../.../.../L.l - c", "is drawn": ".../l../.../L.C - -",
}


def start(at):
    """The page without a file."""
    at.open(tell="the page is open")
    at.play("Cb2xb3")
    at.play("lb4xb3")
    at.press("start")
    at.paper()


def table(at):
    """A table is open, and a won position is on the board; a move is played, taken back and made again."""
    at.table(PLAIN, tell="the table is open")
    at.play("Lb1-a2")
    at.press("undo")
    at.press("redo")
    at.press("next")
    at.press("undo")
    at.play("lb4-b3")
    at.on("start", within="#record")
    at.press("redo")
    at.on("Lb1-a2", within="#record")
    at.press("flip")
    at.paper()
    at.run("const move = document.querySelector('#moves button'); move.click(); move.click()", tell="a move is clicked twice")


def values(at):
    """Each kind of value, in plies and in the winner's moves."""
    at.table(tell=False)
    for kind, text in SIX.items():
        at.enter(text, tell=f"a side that {kind}")
        at.says()
    at.choose("measure", "moves")
    for kind, text in SIX.items():
        at.enter(text, tell=f"in moves: a side that {kind}")
        at.says()
    at.paper()


def ends(at):
    """Lines that end by a catch, a try and without a move; a game that is over."""
    at.table(SIX["catches"], tell="a lion that can be caught")
    at.play("Lb2xb3")
    at.paper("on paper, over")
    at.press("edit")
    at.press("edit")
    at.press("link")
    at.enter(SIX["tries"])
    at.press("next")
    at.give("stuck.cert", tell=False)
    at.enter("GEl/LGE/CC./... - -")
    at.says()


def hover(at):
    """A move of the list is pointed at, then it has the focus; the mouse over squares and buttons."""
    at.table(PLAIN, tell=False)
    at.hover("#moves li:nth-child(2) button", tell="the mouse is over the second move")
    at.hover("#start")
    at.hover("b1")
    at.focus("#moves li:nth-child(3) button", tell=True)
    at.run("document.activeElement.blur()")
    at.play("Lb1-a2", tell=False)
    at.hover("#moves li:nth-child(1) button", tell="Sky's move is pointed at")
    at.hover("a2")
    at.hover(".open")


def chosen(at):
    """A piece is chosen, other ones, and let go; targets have dots, rings and values."""
    at.table(PLAIN, tell=False)
    at.click("b1", tell="a lion is chosen")
    at.click("b2")
    at.click("b2")
    at.click("b1", tell=False)
    at.key("Escape")
    at.click("b4")
    at.click("a3")
    at.click("b1", tell=False)
    at.click("a1", tell="it is moved by a second click")
    at.click("b4")
    at.press("flip")
    at.click("a4")
    at.press("flip", tell=False)
    at.enter(SIX["catches"], tell=False)
    at.click("b2", tell="a lion that can catch")
    at.click("b3")
    at.enter(".../..l/.C./L.. - -", tell=False)
    at.click("b2", tell="a chick is chosen, in moves")
    at.choose("measure", "moves")
    at.press("next", tell=False)
    at.choose("rules", "B")


def flipped(at):
    """A flipped board: its squares, its arrow, a chosen piece with values, keys by the screen."""
    at.table(PLAIN, tell=False)
    at.press("flip", tell="the board is flipped")
    at.click("b1")
    at.focus("b1", tell=True)
    at.key("ArrowLeft")
    at.key("ArrowDown")
    at.key("ArrowRight", "ArrowUp")
    at.key("Escape")
    at.enter("..l/.../.../L.. C -", tell=False)
    at.click("a1", tell="another lion, with values of its own")
    at.press("flip")


def drops(at):
    """Pieces in hand are chosen and dropped, by both sides; each kind is its own."""
    at.table(DROPS, tell="a chick is in hand")
    at.click("C")
    at.click("C")
    at.click("C", tell=False)
    at.click("a2")
    at.click("c4")
    at.enter("l../.../L../... C -", tell="a drop is the best move")
    at.run("location.hash = '#~l../.../L../..._C_-'", until="Game.state.side === 1", tell="and it is Sky's")
    at.enter("..l/.../.../L.. CCE gg", tell="two kinds in hand, and no table")
    at.click("E")
    at.click("b2")
    at.click("g")
    at.click("b3")
    at.click("C")
    at.key("Escape")
    at.run("location.hash = '#~..l/.../.../L.._E_c'", until="Game.state.side === 1 && Game.state.start.startsWith('..l')", tell="Sky is to move, with an elephant")
    at.click("e")
    at.press("edit")
    at.press("edit", tell=False)
    at.enter("..l/.../.c./E.L E -", tell=False)
    at.click("E", tell="an elephant in the corner makes no drop")


def sky(at):
    """Sky moves first: letters, squares, value, line, arrow and caption are its own."""
    at.table(fragment="#~.l./.../.C./.L._-_-", tell="Sky is to move")
    at.click("b4")
    at.key("Escape", tell=False)
    at.hover("#moves button")
    at.hover("header", tell="and nowhere")
    at.play("lb4-c3")
    at.press("undo", tell=False)
    at.press("hide")
    at.press("hide", tell=False)
    at.press("copy")
    at.press("link")
    at.paper()


def line(at):
    """The best line: it is played step by step, up to a move, and played out; its moves are one stop of the tab key."""
    at.table(PLAIN, tell=False)
    at.focus("#line .move", tell="the focus is on the line")
    at.key("ArrowRight")
    at.key("End")
    at.key("ArrowLeft")
    at.key("Home")
    at.key("ArrowRight", "ArrowRight", "Enter", tell="three moves are played")
    at.press("next")
    at.press("next")
    at.press("next")
    at.focus("#record .move[tabindex='0']", tell=True)
    at.key("Home")
    at.key("Enter")
    at.enter(PLAIN, tell=False)
    at.choose("speed", "fast", tell=False)
    at.press("play", tell="it is played out, quickly")
    at.later(tell="the second step")
    at.later(tell=False)
    at.later(tell=False)
    at.later(tell="the fifth, which is the last")
    at.choose("speed", "normal", tell=False)
    at.enter(".../..l/.../L.. - c", tell=False)
    at.press("play", tell="another one, at the usual pace")
    at.language("ja", tell="in ja meanwhile")
    at.language("kana", tell="in kana")
    at.language("en", tell=False)
    at.press("play", tell="it is stopped")
    at.press("play", tell=False)
    at.press("undo", tell="and by Undo")
    at.press("play", tell=False)
    at.key("Escape", tell="and by Escape")


def hidden(at):
    """Values are hidden: nothing of them is seen, heard or printed; they are shown again."""
    at.table(PLAIN, tell=False)
    at.press("hide", tell="values are hidden")
    at.click("b1")
    at.play("Cb2-b3")
    at.choose("measure", "moves")
    at.key("n")
    at.give("loss.cert")
    at.paper()
    at.press("copy-game")
    at.says()
    at.press("hide")


def set_up(at):
    """A position is set up by clicks, dragging and keys."""
    at.table("..l/H.h/.../L.. E g", tell=False)
    at.press("edit", tell="setting up begins")
    at.press("mirror", tell="a board that is not its own mirror image is mirrored")
    at.press("exchange", tell="and its sides are exchanged")
    at.press("exchange", tell=False)
    at.press("mirror", tell=False)
    at.click("tool c")
    at.click("b2")
    at.click("b2")
    at.click("tool .", tell=False)
    at.click("a3", tell="a hen is taken away by the empty square")
    at.click("tool L", tell=False)
    at.click("c1", tell="a lion is put elsewhere")
    at.press("clear", tell="the board is cleared")
    at.says()
    at.press("lions")
    at.drag("tool C", "b2")
    at.drag("b2", "c3")
    at.drag("c3", "c")
    at.drag("c", "a3")
    at.drag("a3", "C")
    at.drag("C", "c")
    at.drag("tool H", "a2")
    at.drag("a2", "C", tell="a hen is dragged into a hand")
    at.drag("tool H", "a2", tell=False)
    at.drag("a2", (600, 5), tell="a hen is dragged off the board")
    at.drag("b1", (600, 5), tell="a lion isn't")
    at.drag("b1", "c")
    at.hold("C", "b2")
    at.key("Escape", tell="a drag is given up")
    at.press("move-1")
    at.press("mirror", tell="the board is mirrored")
    at.press("exchange", tell="sides are exchanged")
    at.press("exchange", tell="and again")
    at.press("mirror", tell=False)
    at.press("move-0", tell=False)
    at.click("C", tell="a click on a hand gives one more")
    at.click("C")
    at.click("C")
    at.focus("G")
    at.key("2", tell="keys on a hand")
    at.key("0")
    at.key("7")
    at.focus("b2")
    at.key("c", tell="keys on a square")
    at.key("Delete")
    at.key("Backspace", "C")
    at.key("u", "n")
    at.paper()
    at.press("edit")
    at.press("copy")


def set_up_wrong(at):
    """Boards that are no position, each with what is wrong."""
    at.table(PLAIN, tell=False)
    at.press("edit", tell=False)
    at.drag("b1", "b4", tell="lions change places")
    at.drag("b4", "b1", tell=False)
    at.focus("b1")
    at.key("Delete", tell="no lion")
    at.says()
    at.key("L")
    at.focus("a3", tell=False)
    at.key("C", tell=False)
    at.focus("a2", tell=False)
    at.key("h", tell="three chicks")
    at.key("Delete", tell=False)
    at.press("hide")
    at.press("hide", tell=False)
    at.choose("rules", "B", tell=False)
    at.focus("a4", tell=False)
    at.key("C", tell="a chick on its far row by rules B")
    at.press("edit", tell="it can't be done")
    at.choose("rules", "A")
    at.press("lions")
    at.press("start")


def texts(at):
    """Texts that are no position, each with its fault, and links."""
    at.table(PLAIN, tell=False)
    wrong = ("", "..l/.../L../... -", "..x/.../L../... - -", "..l/.../L../... EC -", "..l/.../.../... - -", "..l/CCC/L../... - -", "L.l/.../.../... - -")
    for name in ("en", "ja", "kana"):
        at.language(name, tell=name == "ja")
        for text in wrong:
            at.enter(text)
        at.choose("rules", "B", tell=False)
        at.enter("C.l/.../.../L.. - -")
        at.choose("rules", "A", tell=False)
        at.enter("#.l./.../.C./.L._-_-:Lb1-a2,lb4-b2,La2-a3")
        at.enter("dobutsu.html#nonsense")
    at.language("en", tell=False)
    at.enter("C.l/.../.../L.. - -")
    at.enter("  .l./.../.C./.L.   -  - ", tell="blanks are no matter")
    at.enter("file:///home/somebody/dobutsu.html#~.l./.../.C./.L._-_-:lb4-c3", tell="a link with a game")
    at.enter("https://example.com/page.html#.l./.../.C./.L.%5F-%5F-", tell="an encoded link")
    at.enter("#B;.l./.../.C./.L._-_-:Lb1-a2", tell="a link by rules B")
    at.focus("#text", tell=True)
    at.key("u", "h", tell="letters in a text are no keys")


def link(at):
    """A link is opened: rules, side and moves; then another address is typed."""
    at.open("#B;~.l./.../.C./.L._-_-:lb4-c3,Lb1-a1", tell="by rules B, Sky first, two moves")
    at.press("undo")
    at.run("location.hash = '#.l./.../.C./.L._-_-:Lb1-c2'", until="Game.state.cursor === 1 && Game.state.plies[0].text === 'Lb1-c2'", tell="another address")
    at.run("location.hash = '#nonsense'", until="document.getElementById('text-fault').textContent", tell="an address that is none")
    at.run("location.hash = '#.l./.../.C./.L._-_-:Lb1-a2,none'", until="Game.state.plies.length && Game.state.plies[0].text === 'Lb1-a2'", tell="a move that is none")
    at.says()


def link_wrong(at):
    """The page is opened at an address that is none."""
    at.open("#gle/.c./.C./ELG", tell="no position")


def rules(at):
    """Rules B: their file, the address, a game that is none by them."""
    at.open(tell=False)
    at.give("100B", tell="a file by rules B")
    at.enter(PLAIN)
    at.choose("rules", "A")
    at.give("100A")
    at.enter(".../C.l/.../L.. - -")
    at.click("a3")
    at.play("Ca3-a4+")
    at.press("undo", tell=False)
    at.enter("..l/.../.../L.. C -", tell=False)
    at.click("C", tell="a chick may drop on the far row by rules A")
    at.choose("rules", "B")
    at.click("C")
    at.key("Escape", tell=False)
    at.choose("rules", "A", tell=False)
    at.play("C*a4")
    at.choose("rules", "B")
    at.press("start")


def keys(at):
    """Letters and arrows as keys; they can be switched off."""
    at.table(PLAIN, tell="a won position")
    for key in "nurf":
        at.key(key)
    for key in "fhhepp":
        at.key(key, tell=f"key {key}" if key in "he" else False)
    at.key("Escape", tell=False)
    at.key("e", tell=False)
    at.key("ArrowLeft")
    at.key("ArrowRight")
    at.focus("#moves li:first-child button", tell=False)
    at.key("Enter", tell="the first move is made, and the focus is on the first one then")
    at.press("undo", tell=False)
    at.focus("b1")
    at.key("ArrowUp")
    at.key("ArrowUp", "ArrowUp", "ArrowUp")
    at.key("ArrowLeft", "ArrowLeft")
    at.key("ArrowRight", "ArrowRight", "ArrowRight")
    at.key("ArrowDown", "ArrowDown", "ArrowDown", "ArrowDown")
    at.press("undo", tell=False)
    at.focus("b1", tell=False)
    at.key("Enter", tell="Enter chooses")
    at.key("ArrowLeft", "ArrowUp", "Enter", tell="and moves")
    at.run("document.dispatchEvent(new KeyboardEvent('keydown', { key: 'u', ctrlKey: true, bubbles: true })); document.body.dispatchEvent(new KeyboardEvent('keydown', { key: 'u', metaKey: true, bubbles: true }));"
           "document.body.dispatchEvent(new KeyboardEvent('keydown', { key: 'h', altKey: true, bubbles: true })); document.body.dispatchEvent(new KeyboardEvent('keydown', { key: 'e', ctrlKey: true, bubbles: true }))", tell="with Control and Alt they mean nothing")
    at.on("Settings", tell=False)
    at.press("letters")
    at.run("document.activeElement.blur()", tell=False)
    at.key("u", "h", "e")
    at.key("x", "c")
    at.press("letters", tell=False)
    at.run("document.activeElement.blur()", tell=False)
    at.key("e", "x", "c", tell="while a position is set up no exercise is drawn")


def keys_left(at):
    """Letters in a text are letters, Tab leaves the board, and the right button has its menu but in class mode."""
    at.table(PLAIN, tell=False)
    at.press("paste-game", tell=False)
    at.focus("#game-text")
    at.key("f", "e", "h", tell="letters in the box")
    at.press("paste-game", tell=False)
    at.press("edit", tell=False)
    at.focus("b2")
    at.key("Tab", tell="Tab on the board that is set up")
    at.press("edit", tell=False)
    menu = "document.getElementById('board').dispatchEvent(new MouseEvent('contextmenu', { bubbles: true, cancelable: true }))"
    at.out.append(f"== the right button's menu on the board: {at.js(menu)}")
    at.press("lesson", tell=False)
    at.out.append(f"== in class mode: {at.js(menu)}")
    at.stop_early()
    at.press("lesson-end", tell=False)
    at.play("Lb1-a2", "lb4-c4", tell=False)
    at.focus("#record .move")
    at.key("End", tell="End leads to the last move, and scrolls nothing")
    at.key("Home")


def dragged(at):
    """Pieces are dragged: to their square, back, off the board, to a wrong one; a hand's piece too."""
    at.table(PLAIN, tell=False)
    at.hold("b1", "a2", tell="a lion is held over its target")
    at.key("Escape")
    at.run("document.dispatchEvent(new PointerEvent('pointerup', { button: 0, bubbles: true }))", tell=False)
    at.drag("b1", "a2", tell="it is dragged there")
    at.press("undo", tell=False)
    at.drag("b1", "b3", tell="to a square that it doesn't reach")
    at.drag("b1", (600, 5), tell="off the board")
    at.drag("b4", "c4", tell="the other side's piece isn't")
    at.hold("b1", "c2", tell=False)
    for kind, held in (("mouseMoved", 1), ("mouseReleased", 0)):
        at.mouse(kind, at.middle("b1"), held=held)
    at.tell("out and back to its own square")
    right = "button: 2, buttons: 2, isPrimary: true, bubbles: true"
    at.run(f"document.querySelector('[data-square=\"1\"]').dispatchEvent(new PointerEvent('pointerdown', {{ {right} }})); document.dispatchEvent(new PointerEvent('pointermove', {{ {right}, clientX: 300, clientY: 300 }}))",
           tell="the right button drags nothing")
    at.run(f"document.dispatchEvent(new PointerEvent('pointerup', {{ {right} }}))", tell=False)
    at.enter(DROPS, tell=False)
    at.drag("C", "b3", tell="a piece in hand is dragged to the board")


STORIES = {
    it.__name__: it
    for it in (start, table, values, ends, hover, chosen, flipped, drops, sky, line, hidden, set_up, set_up_wrong, texts, link, link_wrong, rules, keys, keys_left, dragged)
} | stories_files.STORIES | stories_play.STORIES | stories_class.STORIES | stories_looks.STORIES
