"""A game's mistakes at eight widths, and what pasted games say."""
from layout import LANGUAGES
from program import read_db

START = ".l./.../.../L.. C -"
BAD = ("C*c1", "lb4-a4", "Cc1-c2", "la4-a3")  # of a win in 5 a draw, of the draw a loss, of the win a loss, and then a win
WIDTHS = (320, 360, 480, 768, 1024, 1280, 1600, 1920)
TURN = str.maketrans("abc1234", "cba4321")


def from_its_side(text, side):
    """A move as the program names it, from the side to move."""
    return text[0].upper() + text[1:].translate(TURN) if side else text


def play_badly(screen, program, path, moves=BAD):
    """Plays these moves from the start. Gives of each its text, its value and the best move's, by the program."""
    screen.enter(START)
    made = []
    for number, text in enumerate(moves):
        told = [line.split(" ", 1) for line in program.moves(path, screen.position())]
        made.append((text, dict(told)[from_its_side(text, number % 2)], told[0][1]))
        screen.play(text)
    return made


def paste(screen, words):
    screen.js("document.getElementById('paste-box').hidden && document.getElementById('paste-game').click()")
    screen.js(f"document.getElementById('game-text').value = {words!r}")
    screen.press("take-game")


def worth(db, position, move):
    """The mark of a move that leaves a lion, by the position behind it: where that lion stands on its far row it has won."""
    try:
        value = db.value(read_db.write_position(read_db.apply(position, move))).split()
    except read_db.Fault:
        return "?? L 0"
    return "?? draw" if value == ["draw"] else f"?? {'L' if value[0] == 'win' else 'W'} {int(value[1]) + 1}"


def missed(checks, screen, program):
    """Where a lion can be caught each other step and drop is taken too, marked, and worth what pure Python says of the position behind it."""
    path = program.build("100", "A")
    at = lambda square: f"[data-square='{square}']"
    screen.enter(".../.l./.L./.C. - -")
    screen.browser.click(at(4))
    screen.browser.click(at(0))
    checks.expect("without a file", [screen.record()[1:], screen.marks(), screen.text("judged")], [["Lb2-a1"], ["??"], "Lb2-a1: the lion could be caught."])
    screen.give(path)
    db = read_db.open_db(path)
    for text in (".../.l./.L./.C. - -", ".../.../L../l.. C -"):
        position = read_db.read_position(text)
        steps, drops = read_db.all_moves("A", position)
        for move in [it for it in steps if position[0][it[2]] != "l"] + drops[::5]:
            screen.enter(text)
            screen.browser.click("[data-hand='C']" if move[1] is None else at(move[1]))
            screen.browser.click(at(move[2]))
            screen.settle()
            checks.expect(f"{text}, {move}", [screen.record()[1:], screen.marks()], [[read_db.move_text(position, move)], [worth(db, position, move)]])
    checks.expect("a lion that wasn't caught on its far row has won", screen.told(), "Sky's lion wasn't caught on its far row: Sky has won.")
    screen.open("#.../.l./.L./.C._-_-:Lb2-a1,lb3-b2,La1xb2")
    checks.expect("a link of such a game", [screen.record()[1:], screen.told()], [["Lb2-a1", "lb3-b2", "La1xb2"], "Forest caught the lion and has won."])


NONE = [  # (words, the reason why the last is no move)
    ("Cb2-b3", "a piece stands on b3, which x would take"), ("Lb1xa2", "nothing stands on a2"), ("Ca1-a2", "no chick of Forest stands on a1"), ("a2b3", "no piece of Forest stands on a2"),
    ("Gc1-b1", "an own piece stands on b1"), ("Gc1-a3", "the giraffe doesn't go to a3"), ("C*a2", "Forest has no chick in hand"), ("L*a2", "a lion is never dropped"), ("Hb3", "Forest has no hen on the board"),
    ("b2b3+", "only a chick that steps onto its far row becomes a hen"), ("nonsense", "it isn't written as one"), ("b2b3 b4b3 C*b3", "b3 isn't empty"), ("b2b3 b4b3 Lb1-a2 c*b3", "b3 isn't empty"),
    ("▲22ヒヨコ ▲同ライオン", "it is Sky's turn"), ("▲22ヒヨコ △同ゾウ引", "the elephant doesn't go to b3引"), ("b2b3 b4b3 Lb1-a2 b3b2 La2xb2 a4a3", "the game is over"),
]
KIFU = ["▲22ヒヨコ△同ゾウ▲13キリン", "手合割：どうぶつしょうぎ\n先手：はな\n▲22ヒヨコ △同ゾウ\n▲13キリン\n投了", "▲２二ひよこ　△同　ぞう　▲１三きりん", "1 22ひよこ(23) ( 0:01/00:00:01)\n2 22ぞう(11)\n3 13キリン(14)\nまで3手", "☗22ひ☖同ぞ上☗13き上",
        "#KIF version=2.0\n記録係：太郎\n*22ひよこまで\n1 ２二ひよこ(23)\n2 同　ぞう(11)\n3 １三きりん(14)+\n4 詰み\n\n変化：2手\n2 同　ライオン(21)", '[Event "Game #12"]\n1. Cb2xb3 ec4xb3 2. Gc1-c2# 1-0', "# a game\nb2b3 c4b3 c1c2"]


def kifu(checks, screen, program):
    """Why a word of a pasted game is no move; records as Japanese readers write them, which Japanese shows and copies."""
    start, moves = "gle/.c./.C./ELG - -", ["Cb2xb3", "ec4xb3", "Gc1-c2"]
    for words, why in NONE:
        screen.enter(start)
        paste(screen, words)
        checks.expect(f"{words} is none", f": {why}. What comes before it" in screen.text("game-fault") or screen.text("game-fault"))
    for words in KIFU:
        screen.enter(start)
        paste(screen, words)
        checks.expect(f"{words!r} is read", [screen.record()[1:], screen.text("game-fault")], [moves, ""])
    screen.seen("catchCopies")
    for language, drop in (("ja", "打"), ("kana", "うつ")):
        screen.language(language)
        paste(screen, f"22ひよこ 同ライオン 33ライオン 13ひよこ{drop}")
        shown = ["▲22ひよこ", "△22ライオン", "▲33ライオン", f"△13ひよこ{drop}"]
        checks.expect(f"shown, {language}", [screen.record()[1:], screen.seen("texts", ".column-label"), screen.seen("texts", ".row-label")], [shown, ["3", "2", "1"], ["1", "2", "3", "4"]])
        screen.press("copy-game")
        copied = screen.js("window.copied")
        checks.expect(f"copied, {language}", copied.split("\n")[2], f"1. {shown[0]} {shown[1]} 3. {shown[2]} {shown[3]}??")
        screen.enter("..l/.../.../L.. C -")
        paste(screen, copied)
        checks.expect(f"pasted again, {language}", screen.record()[1:], shown)
    screen.enter("..l/.../.G./G.L - -")
    checks.expect("where two can go there it says which", [it for it in screen.moves() if it[1:3] == "24"], ["▲24きりん(34)", "▲24ライオン", "▲24きりん(23)"])
    for words in ("24きりん引", "24きりん右", "24キリン(23)", "Gb2b1"):
        screen.enter("..l/.../.G./G.L - -")
        paste(screen, words)
        checks.expect(f"{words} is one of them", screen.record()[1:], ["▲24きりん(23)"])


def sizes(checks, screen, program):
    """The card fits at each width in each language, with a long game, a left line and the box for a text."""
    path = program.build("100", "A")
    screen.give(path)
    play_badly(screen, program, path)
    for move in ("undo", "undo"):
        screen.press(move)
    screen.play(screen.moves()[1].split()[0])
    screen.press("paste-game")
    for language in LANGUAGES:
        screen.language(language)
        for width in WIDTHS:
            screen.browser.size(width, 900, 1, width < 500)
            screen.settle()
            about = f"{width} pixels, {language}"
            checks.expect(f"{about}: width", screen.js("document.documentElement.scrollWidth"), width)
            checks.expect(f"{about}: texts that are cut", screen.seen("cut"), [])
            checks.expect(f"{about}: what is too small", screen.seen("tooSmall", *((44, 36) if width < 500 else (28, 28))), [])
            checks.expect(f"{about}: what lies on something else", screen.seen("overlaps", "#game-card > *, #paste-box > *"), screen.seen("overlaps", "#paste-box, #paste-box > *"))
            wide = screen.js("[...document.querySelectorAll('#game-card *')].filter(it => it.checkVisibility() && it.scrollWidth > it.clientWidth + 1 && it.clientWidth > 1 && getComputedStyle(it).display !== 'inline').map(it => it.id || it.className)")
            checks.expect(f"{about}: what is wider than its place", wide, [])
        for theme in ("light", "dark"):
            screen.theme(theme)
            checks.expect(f"{language}, {theme}: texts that are too pale", screen.seen("tooPale"), [])


PARTS = {"missed": missed, "kifu": kifu, "sizes": sizes}
