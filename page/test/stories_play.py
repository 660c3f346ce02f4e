"""The stories of the scenes about practice, exercises, worksheets and games."""
PLAIN = ".l./.../.C./.L. - -"
CATCH = ".../.l./.L./.C. - -"
START = ".l./.../.../L.. C -"
ASKED = "Exercise.isAsked()"
DRAWN = "!/Drawing/.test(document.getElementById('task').textContent)"


def fixed(start, move):
    """Exercises are this one, whatever would be drawn."""
    square = lambda name: "abc".index(name[0]) + 3 * (int(name[1]) - 1)
    return (f"Answers.drawExercise = async () => ({{ position: DobutsuCore.readPosition({start!r}), move: {{ letter: {move[0]!r}, from: {square(move[1:3])}, to: {square(move[4:6])} }} }})")


def practice(at):
    """Practice is begun, answered, taken back, won; and lost."""
    at.table(PLAIN, tell=False)
    at.press("practise", tell="practice begins")
    at.says()
    at.play("Lb1-a2", tell="a move is played")
    at.choose("speed", "fast", tell="it is answered sooner")
    at.press("undo", tell="it is taken back alone")
    at.play("Lb1-a2", tell=False)
    at.later(tell="the page answers")
    at.press("undo", tell="undo takes both back")
    at.play("Lb1-a2", tell=False)
    at.later(tell=False)
    at.play("La2-a3", tell=False)
    at.later(tell=False)
    at.press("undo", tell="undo takes back one move and its answer")
    at.play("La2-a3", tell=False)
    at.later(tell=False)
    at.play("La3xb4", tell="the win is there")
    at.says()
    at.enter(PLAIN, tell=False)
    at.press("practise", tell=False)
    at.play("Cb2-b3", tell="the win is lost")
    at.says()
    at.press("undo", tell="then it is taken back")


def practice_ends(at):
    """Practice that is refused, stopped, left behind its beginning, ended by other rules, by a file that is closed and by playing out."""
    at.table(".../..l/.../L.. - c", tell=False)
    at.press("practise", tell="a lost position is refused")
    at.says()
    at.enter(PLAIN, tell=False)
    at.press("practise", tell=False)
    at.press("practise", tell="it is stopped")
    at.press("hide", tell=False)
    at.play("Lb1-a2", "lb4-c4", tell=False)
    at.press("practise", tell=False)
    at.press("undo", tell=False)
    at.press("undo", tell="left behind its beginning")
    at.says()
    at.enter(PLAIN, tell=False)
    at.press("practise", tell=False)
    at.press("hide", tell="values are shown during practice")
    at.press("play", tell=False)
    at.press("play", tell="playing out ends it")
    at.enter(PLAIN, tell=False)
    at.press("practise", tell=False)
    at.choose("rules", "B", tell="other rules end it")
    at.choose("rules", "A", tell=False)
    at.press("practise", tell=False)
    at.js("document.querySelector('#files .close').click()")
    at.wait("!document.querySelector('#files b')", tell=False)
    at.tell("its file is closed")
    at.says()
    at.play("Lb1-a2", tell="a move of which no file knows")


def practice_left(at):
    """Practice ends where a position is set up; and it is refused, while a line is played out, in a position that is lost."""
    at.table(PLAIN, tell=False)
    at.press("practise", tell=False)
    at.press("edit", tell="a position is set up")
    at.press("edit", tell="and done")
    at.press("play", tell="a line is played out")
    at.press("practise", tell="behind its first move")


def practice_thinks(at):
    """The page thinks: no move is taken for its side by any way."""
    at.table(PLAIN, tell=False)
    at.choose("speed", "slow", tell=False)
    at.press("practise", tell=False)
    at.play("Lb1-a2", tell="the page thinks")
    at.js("document.querySelector('#moves button').click()")
    at.click("b4", tell="a piece of its side isn't chosen")
    at.drag("b4", "a4", tell="nor dragged")
    at.key("n", tell="nor the next move made")
    at.press("hide", tell=False)
    at.js("document.querySelectorAll('#line .move')[0].click()")
    at.key("p", tell="nor the line played")
    at.press("undo", tell="undo takes the move back alone")


def ended(at):
    """What ends a line that is played out, practice and a choice: each way to another position, to other rules and to other files."""
    at.table(PLAIN, tell=False)
    at.run(fixed("..l/.../L../... - c", "La2-a3"), tell=False)
    at.choose("exercise-length", "3", tell=False)
    at.press("paste-game", tell=False)

    def paste(tell):
        at.js("document.getElementById('paste-box').hidden && document.getElementById('paste-game').click(); document.getElementById('game-text').value = '1. Lb1-a2 lb4-c4'")
        at.press("take-game", tell=tell)

    def set_up(tell):
        at.press("edit", tell=tell)
        at.press("edit", tell=False)

    def choose_rules(tell):
        at.choose("rules", "B", tell=tell)
        at.choose("rules", "A", tell=False)

    ways = {
        "another text": lambda tell: at.enter("..l/.../L../... - c", tell=tell), "start": lambda tell: at.press("start", tell=tell), "setting up": set_up, "other rules": choose_rules,
        "a link": lambda tell: at.run("location.hash = '#~.l./.../.C./.L._-_-:lb4-c3'", tell=tell, until="Game.state.side === 1"), "a pasted game": paste,
        "an exercise": lambda tell: at.press("draw", tell=tell, until="Exercise.isAsked()"), "a click on the board": lambda tell: at.click("c4", tell=tell),
        "a drag": lambda tell: at.drag("b4", "b3", tell=tell), "undo": lambda tell: at.press("undo", tell=tell), "a move": lambda tell: at.run("document.querySelector('#moves button').click()", tell=tell),
        "another file": lambda tell: at.give("000A", tell=tell),
    }
    for name, go in ways.items():
        at.enter(PLAIN, tell=False)
        at.press("play", tell=False)
        go(f"{name} while a line is played out")
        at.enter(PLAIN, tell=False)
        at.press("practise", tell=False)
        at.click("b1", tell=False)
        go(f"{name} in practice, a lion being chosen")
    at.enter(PLAIN, tell=False)
    at.press("practise", tell=False)
    at.press("play", tell="playing out in practice")
    at.enter(PLAIN, tell=False)
    at.press("play", tell=False)
    at.run("[...document.querySelectorAll('#files .close')].pop().click()", until="document.querySelectorAll('#files b').length === 1", tell="another file is closed while a line is played out")


def practice_try(at):
    """Practice of Sky, won by a try; of a win in one."""
    at.table(".../L../l.C/... - -", tell=False)
    at.press("start", tell=False)
    at.run("location.hash = '#~.../L../..l/h.._-_-'", until="Game.state.side === 1", tell="Sky can try")
    at.press("practise", tell=False)
    at.play("lc2-c3", tell="the win is lost")
    at.says()
    at.press("undo", tell=False)
    at.press("practise", tell=False)
    at.play("lc2-c1", tell="it is won by a try")
    at.says()
    at.enter(CATCH, tell=False)
    at.press("practise", tell=False)
    at.play("Lb2xb3", tell="a catch wins")
    at.press("copy-game")


def practice_certificate(at):
    """Practice by a certificate: a move that isn't listed, one that hangs the lion, and a position that it doesn't know."""
    at.open(tell=False)
    at.give("one.cert", tell=False)
    at.enter(PLAIN, tell="a certificate with one solution")
    at.press("practise", tell=False)
    at.play("Lb1-a1", tell="a move that isn't listed")
    at.says()
    at.play("Lb1-a2", tell=False)
    at.later(tell="the page answers the listed one")
    at.press("practise", tell=False)
    at.enter(PLAIN, tell=False)
    at.play("Lb1-a1", tell=False)
    at.press("undo", tell=False)
    at.press("practise", tell=False)
    at.press("redo", tell="a move that isn't listed is made again")
    at.says()
    at.press("practise", tell=False)
    at.give("win.cert", tell=False)
    at.enter(".l./.../.C./.L. - -", tell=False)
    at.press("practise", tell=False)
    at.play("Cb2-b3", tell="a chick's step")
    at.enter("..l/.../L../... - c", tell=False)
    at.press("practise", tell=False)
    at.play("La2-b3", tell="a lion that is hung")
    at.says()


def exercise(at):
    """An exercise: the task, a wrong answer, the right one, the score; the answer shown; values shown."""
    at.open(tell=False)
    at.run(fixed("..l/.../L../... - c", "La2-a3"), tell="no file")
    at.give("100A", tell="a file for exercises")
    at.choose("exercise-length", "3", tell=False)
    at.press("draw", until=ASKED, tell="an exercise")
    at.paper("the task on paper")
    at.play("La2-a1", tell="a wrong answer")
    at.says()
    at.play("La2-b1", tell="another one")
    at.play("La2-a3", tell="the right one")
    at.says()
    at.press("draw", until=ASKED, tell=False)
    at.play("La2-a3", tell="right at once")
    at.press("draw", until=ASKED, tell=False)
    at.press("answer", tell="the answer is shown")
    at.says()
    at.press("draw", until=ASKED, tell=False)
    at.press("hide", tell="values are shown")
    at.play("La2-b1", tell="a wrong answer then")
    at.press("draw", until=ASKED, tell="another exercise hides them")
    at.press("practise", tell="practice of the exercise")
    at.press("practise", tell=False)
    at.enter(PLAIN, tell="another position")


def exercise_drawn(at):
    """Exercises as they are drawn, of each length of a file; keys; one that has to be the same piece; of a large file."""
    at.table(PLAIN, tell=False)
    at.key("x", until=ASKED, tell="an exercise of the first length")
    at.key("x", until=ASKED, tell="another one")
    for plies in ("5", "7", "9"):
        at.choose("exercise-length", plies, tell=False)
        at.press("draw", until=DRAWN, tell=f"of {plies} plies")
    at.choose("exercise-length", "3", tell=False)
    at.press("draw", until=ASKED, tell=False)
    at.choose("measure", "moves", tell="in moves")
    at.choose("measure", "plies", tell=False)
    at.run("Object.assign(Answers.limits, { small: 100, window: 300, kept: 10 })", tell=False)
    at.press("draw", until=ASKED, tell="of a large file")
    at.choose("exercise-length", "7", tell=False)
    at.press("draw", until=DRAWN, tell="another length of it")
    at.run("Object.assign(Answers.limits, { small: 1 << 20, few: 0 })", tell=False)
    at.press("draw", until=DRAWN, tell="of a file with many of that length")
    at.run(fixed(".l./.../LC./... - -", "La2-b3"), tell=False)
    at.press("draw", until="Game.state.start.startsWith('.l.')", tell=False)
    at.play("Cb2-b3", tell="another piece that goes there isn't it")
    at.run(fixed(PLAIN, "Lb1-a2"), tell=False)
    at.press("draw", until=f"Game.state.start === {PLAIN!r}", tell=False)
    at.play("Lb1-a1", tell="nor a slower win")


def exercise_left(at):
    """The file is closed while an exercise is drawn of it: none comes."""
    at.table(PLAIN, tell=False)
    at.run("Answers.drawExercise = ((real) => async (...about) => { const drawn = await real(...about); await new Promise((done) => { window.giveDrawn = done; }); return drawn; })(Answers.drawExercise)", tell=False)
    at.js("document.getElementById('draw').click()")
    at.browser.wait("!!window.giveDrawn")
    at.tell("it is drawn", False)
    at.js("document.querySelector('#files .close').click(); window.giveDrawn()")
    at.wait("!document.querySelector('#files b')", tell="the file is closed meanwhile")


def exercise_files(at):
    """Exercises of one of several files; files without exercises; a file that is closed ends its exercise."""
    at.open(tell=False)
    at.give("000A", "100A", "100B", tell=False)
    at.run("document.getElementById('exercise-file').selectedIndex = 1; document.getElementById('exercise-file').dispatchEvent(new Event('change'))", until="document.querySelector('#exercise-card[aria-busy=false]')",
           tell="the second file is chosen")
    at.press("draw", until=ASKED, tell="an exercise of it")
    at.run("document.getElementById('exercise-file').selectedIndex = 2; document.getElementById('exercise-file').dispatchEvent(new Event('change'))", until="document.querySelector('#exercise-card[aria-busy=false]')", tell=False)
    at.press("draw", until="Exercise.isAsked() && Game.state.profile === 'B'", tell="one by rules B")
    at.choose("rules", "A", tell="other rules end it")
    at.press("draw", until=ASKED, tell=False)
    at.run("[...document.querySelectorAll('#files .close')].at(-1).click()", until="document.querySelectorAll('#files b').length === 2", tell="its file is closed")
    at.run("Answers.lengths = async () => []", tell=False)
    at.give("100B", tell="a file without exercises")
    at.says()
    at.run("Answers.drawExercise = async () => null", tell=False)
    at.run("document.getElementById('exercise-file').selectedIndex = 1; document.getElementById('exercise-file').dispatchEvent(new Event('change'))", until="document.querySelector('#exercise-card[aria-busy=false]')", tell=False)
    for name in ("en", "ja", "kana"):
        at.language(name, tell=False)
        at.press("draw", tell=f"none of that length, in {name}")
        at.press("worksheet", tell="nor for a worksheet")


def worksheet(at):
    """A worksheet as it is asked for and printed; with more exercises, the answers apart."""
    at.table(PLAIN, tell=False)
    at.choose("exercise-length", "5", tell=False)
    at.press("worksheet", until="Scene.told.printed.length === 1", tell="a worksheet")
    at.paper("the worksheet on paper")
    at.run("dispatchEvent(new Event('afterprint'))", tell="behind it")
    at.choose("sheet-number", "12", tell=False)
    at.choose("sheet-answers", "apart", tell="more, answers apart")
    at.press("worksheet", until="Scene.told.printed.length === 2", tell=False)
    at.paper("twelve exercises on paper")
    at.press("print", tell="the page itself is printed")
    at.choose("sheet-number", "1", tell=False)
    at.choose("measure", "moves", tell=False)
    at.language("ja", tell=False)
    at.press("worksheet", until="Scene.told.printed.length === 4", tell=False)
    at.paper("one in Japanese, in moves")
    at.language("kana", tell=False)
    at.choose("sheet-answers", "below", tell=False)
    at.run("""(() => {
      const texts = ["gle/.c./.C./ELG - -", "..l/h../L../... CE g", "e.l/.../L../... GG e"];
      let drawn = 0;
      Answers.drawExercise = async (table, engine, plies, isLate, isWanted) => { const text = texts[drawn++ % 4]; return text ? { position: DobutsuCore.readPosition(text), move: { letter: "L", from: text === texts[0] ? 1 : 3, to: 4 } } : null; };
    })()""", tell=False)
    at.choose("sheet-number", "7", tell=False)
    at.press("worksheet", until="Scene.told.printed.length === 5", tell=False)
    at.paper("with hands, fewer than were asked for, in kana")
    at.language("en", tell=False)
    at.press("worksheet", until="Scene.told.printed.length === 6", tell=False)
    at.press("print", tell="the page is printed, where no browser said that the worksheet was")


def game(at):
    """A game with mistakes: the strip, what was given away, clicks on both, a line that was left."""
    at.table(START, tell=False)
    at.play("C*c1", tell="a win is given away")
    at.play("lb4-a4", "Cc1-c2", "la4-a3", tell="and more")
    at.says()
    at.run("document.querySelectorAll('#strip .cell')[2].click()", tell="a click on the second ply")
    at.run("document.querySelectorAll('#mistakes button')[2].click()", tell="a click on the third mistake")
    at.choose("measure", "moves")
    at.choose("measure", "plies", tell=False)
    at.focus("#strip .cell[tabindex='0']")
    at.key("ArrowRight")
    at.key("Enter")
    at.on("start", within="#record", tell=False)
    at.play("La1-a2", tell="another line")
    at.play("lb4-c4", tell=False)
    at.press("undo", tell=False)
    at.play("lb4-a4", tell="a third")
    at.says()
    at.press("copy-game")
    at.run("document.querySelector('#branches button').click()", tell="back to a line that was left")
    at.press("print-game", tell=False)
    at.paper("the game on paper")
    for name in ("ja", "kana"):
        at.language(name, tell=False)
        at.press("print-game", tell=False)
        at.paper(f"in {name}")
        at.press("copy-game")
    at.language("en", tell=False)
    at.press("hide", tell=False)
    at.press("print-game", tell=False)
    at.paper("the game on paper, values hidden")
    at.press("copy-game")
    at.press("start", tell="a new game")


def game_certificate(at):
    """A game by a certificate: bounds stay bounds, and what isn't known is told so."""
    at.open(tell=False)
    at.give("lost.cert", tell=False)
    at.enter(".../..l/.../L.. - c", tell=False)
    at.on("La1-a2", within="#moves", tell="a move by bounds")
    at.press("next", tell=False)
    at.press("copy-game")
    at.says()
    at.on("start", within="#record", tell=False)
    at.play("La1-a2", "c*c4", tell="behind its list")
    at.says()
    at.press("copy-game")
    at.enter(".../l../.../L.C - -", tell=False)
    at.on("La1-b1", within="#moves", tell="a game of which nothing is known")
    at.says()
    at.enter(START, tell=False)
    at.play("C*c1", "lb4-a4", tell="what was best isn't known")
    at.play("Cc1-c2", tell=False)
    at.play("la4-a3", tell="a win made a loss")
    at.says()
    at.press("copy-game")
    at.press("print-game", tell=False)
    at.paper("it on paper")


def pasted(at):
    """A game is pasted: its text, with mistakes, lines in parentheses, a link; a move that is none, and no move."""
    at.table(PLAIN, tell=False)
    at.press("paste-game", tell="the box is open")

    def take(text, tell):
        at.js(f"document.getElementById('game-text').value = {text!r}")
        at.press("take-game", tell=tell)
        at.js("if (document.getElementById('paste-box').hidden) document.getElementById('paste-game').click()")

    take("", "nothing")
    take("1. Lb1-a2 lb4-c4 2. La2-b2?? Xz9 La2-a3", "a move that is none")
    take("Xz9", "none at all")
    take("Lb1-a2 lb4-c3", "a game of the position that the board began with")
    take('[Rules "A"] [First "Forest"] [Position ".l./.../.../L.. C -"]\n\n1. C*c1? {draw} lb4-a4 (2. lb4-c4 3. La1-a2) 3. Cc1-c2 la4-a3', "a game with tags, words and a line")
    at.press("copy-game")
    at.says()
    take("b2b3, lb4c4", "squares alone, from the starting layout")
    take("1... lb4-c3 Lb1-a1", "Sky begins")
    take('[Rules "B"] [First "Sky"] [Position ".l./.../.C./.L. - -"] lb4-c3', "rules B, Sky first")
    take("PAGE#.l./.../.C./.L._-_-:Lb1-a2,lb4-c4", "a link")
    take('# game of Monday\n[Event "Game #12"]\n1. Lb1-a2 {see #2} lb4-c3 ; a comment\n3. La2-a3#', "a game with number signs")
    take("# game of Monday", "a comment alone")
    take("1-0", "a result alone")
    take("1. Lb1-a2 lb4-c4 (Lb1-a1 1-0) 2. La2-a3 0-1 lc4-b4", "a result ends it")
    take('[Position "L.l/.../.../... - -"] La2-a3', "a position that is none")
    take("gle/.c./.C./ELG - - cb2xb3 eb4xb3 Gc1c2", "the whole game, small letters")
    take("Lb1", "a move that is none")
    at.says()
    at.press("paste-game", tell="the box is closed")


def game_files(at):
    """A game's file is opened or dropped: in Shift_JIS, with headers, comments and variations; in UTF-8; with tags; beside a table; one that is no game."""
    at.open(tell=False)
    at.game("shift_jis.kif", by="open", until="Game.state.plies.length === 5", tell="a record in Shift_JIS is opened")
    at.says()
    at.press("undo", tell=False)
    at.play(at.js("document.querySelector('#moves .move').textContent"), tell="another move")
    at.press("start", tell="a new game")
    at.game("utf_8.ki2", until="Game.state.plies.length === 5", tell="one in UTF-8 is dropped")
    at.says()
    at.game("tags.txt", until="/tags/.test(document.getElementById('game-told').textContent)", tell="a game with tags")
    at.press("hide", tell="values are hidden")
    at.press("hide", tell=False)
    at.game("no_game.txt", until="document.getElementById('game-fault').textContent", tell="a text that is no game")
    at.press("paste-game", tell=False)
    at.game("100A", "mistakes.txt", until="Game.state.plies.length === 4", tell="a table and a game of its set")
    at.says()


def repeated(at):
    """A position comes for the third time, and for the fourth; with the other side to move it is another one."""
    at.table("..l/.../.../L.. C -", tell=False)
    at.js("document.getElementById('paste-game').click(); document.getElementById('game-text').value = '" + 4 * "La1-a2 lc4-b4 La2-a1 lb4-c4 " + "'")
    at.press("take-game", tell="a game that goes round")
    at.run("document.querySelectorAll('#strip .cell')[8].click()", tell="the third time")
    at.says()
    at.press("hide", tell="values are hidden")
    at.press("hide", tell=False)
    at.press("undo", tell="and back")
    at.run("location.hash = '#.l./.../.../.L._-_-:Lb1-a1,lb4-c4,La1-a2,lc4-b4,La2-b1,lb4-c4,Lb1-a1,lc4-c3,La1-b1,lc3-b4'", until="Game.state.plies.length === 10", tell="twice with each side to move is no third time")


def missed(at):
    """A real game goes on where a lion that can be caught isn't: marked, with and without a file; a lion that isn't caught on its far row has won."""
    at.open("#.../.l./.L./.C._-_-", tell="a lion can be caught, no file")
    at.click("b2", tell="it isn't")
    at.click("a1")
    at.click("b3", tell="the other side's lion")
    at.click("b2")
    at.give("100A", tell="by a table")
    at.says()
    at.press("copy-game")
    at.press("undo", tell=False)
    at.enter(".../L.l/.C./... - -", tell=False)
    at.click("a3", tell=False)
    at.click("b4", tell="a lion goes to its far row, where it can be caught")
    at.press("next")
    at.press("undo", tell=False)
    at.click("c3", tell=False)
    at.click("c2", tell="it isn't caught there")
    at.says()
    at.press("flip", tell=False)
    at.paper("the game's end on paper")


def pasted_kifu(at):
    """A game as Japanese readers write it is pasted, and shown in Japanese; moves that are none, each with why."""
    at.open(tell=False)
    at.language("ja", tell=False)
    at.press("paste-game", tell="the box in Japanese")

    def take(text, tell):
        at.js(f"document.getElementById('game-text').value = {text!r}")
        at.press("take-game", tell=tell)
        at.js("if (document.getElementById('paste-box').hidden) document.getElementById('paste-game').click()")

    take("▲22ヒヨコ △同ぞう ▲12らいおん △33ひよこ打", "a game")
    at.press("copy-game", tell="copied")
    at.language("en", tell="in en")
    take('[Position "..l/.../G.G/.L. - -"] ▲23きりん右', "of two giraffes the right one")
    take("▲13きりん行 △32きりん入 ▲22ひよこ直 △同らいおん上 ▲14らいおん寄 △21らいおん引", "a game that says which way each piece goes")
    wrong = ["Lb1-a4", "La1-a2", "Cb2-a3", "Cb2xb3 Cb2xb3", "Cb2xb3 eb4xb3 Lb1-a2 la4-b4", "Cb2-b3", "C*c2", "L*a2", "Hb2-b3", "Gc1-b1", "Cb2xb3+", "Gc1xc2", "c2", "xyz", "▲13きりん", "△12らいおん", "22ひ 22ぞ 23ひ打",
             '[Position ".../.l./.L./.C. - -"] Lb2xb3 lb3-b4', '[Position "..l/.../H.H/.L. - -"] Hb2', '[Position "..l/.../.../L.. C -"] C*a1', '[Rules "B"] [Position "..l/.../.../L.. C -"] C*a4', ""]
    for name in ("en", "ja", "kana"):
        at.language(name, tell=False)
        for text in wrong:
            take(text, text or "nothing")


def stuck(at):
    """Exercises without a chick that can never move, and with it; a certificate alone has none."""
    at.table(PLAIN, tell=False)
    at.on("Settings", tell=False)
    at.press("no-stuck", tell="with it")
    at.press("draw", until=ASKED, tell="an exercise")
    at.press("no-stuck", tell=False)
    at.press("draw", until=ASKED, tell="without it")
    at.press("answer", tell=False)
    at.js("document.querySelector('#files .close').click()")
    at.wait("!document.querySelector('#files b')", tell=False)
    at.give("loss.cert", tell="a certificate has none")
    at.says()


STORIES = {it.__name__: it for it in (
    practice, practice_ends, practice_left, practice_thinks, ended, practice_try, practice_certificate, exercise, exercise_drawn, exercise_left, exercise_files, worksheet, game, game_certificate, pasted, game_files, repeated, missed, pasted_kifu, stuck)}
