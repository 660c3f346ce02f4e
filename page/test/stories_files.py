"""The stories of the scenes about files: tables, certificates, what is wrong with them, and what is counted of a set."""
PLAIN = ".l./.../.C./.L. - -"
LOSS, DRAWN = ".../..l/.../L.. - c", ".../l../.../L.C - -"
COUNTED = "document.querySelector('#glance[aria-busy=false] #glance-of:not([hidden])')"
# A worker that says nothing but what it is told to say.
STUB = """(() => {
  const Real = Worker;
  window.works = [];
  window.Worker = class {
    constructor(address) { this.real = new Real(address); this.real.onmessage = (event) => { this.kept = [...(this.kept || []), event]; if (window.isGiven) this.give(); }; window.works.push(this); }
    postMessage(about) { this.real.postMessage(about); }
    terminate() { this.real.terminate(); this.isEnded = true; }
    give(most = Infinity) { for (const event of this.kept.splice(0, most)) this.onmessage(event); }
    say(part, wait) { this.onmessage({ data: { part, wait } }); }
  };
})()"""


def file_names(at):
    """Several files are open: a menu, one is closed, one takes the place of another."""
    at.open(tell=False)
    at.give("lions_alone.db", tell="a file of format 1")
    at.give("100A", "100B", "loss.cert")
    at.on("4 files open", within="header")
    at.enter(PLAIN)
    at.run("document.querySelectorAll('#files .close')[1].click()", until="document.querySelectorAll('#files b').length === 3", tell="the second is closed")
    at.enter("..l/.../L../... CC eegg", tell="a position of another set")
    at.says()
    at.give("000A")
    at.run("document.querySelector('#files .close').click()", until="document.querySelectorAll('#files b').length === 2", tell=False)
    at.run("document.querySelector('#files .close').click()", until="document.querySelectorAll('#files b').length === 1", tell="one is left")
    at.run("document.querySelector('#files .close').click()", until="!document.querySelector('#files b')", tell="none is left")


def closed(at):
    """The one file that is open is closed: its value, its exercises and the strip go."""
    at.table(PLAIN, tell=False)
    at.play("Cb2-b3", tell="a move was played by the table")
    at.focus("#files .close")
    at.key("Enter", until="!document.querySelector('#files b')", tell="it is closed")
    at.press("start")
    at.give("100A", tell="it is open again")
    at.give("000A", "100B", tell=False)
    at.on("3 files open", within="header", tell=False)
    at.focus("#files p:nth-child(2) .close")
    at.key("Enter", until="document.querySelectorAll('#files b').length === 2", tell="the second of three is closed, and the focus is on the next one")
    at.key("Enter", until="document.querySelectorAll('#files b').length === 1", tell="then on the one that is left")
    at.key("Enter", until="!document.querySelector('#files b')", tell="and where none is left, on what opens a file")


def starts(at):
    """What is on the board when a file is opened: its first position, unless something was played or set up."""
    at.open(tell=False)
    at.give("000A", tell="a table's first position")
    at.press("start")
    at.open(tell=False)
    at.give("giraffes.db", tell="that of a set with two of a kind")
    at.open(tell=False)
    at.give("loss.cert", tell="a certificate's position")
    at.enter(PLAIN, tell=False)
    at.press("start", tell="Start goes to it")
    at.give("100B", tell="another file leaves the board")
    at.open(tell=False)
    at.give("stuck.cert", tell="a certificate of the game's set, and not of its beginning")


def refused(at):
    """Spoilt tables, each with its fault, beside a good one."""
    at.table(PLAIN, tell=False)
    names = [f"{name}.db" for name in ("empty", "short", "cut", "title", "set", "rules", "classes", "other_set", "longer", "record", "digest")]
    at.give(*names, tell="eleven files that are refused")
    at.says()
    at.give("000A", "cut.db", "title.db")
    at.give("100B")


def digests(at):
    """A file of a megabyte and a half: its digest is tested, and with one byte changed it is refused."""
    at.open(tell=False)
    at.give("draws.db", tell="it is open")
    at.give("draws_spoilt.db", tell="a byte of it is another one")


def refused_certificates(at):
    """Spoilt certificates, each with its fault."""
    at.table(PLAIN, tell=False)
    names = [f"{name}.cert" for name in ("version", "set", "columns", "rules", "root", "claim", "claim_255", "count", "held", "told_exact", "shorter", "win_sooner", "win_later", "draw_won", "draw_lost", "entry", "short", "half", "longer", "digest", "number", "order", "plies")]
    at.give(*names, tell="certificates that are refused")
    at.says()


def broken(at):
    """Tables whose records don't follow from each other, and one whose line breaks."""
    at.open(tell=False)
    at.give("losses.db", tell=False)
    at.enter(PLAIN, tell="each record is a loss")
    at.says()
    at.give("wins.db", tell=False)
    at.enter(PLAIN, tell="each record is a win")
    at.give("line.db", tell=False)
    at.enter(PLAIN, tell="a line that breaks")
    at.language("ja")
    at.give("000A", tell=False)
    at.language("en", tell="a broken one among others")
    at.give("100A", tell="the whole one in its place")


def lost(at):
    """A file that is cut while it is open."""
    at.open(tell=False)
    path = at.files["lost.db"]
    path.write_bytes((at.files["100A"]).read_bytes())
    at.pick("lost.db", tell=False)
    at.enter(PLAIN, tell=False)
    path.write_bytes(b"DOBUTSU2")
    at.enter(".l./.../.C./..L - -", tell="it can't be read any more")
    at.press("draw", until="!/Drawing/.test(document.getElementById('task').textContent)", tell="nor for an exercise")
    at.says()
    at.run("document.querySelector('#glance summary').click()", until="document.querySelector('#glance[aria-busy=false]')", tell="nor counted")
    at.give("100A", tell="a whole one is opened")
    at.run("Blob.prototype.arrayBuffer = ((real) => async function () { return (await real.call(this)).slice(1); })(Blob.prototype.arrayBuffer)", tell=False)
    at.enter("l../.../.C./.L. - -", tell=False)
    at.tell("less of it is read than was asked for", False)
    at.enter(".l./.../.C./..L - -", tell=False)
    at.run("Blob.prototype.arrayBuffer = async () => { throw new Error('as planted'); }", tell=False)
    at.give("000A", tell="a file of which nothing can be read")
    at.says()


def slow(at):
    """A disk that is slow: what is looked up says so, and what comes late is dropped."""
    at.table(PLAIN, tell=False)
    at.run("""(() => {
      const table = Files.last(), bytes = table.bytes.bind(table);
      table.kept.clear();
      window.waiting = [];
      table.bytes = async (...about) => { if (!window.isQuick) await new Promise((done) => window.waiting.push(done)); return bytes(...about); };
    })()""", tell=False)
    at.js("document.querySelector('#moves button').click(); Scene.pass()")
    at.tell("it is looked up", False)
    for name in ("ja", "kana"):
        at.js(f"document.getElementById({'language' if name == 'ja' else 'kana'!r}).click(); Scene.pass()")
        at.tell(f"in {name}", False)
    at.js("document.getElementById('language').click()")
    at.js("window.isQuick = true")
    at.enter(LOSS, tell="another position meanwhile")
    at.js("window.waiting.splice(0).forEach((done) => done())")
    at.js("new Promise((done) => setTimeout(done, 60))")
    at.tell("what comes late is dropped")
    at.js("Answers.bestLine = ((real) => (table, engine, position, isLate, tell) => { window.tellPart = tell; return window.isHeld ? new Promise((done) => { window.giveLine = done; }) : real(table, engine, position, isLate, tell); })(Answers.bestLine); window.isHeld = true")
    at.js("Scene.enter('.l./.../.C./.L. - -')")
    at.browser.wait("!!window.tellPart && document.querySelector('#value b').textContent === 'win 5'")
    at.js("window.tellPart({ steps: [{ position: Game.now().position, move: Game.moves().moves[0] }], end: 'going' })")
    at.tell("a part of a line", False)
    at.js("window.isHeld = false; window.late = window.tellPart; window.lateSteps = [{ position: Game.now().position, move: Game.moves().moves[0] }]")
    at.enter(DRAWN, tell="a draw meanwhile")
    at.js("window.late({ steps: window.lateSteps, end: 'going' }); window.giveLine({ steps: window.lateSteps, end: 'caught' })")
    at.js("new Promise((done) => setTimeout(done, 60))")
    at.tell("a late line is dropped")
    at.js("Answers.judge = ((real) => async (...about) => { window.judging = (window.judging || 0) + 1; await new Promise((done) => { window.judged = done; }); return real(...about); })(Answers.judge)")
    at.js("document.querySelector('#moves button').click()")
    at.browser.wait("window.judging > 0")
    at.js("document.querySelector('#files .close').click()")
    at.wait("true", tell=False)
    at.js("window.judged(); new Promise((done) => setTimeout(done, 60))")
    at.tell("the file is closed while a move is judged")


def opening(at):
    """A file is opened: what is told meanwhile, without a digest where the browser has none, and dropped on the page."""
    at.open(tell=False, before="0")
    at.js("window.held = []; Blob.prototype.arrayBuffer = ((real) => async function () { await new Promise((done) => window.held.push(done)); return real.call(this); })(Blob.prototype.arrayBuffer)")
    read = at.js(f"""(async () => {{
      const data = new DataTransfer(), {{ name, base64 }} = {at.file("100A")};
      data.items.add(new File([Uint8Array.from(atob(base64), (sign) => sign.charCodeAt(0))], name));
      document.getElementById('file').files = data.files;
      document.getElementById('file').dispatchEvent(new Event('change'));
      for (let i = 0; i < 99; i++) await null;
      return window.held.length;
    }})()""")
    at.out.append(f"== of a file {read} parts are read before its line can be seen")
    at.tell("it is opened")
    at.says()
    at.js("setInterval(() => window.held.splice(0).forEach((done) => done()), 5)")
    at.wait('Scene.filesTold()', tell=False)
    at.tell("it is open")
    at.js("Object.defineProperty(crypto, 'subtle', { value: undefined })")
    at.give("100B", tell="where there is no digest")
    at.js("dispatchEvent(new DragEvent('dragover', { bubbles: true, cancelable: true }))")
    at.tell("a file is dragged over the page")
    at.language("ja")
    at.language("kana")
    at.language("en", tell=False)
    at.js("dispatchEvent(new DragEvent('dragleave', { bubbles: true, cancelable: true, relatedTarget: document.body }))")
    at.tell("over an element of it")
    at.js("dispatchEvent(new DragEvent('dragleave', { bubbles: true, cancelable: true }))")
    at.tell("and away")
    at.js("dispatchEvent(new DragEvent('dragover', { bubbles: true, cancelable: true }))")
    at.js("(() => { const dataTransfer = new DataTransfer(); dataTransfer.items.add(new File(['no table'], 'dropped.db')); document.getElementById('files').textContent = ''; dispatchEvent(new DragEvent('drop', { dataTransfer, bubbles: true, cancelable: true })); })()")
    at.wait('Scene.filesTold()', tell=False)
    at.tell("it is dropped")


def checking(at):
    """A certificate while it is checked: how far that is, what stops it, the page goes on; then it is open."""
    at.table(PLAIN, tell=False, before=STUB)
    at.browser.give_files("#file", at.files["loss.cert"])
    at.browser.wait("window.works.length && window.works[0].kept && window.works[0].kept.length > 0")
    at.js("window.works[0].give(1); window.works[0].say(0.31, 1e9)")
    at.wait("/31/.test(document.getElementById('files').textContent)", tell=False)
    at.tell("a third is checked")
    at.play("Lb1-a2", tell="the page goes on")
    at.says()
    at.js("window.works[0].say(0.31, 1)")
    at.wait("/97/.test(document.getElementById('files').textContent)", tell="the rest takes longer than was thought")
    at.focus("#files .work button")
    at.js("document.querySelector('#files .work button').click()")
    at.wait('Scene.filesTold()', tell=False)
    at.tell("it is stopped")
    at.js("window.isGiven = true; document.getElementById('files').textContent = ''")
    at.give("loss.cert", tell="once more, to its end")
    broken = "window.Worker = class { constructor() { setTimeout(() => { %s this.onerror(new ErrorEvent('error', { message: 'as planted', cancelable: true })); }); } postMessage() {} terminate() {} }"
    at.js(broken % "this.onmessage({ data: { part: 0.5 } });")
    at.give("win_within.cert", tell="a worker breaks off")
    at.js(broken % "")
    at.give("win_within.cert", tell="where a worker can't begin the page checks")
    at.js("window.Worker = function () { throw new Error('there is none'); }")
    at.give("win.cert", tell="where there is no worker the page checks")
    at.js("Certificates.limits.here = 10")
    at.give("draw.cert", tell="a large one isn't checked then")
    at.says()


def checking_alone(at):
    """A certificate is checked while no file has the position: its values come then."""
    at.open(tell=False, before=STUB)
    at.enter(LOSS, tell=False)
    at.browser.give_files("#file", at.files["loss.cert"])
    at.browser.wait("window.works.length && window.works[0].kept && window.works[0].kept.length > 0")
    at.js("window.works[0].give(1); window.works[0].say(0.42, 1e9)")
    at.wait("/42/.test(document.getElementById('files').textContent)", tell="it is checked")
    at.says()
    at.enter(PLAIN, tell="another position of its set")
    at.enter("..l/.../L../... EG cc", tell="another set")
    at.enter(LOSS, tell=False)
    at.press("hide", tell="values are hidden meanwhile")
    at.press("hide", tell=False)
    at.js("window.isGiven = true; window.works[0].give()")
    at.wait("Scene.filesTold()", tell="its values are there")


def certificate(at):
    """A certificate that says who loses: replies, a line that isn't called best, bounds; a position outside."""
    at.open(tell=False)
    at.give("lost.cert", tell=False)
    at.enter(LOSS, tell="the position of its claim")
    at.says()
    at.on("La1-", within="#moves")
    at.press("next")
    at.choose("measure", "moves")
    at.choose("measure", "plies", tell=False)
    at.enter(".../.../..l/L.. - c", tell="a loss in two plies")
    at.enter(PLAIN, tell="a position of the list's winner")
    at.click("b1")
    at.key("Escape", tell=False)
    at.play("Cb2-b3", tell="a move of which it says nothing, or not that it wins")
    at.enter(DRAWN, tell="outside")
    at.says()
    at.press("hide")
    at.press("hide", tell=False)
    at.give("100A", tell="a table of the same set comes first")
    at.paper()


def claims(at):
    """Certificates of each kind of claim."""
    at.open(tell=False)
    for name, text in (("loss.cert", LOSS), ("loss_within.cert", LOSS), ("win.cert", PLAIN), ("win_within.cert", PLAIN), ("draw.cert", DRAWN), ("stuck.cert", "GEl/LGE/CC./... - -")):
        at.give(name, tell=False)
        at.enter(text, tell=name)
    at.give("loose.cert", tell="a bound that its moves better")
    at.press("start")
    at.press("hide")
    at.says()


def whole_game(at):
    """The certificate of the whole game, not checked here: the second player wins; each move keeps that within a bound."""
    at.open(tell=False, before="Certificates.limits.checked = 10")
    at.give("222_A.cert", tell="the start")
    at.play("Cb2xb3")
    at.choose("measure", "moves")
    at.language("ja")
    at.choose("measure", "plies", tell=False)
    at.language("kana")
    at.language("en", tell=False)
    at.press("next")
    at.press("copy-game")


def glance_file(at):
    """The set at a glance, of an open file: counts, the chart, the longest win and loss, zugzwangs, positions that one move saves."""
    at.table(PLAIN, tell=False)
    at.run("document.querySelector('#glance summary').click()", until=COUNTED, tell="the card is open")
    at.press("glance-more")
    at.press("glance-less", tell=False)
    at.press("glance-less")
    at.press("glance-show", until=COUNTED)
    at.on("The longest win", until=COUNTED)
    at.on("The longest loss", until=COUNTED)
    at.on("A zugzwang", until=COUNTED)
    at.on("A position that one move", until=COUNTED)
    at.choose("measure", "moves")
    at.says()
    at.js("(() => { const box = document.getElementById('glance-chart').getBoundingClientRect(); document.getElementById('glance-chart').dispatchEvent(new MouseEvent('click', { clientX: box.left + box.width * .62, bubbles: true })); })()")
    at.tell("a click into the chart")
    at.js("(() => { const box = document.getElementById('glance-chart').getBoundingClientRect(); document.getElementById('glance-chart').dispatchEvent(new MouseEvent('click', { clientX: box.right - 1, bubbles: true })); })()")
    at.tell("a click at its end")
    at.give("000A", tell=False)
    at.wait(COUNTED, tell="another file")
    at.on("A position that one move", until=COUNTED)
    at.give("100B", tell=False)
    at.wait(COUNTED, tell="a file by rules B")
    at.choose("glance-set", "100A", until=COUNTED)
    at.js("document.querySelector('#files .close').click()")
    at.wait(COUNTED, tell=False)
    at.tell("a file is closed")


def glance_game(at):
    """The whole game at a glance, by both rules, without a file."""
    at.open(tell=False)
    at.run("document.querySelector('#glance summary').click()", until=COUNTED, tell="by rules A")
    at.press("glance-less")
    at.press("glance-more", tell=False)
    at.on("The longest win")
    at.on("The longest loss")
    at.on("The deepest zugzwang")
    at.says()
    at.on("After ")
    at.choose("glance-set", "B", until=COUNTED)
    at.on("The longest win")
    at.on("After ")
    at.says()


def glance_slow(at):
    """A set is counted slowly: how far, a later choice comes first, a large file isn't counted, a lost one says so."""
    at.table(PLAIN, tell=False, before="Glance.limits.classes = 3000")
    at.js("(() => { const table = Files.last(), records = table.records.bind(table); table.records = async (...about) => { await new Promise((done) => { window.go = done; }); return records(...about); }; })()")
    at.js("document.querySelector('#glance summary').click()")
    at.browser.wait("!!window.go")
    at.tell("it is counted")
    at.choose("glance-set", "A", until=COUNTED, tell="the whole game meanwhile")
    at.js("window.go(); new Promise((done) => setTimeout(done, 80))")
    at.tell("what was counted late isn't shown")
    at.js("Glance.limits.classes = 1000")
    at.give("000A", tell=False)
    at.wait(COUNTED, tell=False)
    at.tell("a large file isn't counted")
    at.says()


def glance_large(at):
    """A file of 24 MB is counted as a small one is."""
    at.open(tell=False)
    at.pick("large.db", tell=False)
    at.run("document.querySelector('#glance summary').click()", until=COUNTED, tell="it is counted")
    at.on("The longest loss")


def glance_counted(at):
    """A set is counted in slices, between which it is told how far that is."""
    at.table(PLAIN, tell=False)
    at.js("performance.now = ((at) => () => (at += 0.6))(0)")  # a slice is so many classes, however quick the machine is
    at.js("window.told = []; new MutationObserver(() => window.told.push(document.getElementById('glance-told').textContent)).observe(document.getElementById('glance-told'), { childList: true })")
    for name in ("en", "ja", "kana"):
        at.language(name, tell=False)
        at.give("100A", tell=False)
        at.js("window.told.length = 0")
        at.run("document.getElementById('glance').open = true", until=COUNTED, tell=False)
        at.out += [f"== told on the way, in {name}", *at.js("window.told.map((it) => `  ${it}`)")]
        at.stop_early()
        at.run("document.getElementById('glance').open = false", tell=False)


STORIES = {it.__name__: it for it in (file_names, closed, starts, refused, digests, refused_certificates, broken, lost, slow, opening, checking, checking_alone, certificate, claims, whole_game, glance_file, glance_game, glance_slow, glance_counted, glance_large)}
