// The page as a whole: it asks the open files about the position on the board, draws what they answer, and takes clicks, keys and files.
(() => {
  const Core = DobutsuCore;
  const { text } = Texts;
  const { options } = View;
  const SLOW = 120, PATIENCE = 3000; // milliseconds until a look-up is called slow, and until an engine that says nothing is given up
  const element = (id) => document.getElementById(id);

  let chosen = null; // the place that is chosen on the board
  let found = null; // what the file says of the position that is shown
  let line = null; // its best line
  let turn = 0; // what is looked up for an earlier position is dropped
  let slow = null; // the timer behind which a look-up is called slow
  let replying = null; // the timer of the page's answer to one who practises
  let playing = null; // the timer of a line that is played out, or `true` until it is set
  let unfit = null; // what is wrong with the position that is being set up
  let isMissing = false; // whether no open file has the position
  let isPeeked = false; // whether values are shown before an exercise or practice has ended
  let wasHidden = false; // whether values were hidden when the files were drawn
  let written = ""; // the address as it was written last
  let given = window.DobutsuFile ? window.DobutsuFile.name : ""; // the file that stands in the page itself, until it is open

  const say = (words) => { element("live").textContent = words; };
  const announce = (what) => document.dispatchEvent(new Event(what)); // to cards that stand on their own
  const isSame = (a, b) => a.letter === b.letter && a.from === b.from && a.to === b.to;
  const seenFrom = (side) => (square) => (side ? 11 - square : square);

  // ---- the board

  function movesOf(place) {
    if (!place || Setup.isOn()) return [];
    const { side } = Game.now(), seen = seenFrom(side);
    const isDrop = ({ letter, from }) => from < 0 && letter === place.hand.toUpperCase(), isStep = ({ from }) => from >= 0 && seen(from) === place.square;
    return Game.legal().filter(place.hand ? isDrop : isStep);
  }
  const drawBoard = Fence.around("boardSection", () => {
    const { cursor, plies } = Game.state, now = Game.now(), seen = seenFrom(now.side), last = cursor ? plies[cursor - 1] : null;
    const valueOf = (move) => { const it = !options.isHidden && found && found.moves.find((other) => isSame(other.move, move)); return it ? it.value : null; };
    Board.draw({
      ...(Setup.isOn() ? Setup.board() : Setup.seen(now)), isOver: now.isOver, isSetUp: Setup.isOn(), inMoves: options.inMoves,
      chosen: Setup.isOn() ? null : chosen,
      last: last && !Setup.isOn() ? [last.move.from, last.move.to].filter((square) => square >= 0).map(seenFrom(1 - last.side)) : [],
      targets: new Map(movesOf(chosen).map((move) => [seen(move.to), valueOf(move)])),
      arrow: bestArrow(seen),
    });
  });
  // Whether a move is known as the best: none is where the value isn't known, or is a loss within a bound.
  const hasBest = ({ value }) => value.kind !== "unknown" && !(value.kind === "loss" && value.isWithin);
  // The squares of the best move, where it is shown by an arrow.
  function bestArrow(seen) {
    const best = found && !options.isHidden && !Setup.isOn() && !chosen && Settings.hasArrow() && hasBest(found) && found.moves[0];
    return best ? [best.move.from, best.move.to].map((square) => (square < 0 ? square : seen(square))) : null;
  }
  // In practice the page makes the other side's moves.
  const isPagesTurn = () => Practice.isOn() && !Practice.isOf(Game.now().side);
  const isOwn = (place) => {
    const { side, isOver } = Game.now(), { squares, hands } = Setup.seen(Game.now());
    if (isOver || isPagesTurn() || place.tool !== undefined) return false;
    const letter = place.hand || squares[place.square];
    return letter !== "." && Core.isOwn(letter) === !side && (!place.hand || hands[side][Core.KINDS.indexOf(letter.toUpperCase())] > 0);
  };
  const isPlace = (a, b) => !!a && !!b && a.square === b.square && a.hand === b.hand;

  function choose(place) {
    stopPlaying();
    if (Setup.isOn()) return Setup.choose(place);
    const move = place.square !== undefined && movesOf(chosen).find((it) => seenFrom(Game.now().side)(it.to) === place.square);
    if (move) return tryMove(move);
    chosen = isOwn(place) && !isPlace(place, chosen) ? place : null;
    drawBoard();
  }
  function drop(from, to) {
    if (Setup.isOn()) return Setup.drop(from, to);
    if (from && to && to.square !== undefined && !isPlace(from, to)) {
      chosen = from;
      const move = movesOf(from).find((it) => seenFrom(Game.now().side)(it.to) === to.square);
      if (move) return tryMove(move);
    }
    chosen = null;
    drawBoard();
  }
  const onBoard = (act) => Fence.around("boardSection", act);
  const boardCalls = {
    choose: onBoard(choose), drop: onBoard(drop),
    mayDrag: (place) => (Setup.isOn() ? Setup.mayDrag(place) : isOwn(place)),
    lift: onBoard((place) => { stopPlaying(); if (!Setup.isOn()) { chosen = place; drawBoard(); } }),
    press: onBoard((place, key) => Setup.isOn() && Setup.press(place, key)),
  };

  // ---- moves

  // Whether in practice a certificate says nothing of a move.
  const isOutside = (move) => found.status === "open" && !found.moves.find((it) => isSame(it.move, move)).value;
  // A move of the reader: it is played, unless it is a wrong answer to an exercise, or in practice one of which nothing is known, or the page's to make.
  function tryMove(move) {
    stopPlaying();
    if (isPagesTurn() || (Practice.isOn() && !found)) return;
    if (Practice.isOn() && isOutside(move)) {
      chosen = null;
      const { position, side } = Game.now(), words = (it) => () => Notation.shown(position, it, side);
      Practice.sayOutside(found.value.kind === "win" && words(found.moves[0].move), words(move));
      if (options.isHidden) View.tellNone(Practice.told());
      drawControls();
      return drawBoard();
    }
    Practice.forget();
    if (Exercise.isAsked()) {
      const tried = found && found.moves.find((it) => isSame(it.move, move));
      if (!tried) return;
      chosen = null;
      if (!Exercise.judge({ move, value: tried.value })) {
        if (options.isHidden) View.tellNone(Exercise.told());
        return drawBoard();
      }
    }
    playOne(move);
    refresh();
  }
  function playOne(move) {
    const { position, side } = Game.now();
    say(`${text("sides")[side]}: ${Notation.shown(position, move, side)}`);
    chosen = null;
    Game.play(move);
  }
  function playSteps(steps) {
    stopPlaying();
    if (isPagesTurn()) return;
    for (const { move } of steps) playOne(move);
    refresh();
  }
  function stopPlaying() {
    clearTimeout(playing);
    playing = null;
    drawControls();
  }
  function step() {
    if (!line || !line.steps.length) return stopPlaying();
    playOne(line.steps[0].move);
    refresh();
  }
  // Goes to that number of plies of the game, or of a line of it that was left.
  function goTo(cursor, line = Game.state.plies) {
    stopPlaying();
    Practice.forget();
    chosen = null;
    if (line !== Game.state.plies) Game.take(line);
    Game.goTo(cursor);
    refresh();
  }
  // One who practises takes the page's answer back with their own move.
  const goBack = () => goTo(Game.state.cursor - (Practice.isOf(Game.now().side) && Game.state.cursor > 1 ? 2 : 1));
  const canStep = () => !!line && line.steps.length > 0 && !options.isHidden && !Setup.isOn() && !isPagesTurn();

  // ---- what is shown of the position

  // A button that means nothing now keeps the focus, since it may mean something again after a look-up.
  const enable = (name, isEnabled) => element(name).setAttribute("aria-disabled", !isEnabled);
  const isEnabled = (name) => element(name).getAttribute("aria-disabled") !== "true" && !element(name).disabled;
  const drawControls = Fence.around("page", () => {
    const { cursor, plies } = Game.state, isOn = Setup.isOn();
    enable("undo", !isOn && cursor > 0);
    enable("redo", !isOn && cursor < plies.length);
    element("edit").setAttribute("aria-pressed", isOn);
    element("edit").disabled = isOn && !!unfit;
    element("editor-fault").textContent = isOn && unfit ? Texts.wrong(unfit) : "";
    element("edit").textContent = text(isOn ? "done" : "setUp");
    element("hide").setAttribute("aria-pressed", options.isHidden);
    element("hide").textContent = text(options.isHidden ? "showValues" : "hideValues");
    enable("next", canStep());
    enable("play", canStep() || !!playing);
    element("play").textContent = text(playing ? "stop" : "playOut");
    element("play").setAttribute("aria-pressed", !!playing);
    element("rules").value = Game.state.profile;
    if (document.body.classList.toggle("hiding", options.isHidden) !== wasHidden) drawFiles(); // a certificate's claim is hidden too
    wasHidden = options.isHidden;
    document.body.classList.toggle("in-moves", options.inMoves);
    document.body.classList.toggle("setting-up", isOn);
    Fence.keep("practise", () => Practice.draw());
  });
  function drawRecord() {
    const { plies, cursor } = Game.state;
    Fence.keep("played", () => View.drawRecord(plies, cursor, Fence.around("played", goTo)));
    Fence.keep("analysis", () => View.drawJudged(cursor && !Setup.isOn() ? plies[cursor - 1] : null, Game.times()[cursor]));
    announce("record");
  }
  const tellNone = Fence.around("value", (words) => View.tellNone(words)), tellNoLine = Fence.around("line", (words) => View.tellLine(words));
  const tellNothing = (words) => {
    tellNone(words);
    tellNoLine("");
  };
  const unvaluedMoves = () => Game.moves().moves.map((move, order) => ({ move, order, value: null }));
  // A move of a list or a line is of the position that it was drawn for: a later click on it does nothing.
  const ofThisTurn = (act) => {
    const mine = turn;
    return (about) => { if (mine === turn) act(about); };
  };
  const drawMoves = Fence.around("movesWait", (list) => View.drawMoves(list, Game.now(), ofThisTurn(Fence.around("movesWait", tryMove))));

  const overWords = ({ side, winner }) => text(winner === side ? "overHome" : "over", text("sides")[winner]);
  // Why there is no value: no open file has the position, or a certificate of its set is checked still, or the page's own file isn't open yet.
  function tellMissing() {
    const { profile } = Game.state, { position } = Game.now(), set = Core.setOf(position).join(""), work = Files.work(), isChecked = !!work?.claim && work.claim.set === set;
    const isClaimed = isChecked && work.claim.profile === profile && Game.engine().classOf(profile, position) === work.claim.root;
    const open = Files.all().map((it) => `${it.name} (${it.set}, ${it.profile})`);
    element("value").setAttribute("aria-busy", isChecked); // not each percent is read out
    tellNothing(isChecked ? text("checkingValue", View.percentOf(work), isClaimed ? View.claimWords(work) : "") : given ? text("opening", given) : open.length ? text("otherSet", set, profile, open) : text("openSet", set));
  }
  // Looks the position up and shows what was found, or why nothing is; what comes too late is dropped.
  async function tell(isLate) {
    const { position, side, isOver } = Game.now(), { profile } = Game.state, table = Files.tableFor(profile, position);
    View.headLine(!!table && table.isCertificate);
    if (isOver) { drawMoves([]); return tellNothing(overWords(Game.now())); }
    if (!Core.isAllowed(profile, position)) throw new Core.Fault("E26 FarChick");
    if (!table) {
      isMissing = true;
      drawMoves(unvaluedMoves());
      return tellMissing();
    }
    const answer = await Answers.lookUp(table, Game.engine(), position);
    if (isLate()) return;
    clearTimeout(slow);
    found = answer;
    const wasBroken = table.isBroken;
    if (!found.follows) table.isBroken = true;
    drawBoard();
    drawMoves(found.moves);
    if (options.isHidden) {
      tellNone(Exercise.isAsked() ? Exercise.told() : Practice.told() || text("hidden"));
      tellNoLine(text("hiddenShort"));
    } else if (found.value.kind === "unknown") tellNothing(text("outside"));
    else {
      Fence.keep("value", () => View.drawValue(found, side));
      await tellLine(table, position, side, isLate);
    }
    if (table.isBroken !== wasBroken) drawFiles();
  }
  // What each move that was played was worth, where a file knows; then the lists say it.
  async function judgePlayed(isLate) {
    for (const line of [Game.state.plies, ...Game.state.lines]) await judgeLine(line, isLate);
    if (!isLate()) drawRecord();
  }
  async function judgeLine(line, isLate) {
    const { profile, start } = Game.state;
    let position = Core.readPosition(start);
    for (const ply of line) {
      const table = Files.tableFor(profile, position);
      if (ply.judgedBy !== table) {
        const isKnown = table && Game.isMove(profile, position, ply.move); // by rules B a move of rules A may be none
        const judged = isKnown ? await Answers.judge(table, Game.engine(), position, ply.move) : null;
        if (isLate()) return;
        Object.assign(ply, { judged, judgedBy: table });
      }
      ({ position } = ply);
    }
  }
  // In practice the page answers, after a moment.
  function answer() {
    if (!Practice.isOn()) return;
    const { cursor, plies } = Game.state, move = Practice.answer(Game.now(), cursor, found, plies[cursor - 1]);
    if (move) replying = setTimeout(Fence.around("practise", () => { playOne(move); refresh(); }), Settings.pace() / 2);
    else if (!Practice.isOn()) refresh();
  }
  async function tellLine(table, position, side, isLate) {
    if (found.value.kind === "draw") return tellNoLine(text("drawLine"));
    const play = ofThisTurn(Fence.around("line", playSteps)), drawn = Fence.around("line", (it) => { if (!isLate()) View.drawLine(it, side, play); });
    const best = await Answers.bestLine(table, Game.engine(), position, isLate, drawn);
    if (!best || isLate()) return;
    line = best;
    if (best.end === "broken") table.isBroken = true;
    drawn(best);
  }
  // An exercise and practice hide values until they end, unless their reader shows them; else it is as the reader chose.
  const isAsking = () => Practice.isOn() || Exercise.isOpen();
  async function refresh() {
    const mine = ++turn, isLate = () => mine !== turn;
    for (const timer of [replying, slow, playing]) clearTimeout(timer); // a line that is played out goes on behind this
    slow = setTimeout(() => { drawMoves([]); tellNothing(text("looking")); }, SLOW);
    document.documentElement.dataset.busy = "1";
    found = line = null;
    isMissing = false;
    element("value").setAttribute("aria-busy", false);
    Fence.keep("exercise", () => Exercise.draw());
    options.isHidden = isAsking() ? !isPeeked : Settings.hides();
    drawBoard();
    Fence.keep("setUpSection", () => Setup.draw());
    drawControls();
    drawRecord();
    try {
      if (Setup.isOn() && unfit) throw unfit;
      writePosition();
      await tell(isLate);
      if (isLate()) return;
      clearTimeout(slow); // what was told stays, however long the moves before it are looked up
      await judgePlayed(isLate);
    } catch (fault) {
      if (!isLate()) { drawMoves([]); tellNothing(Setup.isOn() ? text("noPosition") : Texts.wrong(fault)); }
    }
    if (isLate()) return;
    clearTimeout(slow);
    if (playing) playing = canStep() ? setTimeout(Fence.around("playOut", step), Settings.pace()) : null;
    Fence.keep("practise", answer);
    if (isLate()) return;
    drawControls();
    document.documentElement.dataset.busy = "";
  }

  // ---- the position's text and the address

  function writePosition() {
    const { position, side, isOver } = Game.now();
    const words = isOver ? "" : Core.writePosition(position);
    element("caption").replaceChildren(...(isOver ? [overWords(Game.now())] : [`${text("caption", text("sides")[side])}: `, View.node("span", words, "whole")]));
    if (document.activeElement !== element("text")) element("text").value = words;
    element("text-fault").textContent = "";
    written = Game.address();
    try { history.replaceState(null, "", written); } catch { location.replace(written); }
  }
  // A text that is typed or pasted, or a whole link.
  function readText() {
    const words = element("text").value.trim().replace(/\s+/g, " ");
    if (words.includes("#")) return void readAddress(words.slice(words.indexOf("#")));
    try {
      const position = Core.readPosition(words);
      if (!Core.isAllowed(Game.state.profile, position)) throw new Core.Fault("E26 FarChick");
      Setup.end();
      begin(words);
    } catch (fault) {
      element("text-fault").textContent = Texts.wrong(fault);
    }
  }
  function leaveText() {
    const { position, isOver } = Game.now();
    if (!element("text-fault").textContent && !isOver) element("text").value = Core.writePosition(position);
  }
  function begin(start, side = 0) {
    stopPlaying();
    Practice.stop();
    chosen = null;
    Game.load(start, side);
    return refresh();
  }
  // Puts a game on the board by a call that loads it.
  function restart(load) {
    stopPlaying();
    Setup.end();
    Practice.stop();
    chosen = null;
    load();
    return refresh();
  }
  async function copy(words, button) {
    let isDone = true;
    try { await navigator.clipboard.writeText(words); } catch {
      const area = document.createElement("textarea");
      area.value = words;
      document.body.append(area);
      area.select();
      isDone = document.execCommand("copy");
      area.remove();
    }
    button.textContent = text(isDone ? "copied" : "notCopied");
    setTimeout(() => { button.textContent = text(button.dataset.text); }, SLOW * 10);
  }

  // ---- setting up

  function setUpChanged() {
    unfit = null;
    try {
      const position = Setup.position();
      Core.check(position);
      if (!Core.isAllowed(Game.state.profile, position)) throw new Core.Fault("E26 FarChick");
      Game.load(Core.writePosition(position), Setup.board().side);
    } catch (fault) { unfit = fault; }
    refresh();
  }
  // Goes over to other rules: what is practised or played out ends, since another move may be the best one by them.
  function chooseRules() {
    Game.state.profile = element("rules").value;
    stopPlaying();
    Practice.stop();
    chosen = null;
    if (Setup.isOn()) setUpChanged();
    else refresh();
  }
  function toggleSetUp() {
    if (element("edit").disabled) return;
    stopPlaying();
    Practice.stop();
    chosen = unfit = null;
    if (Setup.isOn()) Setup.end();
    else Setup.begin(Game.now().isOver ? { position: Core.readPosition(Game.state.start), side: Game.state.side } : Game.now());
    refresh();
    if (Setup.isOn()) element("editor").scrollIntoView({ block: "nearest" });
  }

  // ---- files

  const offer = Fence.around("exercise", () => Exercise.offer());
  const drawFiles = Fence.around("open", () => View.drawFiles(Fence.around("open", closeFile)));
  async function closeFile(table) {
    stopPlaying();
    Files.close(table);
    Exercise.end(table);
    drawFiles();
    await refresh();
    await offer();
  }
  // A first position of a file: of a certificate that of its claim, unless it is the starting layout's or its mirror image's.
  function startOf(file) {
    const start = Game.startOf(file.pieces);
    return file.isCertificate && Game.engine().classOf(file.profile, Core.readPosition(start)) !== file.root ? Core.writePosition(file.position()) : start;
  }
  // Opens tables and certificates, then the last of the games, so that they judge it.
  async function openFiles(files) {
    const games = [], others = [];
    for (const file of files) {
      const words = await GameText.textOf(file);
      if (words === null) others.push(file);
      else games.push({ name: file.name, words });
    }
    if (others.length) await openTables(others);
    for (const { name, words } of games.slice(-1)) await Mistakes.takeFile(name, words);
  }
  async function openTables(files) {
    stopPlaying();
    const tellWork = (work) => {
      View.tellWork(work, drawFiles);
      if (isMissing) tellMissing();
      Fence.keep("exercise", () => Exercise.draw());
    };
    const clock = setInterval(() => { if (Files.work()) tellWork(Files.work()); }, SLOW * 5);
    const last = await Files.openAll(files, Game.engine(), tellWork).finally(() => { clearInterval(clock); given = ""; });
    const isUntouched = Game.state.start === Game.START && !Game.state.plies.length && !Setup.isOn();
    if (last) {
      Answers.forget();
      if (!Practice.isOn() && !Exercise.isAsked()) Game.state.profile = last.profile; // a certificate may take a minute, and its reader goes on
      if (isUntouched && !Files.tableFor(last.profile, Game.now().position)) Game.load(startOf(last));
    }
    drawFiles();
    await refresh();
    await offer();
    if (last) Exercise.chooseLast();
    await offer();
  }

  // ---- exercises

  async function drawExercise() {
    if (element("draw").disabled) return;
    stopPlaying();
    const drawn = await Exercise.drawOne();
    if (!drawn) return say(element("task").textContent);
    Setup.end();
    Game.state.profile = drawn.profile;
    isPeeked = false;
    await begin(drawn.start);
    bringBoard();
    Board.takeFocus();
  }
  // Scrolls to the board and what is said of it, whichever stands above the other, where that isn't in view.
  function bringBoard() {
    const top = (name) => element(name).getBoundingClientRect().top, first = top("value-card") < top("table") ? "value-card" : "table";
    if (top(first) < 0) element(first).scrollIntoView();
  }
  // Begins to practise from the position on the board, where its side wins by the file; or stops.
  async function practise() {
    stopPlaying();
    if (Practice.isOn()) Practice.stop();
    else if (found && found.value.kind === "win" && !Setup.isOn()) {
      Exercise.leave();
      Practice.begin(Game.now(), Game.state.cursor);
      isPeeked = false;
    } else Practice.refuse();
    await refresh();
    if (Practice.isOn()) bringBoard();
  }
  async function printSheet() {
    if (!await Exercise.makeSheet()) return;
    document.body.classList.add("sheet");
    window.print();
  }
  // A phone's browser comes back from it before it prints: only its event says that the sheet isn't needed any more.
  const endSheet = () => document.body.classList.remove("sheet");

  // ---- what the reader asks for

  function drawLanguage() {
    const { isProved, started } = Game.engine();
    const what = text(isProved ? "engineProved" : "engineScript");
    element("engine").textContent = text("engine", what, started);
    element("badge").title = what;
    element("badge").textContent = text(isProved ? "badgeProved" : "badgeScript");
    element("badge").className = isProved ? "proved" : "script";
    drawFiles();
    Fence.draw();
    return offer();
  }
  function showChoices() {
    drawLanguage();
    refresh();
  }

  function hideOrShow() {
    const { isHidden } = options;
    stopPlaying();
    if (isHidden) Exercise.count();
    if (isAsking()) isPeeked = isHidden;
    else Settings.hideValues(!isHidden);
    refresh();
  }
  const acts = {
    undo: goBack,
    redo: () => goTo(Game.state.cursor + 1),
    flip: () => { Board.flip(); drawBoard(); },
    edit: toggleSetUp,
    start: () => { Setup.end(); begin(Files.last() ? startOf(Files.last()) : Game.START); },
    hide: hideOrShow,
    next: () => { stopPlaying(); step(); },
    play: () => { if (playing) stopPlaying(); else { Practice.stop(); playing = true; step(); } },
    draw: drawExercise,
    answer: () => { Exercise.answer(); refresh(); },
    practise, worksheet: printSheet,
    print: () => { endSheet(); window.print(); },
    copy: () => copy(element("text").value, element("copy")),
    link: () => copy(location.href.split("#")[0] + Game.address(), element("link")),
    theme: Settings.nextTheme,
    language: () => { Settings.otherLanguage(); showChoices(); },
    kana: () => { Settings.switchKana(); showChoices(); },
    lesson: Lesson.toggle,
    "copy-game": () => copy(Mistakes.gameText(), element("copy-game")),
  };
  const perform = (name) => { if (isEnabled(name)) Fence.keep(element(name).dataset.text || name, acts[name]); };
  const LETTERS = { u: "undo", r: "redo", f: "flip", e: "edit", h: "hide", n: "next", p: "play", x: "draw", c: "lesson" };

  function pressed(event) {
    if (/^(INPUT|SELECT|TEXTAREA)$/.test(event.target.tagName) || event.ctrlKey || event.metaKey || event.altKey) return;
    const arrow = !event.target.closest("#board, .steps") && { ArrowLeft: "undo", ArrowRight: "redo" }[event.key];
    const letter = Settings.hasLetters() && !(Setup.isOn() && "xc".includes(event.key)) && LETTERS[event.key];
    if (arrow || letter) perform(arrow || letter);
    if (event.key === "Escape") { stopPlaying(); chosen = null; drawBoard(); }
  }
  function listen() {
    for (const name of Object.keys(acts)) element(name).addEventListener("click", () => perform(name));
    const on = (target, event, name, act) => target.addEventListener(event, Fence.around(name, act));
    on(element("text"), "input", "position", readText);
    on(element("text"), "blur", "position", leaveText);
    on(element("file"), "change", "open", async () => { await openFiles([...element("file").files]); element("file").value = ""; });
    on(element("exercise-file"), "change", "exercise", () => Exercise.offer());
    on(element("rules"), "change", "rules", chooseRules);
    on(document, "keydown", "letterKeys", pressed);
    addEventListener("afterprint", endSheet);
    on(window, "hashchange", "link", () => { if (location.hash !== written) readAddress(location.hash); });
    addEventListener("dragover", (event) => { event.preventDefault(); element("drop").classList.add("on"); });
    addEventListener("dragleave", (event) => { if (!event.relatedTarget) element("drop").classList.remove("on"); });
    on(window, "drop", "open", (event) => { event.preventDefault(); element("drop").classList.remove("on"); return openFiles([...event.dataTransfer.files]); });
  }

  // Takes the game of an address, or says why it has none or which of its moves is none.
  async function readAddress(hash) {
    let told = "";
    stopPlaying();
    Setup.end();
    Practice.stop();
    chosen = null;
    try {
      const wrong = Game.readAddress(hash);
      if (wrong) told = text("badMove", wrong.word, wrong.number, wrong.why());
    } catch (fault) {
      told = text("badAddress", Texts.wrong(fault));
      if (hash === location.hash) Game.load(Game.START);
    }
    await refresh();
    if (!told) leaveText();
    element("text-fault").textContent = told;
  }

  // The file that stands in the page itself, packed.
  async function openGiven() {
    const { name, bytes } = window.DobutsuFile;
    const packed = new Blob([Uint8Array.from(atob(bytes), (c) => c.charCodeAt(0))]).stream().pipeThrough(new DecompressionStream("gzip"));
    await openFiles([new File([await new Response(packed).arrayBuffer()], name)]);
  }
  // The proved engine where this page has it and it answers soon; else the script engine goes on.
  async function chooseEngine() {
    if (!window.DobutsuWasm) return;
    const since = performance.now(), silence = new Promise((_, fail) => { setTimeout(() => fail(new Error("it doesn't answer")), PATIENCE); });
    try {
      const proved = await Promise.race([window.DobutsuWasm.open(Core), silence]);
      Game.useEngine({ ...Core.engine, ...proved, isProved: true, started: Math.ceil(performance.now() - since) });
    } catch (why) {
      console.warn(`The proved engine isn't used: ${why}`);
    }
  }
  async function begun() {
    Fence.make();
    Board.make(boardCalls);
    Setup.make(Fence.around("setUpSection", setUpChanged));
    View.makeSteps();
    Lesson.make();
    Mistakes.make({ goTo, restart, bringBoard });
    Glance.make(restart);
    Settings.make(Fence.around("settings", showChoices));
    drawBoard(); // seen while the engine is made
    await chooseEngine();
    listen();
    await drawLanguage();
    await readAddress(location.hash);
    if (window.DobutsuFile) await openGiven();
    document.documentElement.dataset.ready = "1";
  }
  begun();
})();
