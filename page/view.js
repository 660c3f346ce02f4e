// The cards beside the board: files, value, moves, best line, moves played. What is shown is given; nothing is looked up here.
const View = (() => {
  "use strict";
  const Core = DobutsuCore;
  const { text } = Texts;
  const options = { isHidden: false, inMoves: false };
  const KINDS = ["win", "draw", "unknown", "loss"]; // of moves, in the order of their groups
  const REPEATED = 3; // from so many times on a position is told as repeated, and the first ply of so many is marked

  const element = (id) => document.getElementById(id);
  function node(name, words, className = "") {
    const made = document.createElement(name);
    made.textContent = words;
    if (className) made.className = className;
    return made;
  }
  function button(words, className, label, click) {
    const made = node("button", words, className);
    made.type = "button";
    if (label) made.setAttribute("aria-label", label);
    made.addEventListener("click", click);
    return made;
  }
  // Puts other nodes in, and the focus to the button at the place where it was.
  function replace(box, nodes) {
    const place = [...box.querySelectorAll("button")].indexOf(document.activeElement);
    box.replaceChildren(...nodes);
    const buttons = box.querySelectorAll("button");
    if (place >= 0 && buttons.length) buttons[Math.min(place, buttons.length - 1)].focus();
  }
  const sides = (side) => [text("sides")[side], text("sides")[1 - side]];

  // ---- files

  function fileLine(name, words, isWrong) {
    const line = node("p", "", isWrong ? "bad" : "");
    line.append(node("b", name), node("span", ` ${words}`));
    return line;
  }
  // Of a double click the second doesn't close the file that has come to the first one's place.
  function closeButton(name, close) {
    const made = button("✕", "close", text("closeFile", name), (event) => { if (event.detail < 2) close(); });
    made.title = text("closeFile", name);
    return made;
  }
  // The open files with a button to close each, more than one as a menu in which the buttons have names, and those that were refused; then which was closed.
  // `close` is called with a file.
  function drawFiles(close) {
    const words = (table) => (table.isBroken ? text("brokenFile") : table.isCertificate ? text("certificateInfo", table, options.isHidden ? "" : Texts.value(table.said, options.inMoves)) : text("fileInfo", table));
    const lineOf = (table) => {
      const line = fileLine(table.name, words(table), table.isBroken);
      line.append(closeButton(table.name, () => close(table)));
      return line;
    };
    const open = Files.all(), closed = Files.closed() ? [node("div", text("closedFile", Files.closed(), open.map(({ name }) => name)))] : [];
    const lines = open.map(lineOf), refused = Files.refused().map(({ name, fault }) => fileLine(name, Texts.wrong(fault), true));
    if (lines.length > 1) {
      const menu = document.createElement("details"), wasOpen = !!element("files").querySelector("details[open]");
      const list = document.createElement("div");
      for (const { lastChild } of lines) lastChild.textContent = lastChild.title;
      list.append(...lines, ...closed.splice(0));
      menu.append(node("summary", text("filesOpen", lines.length)), list);
      menu.open = wasOpen;
      if (open.some((table) => table.isBroken)) menu.className = "bad";
      lines.splice(0, lines.length, menu);
    }
    const work = workLine();
    element("files").setAttribute("aria-busy", work.length > 0);
    keepFocus(() => element("files").replaceChildren(...(lines.length + refused.length + work.length ? [...lines, ...refused, ...work] : [node("p", text("noFile"))]), ...closed));
  }
  // Draws the files anew. A button of theirs that had the focus leaves it to the one in its place, or to what opens a file where none is left.
  function keepFocus(drawAnew) {
    const controls = () => [...element("files").querySelectorAll("button, summary")], place = controls().indexOf(document.activeElement);
    drawAnew();
    if (place >= 0) (controls()[Math.min(place, controls().length - 1)] || element("file")).focus();
  }
  // The file that is opened, with how far its check is and a button to stop it.
  const MOST = 0.97; // of the rest, while it goes on
  function percentOf({ part, wait, at }) {
    const rest = wait ? Math.min(MOST, (performance.now() - at) / wait) : 0;
    return Math.floor(100 * (part + rest * (1 - part)));
  }
  const claimWords = ({ claim }) => (claim && !options.isHidden ? Texts.value(claim.said, options.inMoves) : "");
  const workWords = (work) => (work.part === null ? text("opening", work.name) : text("checking", work.name, percentOf(work), work.claim, claimWords(work)));
  function workLine() {
    const work = Files.work();
    if (!work) return [];
    const line = node("p", "", "work");
    line.append(node("span", workWords(work)));
    if (work.stop) line.append(button("✕", "close", text("stopChecking", work.name), () => work.stop()));
    return [line];
  }
  // Tells how far the work on a file is: its line is made anew only where it can be stopped from now on.
  function tellWork(work, draw) {
    const line = element("files").querySelector(".work");
    if (line && !work.stop === !line.querySelector("button")) line.firstChild.textContent = workWords(work);
    else draw();
  }

  // ---- the value

  function tellValue(kind, title, words) {
    element("value").className = kind;
    element("value").firstChild.textContent = title;
    element("value").lastChild.textContent = words;
  }
  const tellNone = (words) => tellValue("none", "", words);
  function drawValue({ status, value, follows }, side) {
    const length = text("lengthTold", value.plies, options.inMoves, value.isWithin), words = text("told")[status] || text("told")[value.kind];
    const told = words(...sides(side), length);
    tellValue(value.kind, Texts.value(value, options.inMoves), follows ? told : `${told} ${text("ends").broken}`);
  }

  // What a ply gave away, by the best and by what it was worth: the name of a text. One mark stands for each wherever the ply stands.
  const GIVEN = { win: { draw: "gaveWin", loss: "gaveAll" }, draw: { loss: "gaveDraw" } };
  const MARKS = { missed: "??", gaveWin: "?", gaveDraw: "?", gaveAll: "??" };
  const lost = ({ judged }) => judged && (GIVEN[judged.best.kind] || {})[judged.value.kind];
  // The same of a lion that could be caught, which is known without a file; undefined where nothing is known to be given away.
  const given = (ply) => (ply.isMissed ? "missed" : lost(ply));
  const markOf = (ply) => MARKS[given(ply)] || "";

  // What a move that was played is said to be worth, beside the best one.
  // Bounds aren't compared, since the greater one may be of the worse move: of a bound it is said that it stands.
  function judgedWords(ply) {
    const { judged } = ply, words = Notation.ofPly(ply), said = (it) => Texts.value(it, options.inMoves);
    if (ply.isMissed) return text("missedTold", words, judged ? said(judged.value) : "");
    const { value, best } = judged;
    if (best.kind === "unknown") return text("judgedAlone", words, said(value));
    if (value.kind === best.kind && (value.isWithin || best.isWithin)) return text("judgedWithin", words, value.kind, value.plies, options.inMoves);
    return text("judged", words, said(value), said(best), said(value) === said(best));
  }
  // What is said of a move that gave a win away, `now` being the other side's value behind it: where no file judged the move, that alone.
  function lostWords(ply, now) {
    const { judged } = ply, words = Notation.ofPly(ply), said = (value) => Texts.value(value, options.inMoves);
    return judged && judged.best.kind !== "unknown" ? text("practiceLost", words, said(judged.value), said(judged.best)) : text("practiceGiven", words, said(now));
  }
  const isSaid = (ply) => (!!ply.judged || ply.isMissed) && !options.isHidden;
  const isMistake = (ply) => !!given(ply) && isSaid(ply);
  // Tells of the last ply what it was worth, and of the position behind it that it is there for the third time or more.
  function drawJudged(ply, times) {
    const words = ply ? [isSaid(ply) && judgedWords(ply), times >= REPEATED && text("repeated", times)] : [];
    element("judged").textContent = words.filter(Boolean).join(" ");
    element("judged").className = ply && isMistake(ply) ? "mistake" : "";
  }

  // ---- the moves

  // A move in words, for who hears it.
  function moveWords(position, { letter, from, to }, side) {
    const name = (square) => Notation.squareName(side ? 11 - square : square), piece = text("pieces")[letter];
    if (from < 0) return text("dropped", piece, name(to));
    return text("step", piece, name(from), name(to), position.squares[to] !== ".", Core.grows({ letter, from, to }));
  }
  // A move's value in words, behind the reply that keeps the win where a certificate has one.
  function valueWords(value, reply, other) {
    const words = Texts.value(value, options.inMoves);
    return reply ? text("replied", Notation.shown(reply.position, reply.move, other), words) : words;
  }
  // The moves of { move, order, value, reply }: where values are shown best first, wins, draws and losses each below a heading, and else in move order. `play`
  // is called with the move.
  function drawMoves(list, { position, side }, play) {
    const isTold = !options.isHidden && list.some(({ value }) => value), kindOf = ({ value }) => (value ? value.kind : "unknown");
    const kinds = isTold ? KINDS.filter((kind) => list.some((it) => kindOf(it) === kind)) : [];
    element("moves-head").textContent = text("moves", list.length);
    const groups = kinds.map((kind) => [kind, list.filter((it) => kindOf(it) === kind)]);
    const drawn = ([kind, moves]) => [Object.assign(node("h3", text("movesOf", kind, moves.length)), { id: `moves-${kind}` }), moveList(moves, `moves-${kind}`, position, side, play)];
    replace(element("moves"), isTold ? groups.flatMap(drawn) : [moveList([...list].sort((a, b) => a.order - b.order), "moves-head", position, side, play)]);
  }
  function moveList(moves, heading, position, side, play) {
    const list = node("ul", "", !options.isHidden && moves.some(({ reply }) => reply) ? "replied" : "");
    list.setAttribute("aria-labelledby", heading);
    list.append(...moves.map(({ move, value, reply }) => {
      const words = Notation.shown(position, move, side), told = value && !options.isHidden ? valueWords(value, reply, 1 - side) : "";
      const made = button("", "", [words, moveWords(position, move, side), told].filter(Boolean).join(", "), () => play(move));
      made.append(node("span", words, "move"));
      if (told) made.append(node("span", told, `told ${value.kind}`));
      const squares = [move.from, move.to].filter((square) => square >= 0).map((square) => (side ? 11 - square : square));
      for (const name of ["pointerenter", "focus"]) made.addEventListener(name, () => Board.hint(squares));
      for (const name of ["pointerleave", "blur"]) made.addEventListener(name, () => Board.hint([]));
      const item = document.createElement("li");
      item.append(made);
      return item;
    }));
    return list;
  }

  // ---- lines of moves

  // Numbers each pair of moves; `label` gives what is heard of a move, `click` what it does.
  function numbered(words, label, click) {
    return words.map((word, i) => {
      const pair = node("span", "", "step"), made = button("", "move", label(word, i), () => click(i));
      if (i % 2 === 0) pair.append(node("span", `${i + 1}.`, "number"));
      made.append(word);
      pair.append(made);
      return pair;
    });
  }
  const movesIn = (box) => [...box.querySelectorAll(".move")];
  // A line of moves is one stop of the tab key: arrows go from move to move.
  function rove(box, current) {
    movesIn(box).forEach((it, i) => { it.tabIndex = i === current ? 0 : -1; });
  }
  function arrowIn(event) {
    const moves = movesIn(event.currentTarget), place = moves.indexOf(event.target);
    const by = { ArrowLeft: place - 1, ArrowRight: place + 1, Home: 0, End: moves.length - 1 }[event.key];
    if (place < 0 || by === undefined) return;
    event.preventDefault();
    event.stopPropagation();
    const next = Math.max(0, Math.min(by, moves.length - 1));
    rove(event.currentTarget, next);
    moves[next].focus();
  }
  function drawSteps(name, nodes, current) {
    const box = element(name), { scrollTop } = box, place = movesIn(box).indexOf(document.activeElement);
    replace(box, nodes);
    rove(box, place >= 0 ? Math.min(place, movesIn(box).length - 1) : current);
    scrollIn(box, scrollTop);
  }
  // A long game scrolls in its box: from where it was as little as brings the current step into view.
  function scrollIn(box, top) {
    const current = box.querySelector("[aria-current]");
    box.scrollTop = top;
    if (!current || box.scrollHeight <= box.clientHeight) return;
    const step = current.getBoundingClientRect(), frame = box.getBoundingClientRect();
    box.scrollTop += Math.min(0, step.top - frame.top) + Math.max(0, step.bottom - frame.bottom);
  }
  function makeSteps() {
    for (const name of ["line", "record", "strip"]) element(name).addEventListener("keydown", arrowIn);
  }

  // A line by a certificate is headed as such, and a note says it: bounds don't say which play is best.
  const noteLine = (isNoted) => { element("line-note").hidden = !isNoted; };
  let isOfCertificate = false;
  function headLine(isCertificate) {
    isOfCertificate = isCertificate;
    element("line-head").textContent = text(isCertificate ? "lineOfCertificate" : "line");
    noteLine(false);
  }
  function drawLine({ steps, end }, side, playUpTo) {
    noteLine(isOfCertificate && steps.length > 1);
    const words = steps.map(({ position, move }, i) => Notation.shown(position, move, (side + i) % 2));
    const parts = numbered(words, (word, i) => text("playUpTo", word, i + 1), (i) => playUpTo(steps.slice(0, i + 1)));
    drawSteps("line", [...parts, node("span", text("ends")[end], end === "broken" ? "end bad" : "end")], 0);
  }
  const tellLine = (words) => drawSteps("line", [node("span", words, "end")], 0);

  // A move that was played says what it was worth, where that is known and shown; a mistake is marked.
  function marksOf(ply, times) {
    const repeated = times === REPEATED ? [node("span", text("timesMark", times), "mark times")] : [];
    return [...valueMark(ply), ...repeated];
  }
  function valueMark(ply) {
    if (!isSaid(ply)) return [];
    const { kind } = ply.judged ? ply.judged.value : { kind: "loss" }, tag = ply.judged ? ` ${Texts.tag(ply.judged.value, options.inMoves)}` : "";
    return [node("span", markOf(ply) + tag, `mark ${kind}`)];
  }
  function recordLabel(ply, number, times) {
    const told = isSaid(ply) ? [judgedWords(ply), isMistake(ply) && text("mistake")] : [];
    return [text("goTo", Notation.ofPly(ply), number), ...told, times === REPEATED && text("repeatedShort", times)].filter(Boolean).join(", ");
  }
  function drawRecord(plies, cursor, goTo) {
    const times = Game.times();
    const first = button(text("beginning"), "move", text("goToStart"), () => goTo(0));
    const rest = numbered(plies.map(Notation.ofPly), (word, i) => recordLabel(plies[i], i + 1, times[i + 1]), (i) => goTo(i + 1));
    rest.forEach((step, i) => {
      step.append(...marksOf(plies[i], times[i + 1]));
      step.classList.toggle("mistake", isMistake(plies[i]));
    });
    const buttons = [first, ...rest.map((step) => step.querySelector(".move"))];
    buttons[cursor].setAttribute("aria-current", "step");
    drawSteps("record", plies.length ? [first, ...rest] : [node("span", text("noneYet"), "end")], cursor);
  }

  return { options, REPEATED, lost, given, markOf, node, button, replace, makeSteps, drawSteps, drawFiles, tellWork, percentOf, claimWords, tellNone, drawValue, drawJudged, lostWords, drawMoves, headLine, drawLine, tellLine, drawRecord };
})();
