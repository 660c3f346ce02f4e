// Exercises of an open file: a position that one move alone wins soonest is drawn, and a move that is tried is judged by its value.
const Exercise = (() => {
  "use strict";
  const Core = DobutsuCore;
  const { text } = Texts;
  const element = (id) => document.getElementById(id);

  const known = new Map(); // of each file { lengths, why }: the lengths of its exercises, or the name of the text why there are none
  let open = null; // { from, start, move, plies, isTried, isSolved, verdict } of the exercise on the board, `from` being its file
  let notice = null; // the name of a text where there is no exercise
  let drawing = null; // the file of which one is drawn
  let right = 0, asked = 0, turn = 0;

  const table = () => Files.withRecords()[element("exercise-file").selectedIndex] || Files.withRecords().pop();
  // An exercise is of its position by its file's rules: by other ones another move may be the right one, and another file may judge it, or none.
  const isOnBoard = () => !!open && Game.state.start === open.start && Game.state.profile === open.from.profile;
  const isAsked = () => isOnBoard() && !open.isSolved && Game.state.cursor === 0 && !Setup.isOn();

  function fill(select, names, values) {
    const { value } = select;
    select.replaceChildren(...names.map((name, i) => new Option(name, values[i])));
    if (values.map(String).includes(value)) select.value = value;
  }
  async function lengthsOf(file) {
    try {
      const lengths = await Answers.lengths(file);
      return { lengths, why: lengths.length ? null : "fewExercises" };
    } catch {
      return { lengths: [], why: "lostExercises" };
    }
  }
  // Offers the open files and the lengths of the chosen one.
  async function offer() {
    element("exercise-card").setAttribute("aria-busy", true);
    const files = Files.withRecords(), names = files.map((it) => it.name), select = element("exercise-file");
    fill(select, names, files.map((it) => it.set + it.profile));
    select.hidden = files.length < 2;
    const chosen = table();
    if (chosen && !known.get(chosen)?.lengths.length) {
      if (!open && notice !== "drawing") notice = "reading";
      draw();
      known.set(chosen, await lengthsOf(chosen));
    }
    const { lengths, why } = known.get(chosen) || { lengths: [], why: null };
    if (!open && notice !== "drawing") notice = why;
    fill(element("exercise-length"), lengths.map((plies) => text("length", plies, View.options.inMoves)), lengths);
    for (const name of ["draw", "worksheet"]) element(name).disabled = !lengths.length;
    element("exercise-choice").hidden = !lengths.length && files.length < 2;
    element("sheet-choice").hidden = !lengths.length;
    draw();
    element("exercise-card").setAttribute("aria-busy", false);
  }
  function chooseLast() {
    element("exercise-file").selectedIndex = Files.withRecords().length - 1;
  }

  const plies = () => +element("exercise-length").value;
  // Unless they are asked for, exercises have no chick on its own far row, where it never moves: by rules B there is none.
  const isWanted = (position) => !Settings.leavesStuck() || Core.isAllowed("B", position);
  // Draws one and gives its { position, profile } to be put on the board, or null.
  async function drawOne() {
    const mine = ++turn, from = table(), length = plies();
    let why = "noExercise";
    drawing = from;
    notice = "drawing";
    draw();
    const found = await Answers.drawExercise(from, Game.engine(), length, () => mine !== turn, isWanted).catch(() => {
      known.delete(from);
      why = "lostExercises";
      return null;
    });
    if (mine !== turn) return null;
    drawing = null;
    notice = found ? null : why;
    open = found && { from, start: Core.writePosition(found.position), move: found.move, plies: length, isTried: false, isSolved: false, verdict: null };
    if (!open) draw();
    return open && { start: open.start, profile: from.profile };
  }

  // Judges a move of { move, value }: whether it is the one.
  const shown = (move) => Notation.shown(Core.readPosition(open.start), move, 0);
  function judge({ move, value }) {
    const isRight = move.letter === open.move.letter && move.from === open.move.from && move.to === open.move.to;
    open.verdict = () => (isRight ? text("right", shown(move)) : text("wrong", shown(move), Texts.value(value, View.options.inMoves)));
    if (isRight && !open.isTried) right++;
    count();
    open.isSolved = isRight;
    draw();
    return isRight;
  }
  function answer() {
    count();
    Object.assign(open, { isSolved: true, verdict: () => text("answered", shown(open.move)) });
    draw();
  }
  // Leaves the exercise that is open, and counts it.
  function leave() {
    count();
    open = null;
  }
  // A file that is closed ends its exercise, which counts for nothing then, and what is drawn of it; so it is with one that was opened in its place.
  function end(file) {
    const isOf = (from) => !!from && from.key === file.key;
    known.delete(file);
    if (open && isOf(open.from)) open = null;
    if (isOf(drawing)) {
      turn++;
      drawing = notice = null;
    }
  }
  // Makes a worksheet of the chosen file, length and number; says whether there are any exercises for it.
  async function makeSheet() {
    const length = plies(), asked = +element("sheet-number").value;
    notice = "drawing";
    draw();
    const drawn = await Worksheet.drawSome(table(), Game.engine(), length, asked, isWanted).catch(() => []);
    notice = drawn.length ? null : "noSheet";
    draw();
    if (drawn.length) Worksheet.draw(drawn, length, asked, element("sheet-answers").value === "apart");
    return drawn.length > 0;
  }
  // Counts the exercise that is open, once: it was tried, answered, or its values were shown.
  function count() {
    if (open && !open.isTried) asked++;
    if (open) open.isTried = true;
  }

  const task = () => text("task", text("sides")[0], text("length", open.plies, View.options.inMoves));
  // What is said of the exercise that is asked: how the last move was judged, else the task.
  const told = () => (open.verdict ? open.verdict() : task());

  function draw() {
    if (!isOnBoard() && notice !== "drawing") open = null;
    const isThere = !!open && notice !== "drawing";
    element("task").textContent = isThere ? task() : notice ? text(notice) : table() ? "" : text(Files.all().length || Files.work()?.claim ? "needTable" : "needFile");
    element("verdict").textContent = isThere && open.verdict ? open.verdict() : "";
    element("verdict").className = isThere && open.isSolved ? "good" : "fault";
    element("exercise-card").classList.toggle("asked", isThere);
    element("answer").hidden = !isThere || open.isSolved;
    element("score").textContent = asked ? text("score", right, asked) : "";
  }

  return { offer, chooseLast, drawOne, leave, end, makeSheet, isAsked, isOpen: () => isOnBoard() && !open.isSolved, judge, told, answer, count, draw };
})();
