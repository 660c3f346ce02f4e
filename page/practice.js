// Practice: the reader plays the side that wins, the page answers with best play, until the win is there or lost.
const Practice = (() => {
  "use strict";
  const { text } = Texts;
  const element = (id) => document.getElementById(id);
  let side = null; // the reader's side while they practise, else null
  let first = 0; // how many plies were played before
  let tell = null; // what is said of it: a function, so that the language may change

  const isOn = () => side !== null;
  const sideName = (of) => text("sides")[of];

  // Whether the position on the board is looked up in a certificate, whose bounds don't say which move is best.
  function isByBounds() {
    const table = Files.tableFor(Game.state.profile, Game.now().position);
    return !!table && table.isCertificate;
  }
  const task = (of) => () => text("practiceTask", sideName(of), isByBounds());
  function begin(now, cursor) {
    side = now.side;
    first = cursor;
    tell = task(side);
  }
  function refuse() {
    tell = () => text("practiceNeeds");
  }
  function stop() {
    side = tell = null;
  }
  function end(words) {
    side = null;
    tell = words;
  }

  // What comes next of the position { side, isOver } that `found` is about, null where no file knows it, and `last` is the ply that led to it: the
  // page's move where it has to answer, null where the reader is to move or it is over.
  function answer(now, cursor, found, last) {
    const winner = side, plies = cursor - first;
    if (plies < 0) end(() => text("practiceLeft"));
    else if (now.isOver && now.winner !== winner) end(() => View.lostWords(last, { kind: "win", plies: 0 }));
    else if (now.isOver || (found && now.side !== winner && found.status !== "open" && found.status !== "caught")) end(() => text("practiceWon", sideName(winner), plies));
    else if (!found) end(() => text("practiceBlind"));
    else if (now.side === winner) return null;
    else if (found.value.kind === "loss") return found.moves[0].move;
    else if (found.value.kind === "unknown") tell = () => text("practiceOutside");
    else end(() => View.lostWords(last, found.value));
    return null;
  }
  // A certificate says nothing of a move that was tried: it is for another one, or knows none here.
  function sayOutside(known, tried) {
    tell = () => (known ? text("practiceUnlisted", known(), tried()) : text("practiceOutside"));
  }

  // What was said of practice that is over, or of a move that was tried, goes with the next move.
  function forget() {
    tell = isOn() ? task(side) : null;
  }
  const told = () => (tell ? tell() : "");

  function draw() {
    element("practise").textContent = text(isOn() ? "stopPractising" : "practise");
    element("practise").setAttribute("aria-label", isOn() ? text("stopPractising") : text("practiseLabel", isByBounds()));
    element("practise").setAttribute("aria-pressed", isOn());
    element("practice").textContent = isOn() && View.options.isHidden ? "" : told();
  }

  return { isOn, begin, refuse, stop, forget, sayOutside, answer, draw, told, isOf: (it) => side === it };
})();
