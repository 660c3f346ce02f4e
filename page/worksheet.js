// A worksheet: exercises of one length on a sheet of paper, their answers below upside down, or on a second sheet. No two of them are alike.
const Worksheet = (() => {
  "use strict";
  const Core = DobutsuCore;
  const { text } = Texts;
  const NUMBER = 6; // of exercises, where no other number is chosen
  const MOST = 12, LARGE = 6; // up to so many have large boards
  const element = (id) => document.getElementById(id);

  // Each piece of a position with where it is: a square, or a hand.
  function placesOf({ squares, mover, enemy }) {
    const onBoard = [...squares].map((letter, square) => letter + square).filter((it) => it[0] !== ".");
    const inHand = (hand, name) => hand.flatMap((number, kind) => Array(number).fill(`${Core.KINDS[kind]}${name}`));
    return [...onBoard, ...inHand(mover, "mover"), ...inHand(enemy, "enemy")];
  }
  // How many pieces of a position stand elsewhere in another of the same set.
  function differences(a, b) {
    const left = placesOf(b);
    return placesOf(a).filter((place) => {
      const at = left.indexOf(place);
      if (at >= 0) left.splice(at, 1);
      return at < 0;
    }).length;
  }
  // Whether two positions, or one and the other's mirror image, differ in one piece at most.
  const areAlike = (a, b) => differences(a, b) < 2 || differences(a, Core.mirrored(b)) < 2;

  // Up to so many exercises { position, move, profile } of that length that are wanted, no two of them alike.
  async function drawSome(table, engine, plies, number, isWanted = () => true) {
    const drawn = [], isNew = (position) => isWanted(position) && drawn.every((it) => !areAlike(position, it.position));
    while (drawn.length < number) {
      const found = await Answers.drawExercise(table, engine, plies, () => false, isNew);
      if (!found) break;
      drawn.push({ ...found, profile: table.profile });
    }
    return drawn;
  }

  // ---- paper

  function node(name, className, ...content) {
    const made = document.createElement(name);
    made.className = className;
    made.append(...content);
    return made;
  }
  function piece(letter) {
    const made = node("span", "small");
    if (letter !== ".") made.innerHTML = Pieces.drawing(letter, Core.isOwn(letter));
    return made;
  }
  // A side's name and its pieces in hand.
  function hand(numbers, isOwn) {
    const held = numbers.flatMap((number, kind) => Array.from({ length: number }, () => piece(isOwn ? Core.KINDS[kind] : Core.KINDS[kind].toLowerCase())));
    return node("div", "sheet-hand", node("span", "sheet-side", text("sides")[isOwn ? 0 : 1]), ...held);
  }
  const label = (words) => node("span", "sheet-label", words);
  function board(position) {
    const rows = [3, 2, 1, 0].map((row) => node("div", "sheet-row", label(Notation.rowName(row)), ...[0, 1, 2].map((column) => piece(position.squares[3 * row + column]))));
    return node("div", "sheet-board", ...rows, node("div", "sheet-row", label(""), ...[0, 1, 2].map((column) => label(Notation.columnName(column)))));
  }
  // A board between both hands.
  const diagram = (position) => [hand(position.enemy, false), board(position), hand(position.mover, true)];
  function exercise({ position }, i) {
    return node("div", "sheet-item", node("b", "", `${i + 1}.`), ...diagram(position),
      node("p", "sheet-text", Core.writePosition(position)), node("p", "", `${text("sheetMove")} ______________`));
  }
  // Draws what was drawn of so many that were asked for; where they are fewer the sheet says so.
  function draw(drawn, plies, asked, isApart) {
    const isInMoves = element("sheet-measure").value === "moves", title = () => node("h2", "", text("sheetTitle")), task = text("sheetTask", text("length", plies, isInMoves));
    const answers = drawn.flatMap(({ position, move, profile }, i) => [" ", node("span", "whole", `${i + 1}. ${Notation.shown(position, move, 0, profile)}`)]);
    const fewer = drawn.length < asked ? [node("p", "sheet-fewer", text("sheetFewer", drawn.length, asked))] : [];
    element("sheet").className = drawn.length > LARGE ? "many" : "";
    element("sheet").replaceChildren(
      title(), node("p", "", `${task} ${text("sheetName")} ____________________`), ...fewer, node("div", "sheet-items", ...drawn.map(exercise)),
      node("div", isApart ? "sheet-answers apart" : "sheet-answers", ...(isApart ? [title(), node("p", "", task)] : []), node("p", "", text("sheetAnswers"), ...answers)));
  }
  // Offers the numbers that a sheet may have.
  function make() {
    element("sheet-number").replaceChildren(...Array.from({ length: MOST }, (_, i) => new Option(i + 1, i + 1, i + 1 === NUMBER, i + 1 === NUMBER)));
  }

  return { MOST, areAlike, drawSome, diagram, draw, make };
})();
