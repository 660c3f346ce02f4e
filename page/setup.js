// Setting up a position, by dragging, by clicks with a chosen piece, and by keys. It holds what stands on the board while it is no position yet.
const Setup = (() => {
  "use strict";
  const Core = DobutsuCore;
  const { text } = Texts;
  const LETTERS = "LGECH.lgech";
  const MOST = 2; // of a kind

  const element = (id) => document.getElementById(id);
  let board = null; // { squares, hands, side } as Forest sees it, or null where nothing is set up
  let tool = "L", changed = null;

  const sideOf = (letter) => (Core.isOwn(letter) ? 0 : 1);
  const kindNumber = (letter) => Core.KINDS.indexOf(Core.kindOf(letter));
  const isLion = (letter) => letter.toUpperCase() === "L";

  // What a position and its side look like to Forest, and back.
  const seen = ({ position, side }) => {
    const forest = side ? Core.turned(position) : position;
    return { squares: [...forest.squares], hands: [[...forest.mover], [...forest.enemy]], side };
  };
  const position = () => {
    const forest = whole();
    return board.side ? Core.turned(forest) : forest;
  };

  // ---- changes

  function put(square, letter) {
    if (isLion(letter)) board.squares.forEach((it, at) => { if (it === letter) board.squares[at] = "."; });
    board.squares[square] = letter;
  }
  function setHand(letter, number) {
    board.hands[sideOf(letter)][kindNumber(letter)] = Math.max(0, Math.min(MOST, number));
  }
  const inHand = (letter) => board.hands[sideOf(letter)][kindNumber(letter)];

  // A click on a square puts the chosen piece there, or takes it away where it stands; on a hand it gives one more, and none after two.
  function choose(place) {
    if (place.square !== undefined) put(place.square, board.squares[place.square] === tool && !isLion(tool) ? "." : tool);
    else setHand(place.hand, (inHand(place.hand) + 1) % (MOST + 1));
    changed();
  }

  function mayDrag({ square, hand, tool: held }) {
    if (square !== undefined) return board.squares[square] !== ".";
    return hand !== undefined ? inHand(hand) > 0 : held !== ".";
  }

  // A piece that is dragged off the board goes, but for a lion; in a hand it is the hand's.
  function drop(from, to) {
    if (!from || (to && to.tool !== undefined && from.tool !== undefined)) return;
    const letter = from.square !== undefined ? board.squares[from.square] : from.hand || from.tool;
    const leaves = !to || to.tool !== undefined;
    if (isLion(letter) && (leaves || to.hand !== undefined)) return;
    const there = !leaves && to.square !== undefined ? board.squares[to.square] : ".";
    if (from.square !== undefined) board.squares[from.square] = isLion(there) && there !== letter ? there : "."; // a lion changes places
    if (from.hand !== undefined) setHand(from.hand, inHand(from.hand) - 1);
    if (!leaves && to.square !== undefined) put(to.square, letter);
    if (!leaves && to.hand !== undefined) {
      const own = Core.isOwn(to.hand) ? Core.KINDS[kindNumber(letter)] : Core.KINDS[kindNumber(letter)].toLowerCase();
      setHand(own, inHand(own) + 1);
    }
    changed();
  }

  // Says whether the key meant something there.
  function press(place, key) {
    if (!place) return false;
    if (place.square !== undefined && (key === "Delete" || key === "Backspace" || (key.length === 1 && LETTERS.includes(key)))) {
      put(place.square, key.length === 1 ? key : ".");
    } else if (place.hand !== undefined && /^[0-2]$/.test(key)) setHand(place.hand, +key);
    else return false;
    changed();
    return true;
  }

  // ---- the whole board at once

  const whole = () => ({ squares: board.squares.join(""), mover: board.hands[0], enemy: board.hands[1] });
  const become = ({ squares, mover, enemy, side = board.side }) => Object.assign(board, { squares: [...squares], hands: [[...mover], [...enemy]], side });
  const ofSquares = (squares) => ({ squares, mover: [0, 0, 0], enemy: [0, 0, 0] });
  // What the buttons make of the board, by their names. Sides are exchanged with all that they have: it is the same position for the other one then.
  const WHOLE = {
    clear: () => ofSquares("............"), lions: () => ofSquares(".L........l."), mirror: () => Core.mirrored(whole()), exchange: () => ({ ...Core.turned(whole()), side: 1 - board.side }),
  };

  // ---- the palette

  function make(whenChanged) {
    changed = whenChanged;
    for (const letter of LETTERS) {
      const button = document.createElement("button");
      button.type = "button";
      button.dataset.tool = letter;
      button.innerHTML = letter === "." ? "✕" : Pieces.drawing(letter, Core.isOwn(letter));
      if (letter !== ".") button.classList.add("grab");
      button.addEventListener("click", () => { tool = letter; draw(); });
      element("palette").append(button);
    }
    for (const side of [0, 1]) element(`move-${side}`).addEventListener("click", () => { board.side = side; changed(); });
    for (const [name, make] of Object.entries(WHOLE)) element(name).addEventListener("click", () => { become(make()); changed(); });
  }
  function draw() {
    element("editor").hidden = !board;
    for (const button of element("palette").children) {
      const letter = button.dataset.tool;
      button.setAttribute("aria-pressed", letter === tool);
      button.setAttribute("aria-label", letter === "." ? text("emptySquare") : `${text("sides")[sideOf(letter)]} ${text("pieces")[letter.toUpperCase()]}`);
    }
    for (const side of [0, 1]) {
      element(`move-${side}`).textContent = text("sides")[side];
      element(`move-${side}`).setAttribute("aria-pressed", !!board && board.side === side);
    }
  }

  return {
    make, draw, seen, position, choose, mayDrag, drop, press,
    isOn: () => !!board, board: () => board, begin: (from) => { board = seen(from); }, end: () => { board = null; },
  };
})();
