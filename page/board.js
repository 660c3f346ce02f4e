// The board and the hands on the screen: drawn, chosen by clicks and keys, and dragged. Squares are numbered as Forest sees them, a1 = 0.
// A place is { square }, { hand } with the letter of a piece in hand, or { tool } with a letter of the palette; null is off the board.
const Board = (() => {
  "use strict";
  const Core = DobutsuCore;
  const { text } = Texts;
  const FAR = 6; // this many pixels make a drag of a click

  const element = (id) => document.getElementById(id);
  const squares = []; // the buttons by their places on the screen, from the top left
  const slots = new Map(); // the buttons of the hands by letter
  const arrow = document.createElement("div"); // lies over the squares
  let calls = null, isFlipped = false, focus = 10;

  const squareAt = (place) => (isFlipped ? 2 - (place % 3) + 3 * Math.floor(place / 3) : (place % 3) + 3 * (3 - Math.floor(place / 3)));
  const isUpwards = (letter) => Core.isOwn(letter) !== isFlipped;
  const sideOf = (letter) => (Core.isOwn(letter) ? 0 : 1);

  function placeOf(target) {
    const found = target && target.closest("[data-square], [data-hand], [data-tool]");
    if (!found) return null;
    const { square, hand, tool } = found.dataset;
    return square !== undefined ? { square: +square } : hand !== undefined ? { hand } : { tool };
  }

  // ---- making

  function makeButton(parent, name) {
    const button = document.createElement("button");
    button.type = "button";
    button.className = name;
    for (const part of ["art", "tag"]) {
      const span = document.createElement("span");
      span.className = part;
      button.append(span);
    }
    parent.append(button);
    return button;
  }
  function addLabel(name) {
    const label = document.createElement("span");
    label.className = `coordinate ${name}`;
    label.setAttribute("aria-hidden", "true");
    element("board").append(label);
  }
  function makeSquares() {
    for (let row = 0; row < 4; row++) {
      addLabel("row-label");
      for (let column = 0; column < 3; column++) {
        const button = makeButton(element("board"), "square"), place = 3 * row + column;
        button.addEventListener("focus", () => { focus = place; rove(); });
        button.addEventListener("click", () => calls.choose(placeOf(button)));
        squares.push(button);
      }
    }
    element("board").append(arrow);
    addLabel("corner");
    for (let column = 0; column < 3; column++) addLabel("column-label");
  }
  function makeHands() {
    for (const side of [0, 1]) {
      for (const kind of Core.KINDS) {
        const letter = side ? kind.toLowerCase() : kind, button = makeButton(element(`hand-${side}`), "slot");
        button.dataset.hand = letter;
        button.addEventListener("click", () => calls.choose({ hand: letter }));
        slots.set(letter, button);
      }
    }
  }
  function make(given) {
    calls = given;
    makeSquares();
    makeHands();
    element("table").addEventListener("keydown", pressed);
    document.addEventListener("pointerdown", startDrag);
  }

  // ---- keys: one square is in the order of tabs, arrows go to the others

  const rove = () => squares.forEach((button, place) => { button.tabIndex = place === focus ? 0 : -1; });
  function pressed(event) {
    if (event.ctrlKey || event.metaKey || event.altKey) return;
    const by = { ArrowLeft: [-1, 0], ArrowRight: [1, 0], ArrowUp: [0, -1], ArrowDown: [0, 1] }[event.key];
    if (by && squares.includes(event.target)) {
      event.preventDefault();
      const column = (focus % 3) + by[0], row = Math.floor(focus / 3) + by[1];
      if (column >= 0 && column < 3 && row >= 0 && row < 4) squares[3 * row + column].focus();
    } else if (calls.press(placeOf(event.target), event.key)) {
      event.preventDefault();
      event.stopPropagation();
    }
  }

  // ---- dragging: a copy of the piece follows the pointer until it is let go

  let drag = null; // { from, source, x, y, copy }
  const draggable = (place) => !!place && calls.mayDrag(place);

  function startDrag(event) {
    const from = placeOf(event.target);
    if (drag || event.button !== 0 || !event.isPrimary || !draggable(from)) return;
    drag = { from, source: event.target.closest("button"), x: event.clientX, y: event.clientY, copy: null };
    document.addEventListener("pointermove", moveDrag);
    document.addEventListener("pointerup", endDrag);
    document.addEventListener("pointercancel", stopDrag);
    document.addEventListener("keydown", escapeDrag, true);
  }
  function liftCopy() {
    const art = drag.source.querySelector("svg"), { width } = art.getBoundingClientRect();
    drag.copy = document.createElement("div");
    drag.copy.className = "dragged";
    drag.copy.style.width = `${Math.max(width, 56)}px`;
    drag.copy.append(art.cloneNode(true));
    document.body.append(drag.copy);
    drag.source.classList.add("lifted");
    calls.lift(drag.from);
  }
  function moveDrag(event) {
    if (!drag.copy && Math.hypot(event.clientX - drag.x, event.clientY - drag.y) > FAR) liftCopy();
    if (drag.copy) drag.copy.style.transform = `translate(${event.clientX}px, ${event.clientY}px) translate(-50%, -50%)`;
  }
  function stopDrag() {
    for (const [name, call, early] of [["pointermove", moveDrag], ["pointerup", endDrag], ["pointercancel", stopDrag], ["keydown", escapeDrag, true]]) {
      document.removeEventListener(name, call, early);
    }
    if (drag.copy) drag.copy.remove();
    drag.source.classList.remove("lifted");
    drag = null;
  }
  function endDrag(event) {
    const { from, copy } = drag;
    stopDrag();
    if (!copy) return;
    const swallow = (click) => click.stopPropagation(); // the click that ends a drag chooses nothing
    document.addEventListener("click", swallow, { capture: true, once: true });
    setTimeout(() => document.removeEventListener("click", swallow, { capture: true }), 0);
    calls.drop(from, placeOf(document.elementFromPoint(event.clientX, event.clientY)));
  }
  function escapeDrag(event) {
    if (event.key !== "Escape") return;
    stopDrag();
    calls.drop(null, null);
  }

  // ---- drawing

  function drawPiece(button, letter) {
    const drawn = letter === "." ? "" : letter + isUpwards(letter);
    if (button.dataset.drawn === drawn) return;
    button.dataset.drawn = drawn;
    button.firstChild.innerHTML = drawn ? Pieces.drawing(letter, isUpwards(letter)) : "";
  }
  function drawSquare(button, place, shown) {
    const square = squareAt(place), letter = shown.squares[square], row = Math.floor(square / 3);
    const isChosen = !!shown.chosen && shown.chosen.square === square, isTarget = shown.targets.has(square), value = shown.targets.get(square);
    button.dataset.square = square;
    const marks = {
      forest: row === 0, sky: row === 3, last: shown.last.includes(square), chosen: isChosen, target: isTarget, taken: isTarget && letter !== ".",
      grab: draggable({ square }),
    };
    for (const [name, on] of Object.entries(marks)) button.classList.toggle(name, on);
    drawPiece(button, letter);
    button.lastChild.textContent = value ? Texts.tag(value, shown.inMoves) : "";
    button.lastChild.className = `tag ${value ? value.kind : ""}`;
    const name = text("square", Notation.squareName(square), text("sides")[sideOf(letter)], letter === "." ? "" : text("pieces")[letter.toUpperCase()]);
    const more = [isChosen && text("chosen"), isTarget && text("reached"), value && Texts.value(value, shown.inMoves)];
    button.setAttribute("aria-label", [name, ...more].filter(Boolean).join(", "));
  }
  function drawHand(side, shown) {
    const isTurn = shown.side === side && !shown.isOver;
    element(`side-${side}`).classList.toggle("turn", isTurn);
    element(`name-${side}`).textContent = text("sides")[side];
    element(`turn-${side}`).textContent = isTurn ? text("toMove") : "";
    element(`hand-${side}`).setAttribute("aria-label", text("handsOf", text("sides")[side]));
    [...Core.KINDS].forEach((kind, i) => {
      const letter = side ? kind.toLowerCase() : kind, button = slots.get(letter), number = shown.hands[side][i];
      drawPiece(button, letter);
      button.classList.toggle("none", !number);
      button.classList.toggle("chosen", !!shown.chosen && shown.chosen.hand === letter);
      button.classList.toggle("grab", draggable({ hand: letter }));
      button.lastChild.textContent = number > 1 ? number : "";
      button.lastChild.className = "number";
      button.disabled = !shown.isSetUp && (!number || !isTurn);
      button.setAttribute("aria-label", text("inHand", text("sides")[side], number, text("pieces")[kind]));
    });
  }

  // An arrow from square to square, or a ring where a piece is dropped; a square is one by one.
  function arrowDrawing([from, to]) {
    const middle = (square) => { const place = squares.findIndex((_, at) => squareAt(at) === square); return [(place % 3) + 0.5, Math.floor(place / 3) + 0.5]; };
    const [x, y] = middle(to);
    if (from < 0) return `<circle cx="${x}" cy="${y}" r=".4"/>`;
    const [x0, y0] = middle(from), far = Math.hypot(x - x0, y - y0), [dx, dy] = [(x - x0) / far, (y - y0) / far];
    const at = (along, aside) => `${(x0 + dx * along - dy * aside).toFixed(3)} ${(y0 + dy * along + dx * aside).toFixed(3)}`;
    return `<path d="M${at(0.3, 0.05)}L${at(far - 0.35, 0.05)}L${at(far - 0.35, 0.15)}L${at(far - 0.08, 0)}L${at(far - 0.35, -0.15)}L${at(far - 0.35, -0.05)}L${at(0.3, -0.05)}z"/>`;
  }
  function drawArrow(move) {
    arrow.className = "arrow";
    arrow.innerHTML = move ? `<svg viewBox="0 0 3 4" preserveAspectRatio="none" aria-hidden="true">${arrowDrawing(move)}</svg>` : "";
  }

  // Draws { squares, hands, side, isOver, isSetUp, last, chosen, targets, arrow, inMoves }: letters by square, Forest's hand and Sky's, the
  // squares of the last move, the chosen place, the squares that it reaches with the values of these moves, and the best move's two squares.
  function draw(shown) {
    squares.forEach((button, place) => drawSquare(button, place, shown));
    document.querySelectorAll(".row-label").forEach((label, i) => { label.textContent = Notation.rowName(isFlipped ? i : 3 - i); });
    document.querySelectorAll(".column-label").forEach((label, i) => { label.textContent = Notation.columnName(isFlipped ? 2 - i : i); });
    for (const side of [0, 1]) drawHand(side, shown);
    drawArrow(shown.arrow);
    element("table").classList.toggle("setting", shown.isSetUp);
    rove();
  }
  function flip() {
    isFlipped = !isFlipped;
    element("board").before(element(`side-${isFlipped ? 0 : 1}`));
    element("board").after(element(`side-${isFlipped ? 1 : 0}`));
  }
  const takeFocus = () => squares[focus].focus({ preventScroll: true });
  // Marks the squares of a move that is pointed at.
  function hint(hinted) {
    for (const button of squares) button.classList.toggle("hint", hinted.includes(+button.dataset.square));
  }

  return { make, draw, flip, takeFocus, hint, arrowDrawing };
})();
