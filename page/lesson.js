// Class mode: the board as high as the window, what is said of its position below, and arrows and circles drawn on it by finger or mouse. Buttons of the
// cards stand beside the board meanwhile, so that exercises and practice go on there.
const Lesson = (() => {
  "use strict";
  const BORROWED = ["hide", "next", "exercise-choice", "answer", "practise", "score"]; // what stands beside the board in class mode
  const SAID = ["value", "judged", "verdict", "practice"]; // the cards' parts that the sentence is made of
  const RIGHT_BUTTON = 2, CIRCLE = -1;
  const element = (id) => document.getElementById(id);

  const places = new Map(); // of each borrowed element the mark that keeps its place
  const ink = document.createElement("div"); // lies over the squares
  let isOn = false, isPen = false, scrolled = 0;
  let drawn = [], drawnAt = ""; // pairs of squares, the first CIRCLE for a circle, and the address that they were drawn at
  let stroke = null; // the pair that is being drawn

  // ---- the sentence

  // What a card says first stands large, the rest below; what is said twice stands once.
  function tell() {
    if (!isOn) return;
    const [value, judged, verdict, practice] = SAID.map(element), isJudged = Game.state.cursor < 2;
    const said = [...new Set([isJudged ? verdict.textContent : "", practice.textContent, value.lastChild.textContent, judged.textContent])].filter(Boolean);
    element("lesson-first").textContent = said[0] || "";
    element("lesson-first").className = said[0] === value.lastChild.textContent ? value.className : "none";
    element("lesson-rest").textContent = said.slice(1).join(" ");
  }

  // ---- arrows and circles

  const squareAt = ({ clientX, clientY }) => {
    const found = document.elementsFromPoint(clientX, clientY).find((it) => it.dataset.square !== undefined);
    return found ? +found.dataset.square : null;
  };
  const isPair = ([from, to]) => (it) => it[0] === from && it[1] === to;
  // Draws what was drawn, on a board that may have been turned; at another position nothing is left of it.
  function drawInk() {
    if (drawnAt !== Game.address()) {
      drawn = [];
      drawnAt = Game.address();
    }
    const pairs = stroke && stroke[1] !== null ? [...drawn, stroke] : drawn;
    ink.innerHTML = isOn ? `<svg viewBox="0 0 3 4" preserveAspectRatio="none" aria-hidden="true">${pairs.map(Board.arrowDrawing).join("")}</svg>` : "";
    element("wipe").disabled = !drawn.length;
  }
  const pairOf = (from, to) => [from === to ? CIRCLE : from, to];
  function begin(event) {
    const square = squareAt(event), isDrawing = event.button === RIGHT_BUTTON || (isPen && event.button === 0 && event.isPrimary);
    if (!isOn || square === null || !isDrawing) return;
    event.preventDefault();
    stroke = pairOf(square, square);
    const from = square;
    const move = (moved) => { const to = squareAt(moved); stroke = to === null ? [from, null] : pairOf(from, to); drawInk(); };
    const end = (last) => {
      for (const [name, call] of listeners) document.removeEventListener(name, call);
      if (last.type === "pointerup" && stroke[1] !== null) toggle(stroke);
      stroke = null;
      drawInk();
    };
    const listeners = [["pointermove", move], ["pointerup", end], ["pointercancel", end]];
    for (const [name, call] of listeners) document.addEventListener(name, call);
    drawInk();
  }
  // The same once more takes it away.
  function toggle(pair) {
    drawn = drawn.some(isPair(pair)) ? drawn.filter((it) => !isPair(pair)(it)) : [...drawn, pair];
  }
  function wipe() {
    drawn = [];
    drawInk();
  }
  function takePen(isTaken) {
    isPen = isTaken;
    ink.classList.toggle("pen", isPen);
    element("pen").setAttribute("aria-pressed", isPen);
  }

  // ---- entering and leaving

  function borrow() {
    for (const id of BORROWED) {
      const mark = document.createComment(id);
      element(id).before(mark);
      places.set(id, mark);
      element("lesson-tools").insertBefore(element(id), element("pen"));
    }
  }
  function giveBack() {
    for (const [id, mark] of places) mark.replaceWith(element(id));
    places.clear();
  }
  function enter() {
    if (isOn || Setup.isOn()) return;
    isOn = true;
    scrolled = scrollY;
    borrow();
    document.body.classList.add("lesson");
    tell();
    drawInk();
  }
  function leave() {
    if (!isOn) return;
    isOn = false;
    takePen(false);
    wipe();
    giveBack();
    document.body.classList.remove("lesson");
    scrollTo(0, scrolled);
  }
  const isFree = () => !document.querySelector(".square.chosen, .slot.chosen, .dragged");
  function pressed(event) {
    if (isOn && event.key === "Escape" && isFree()) leave();
  }
  // The page has changed: the sentence, the board that is turned or has another position, or what is set up, for which its palette is needed.
  function changed() {
    if (Setup.isOn()) leave();
    tell();
    drawInk();
  }

  function make() {
    ink.id = "ink";
    element("board").append(ink);
    element("board").addEventListener("pointerdown", begin);
    element("board").addEventListener("contextmenu", (event) => { if (isOn) event.preventDefault(); });
    element("pen").addEventListener("click", () => takePen(!isPen));
    element("wipe").addEventListener("click", wipe);
    element("lesson-end").addEventListener("click", leave);
    document.addEventListener("keydown", pressed, true);
    const observer = new MutationObserver(() => { if (isOn) changed(); });
    for (const id of SAID) observer.observe(element(id), { childList: true, characterData: true, subtree: true, attributeFilter: ["class"] });
    observer.observe(element("board"), { subtree: true, attributeFilter: ["data-square", "data-drawn"] });
    observer.observe(document.body, { attributeFilter: ["class"] });
  }

  return { make, toggle: () => (isOn ? leave() : enter()) };
})();
