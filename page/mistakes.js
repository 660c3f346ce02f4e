// A game's mistakes: a strip of what each ply was worth, with marks where a win or a draw was given away; the lines that were left; and the game as a
// text that is copied, pasted or read from a file, and on paper with boards. A bound by a certificate stays a bound, and what no file says is told as not known.
const Mistakes = (() => {
  "use strict";
  const Core = DobutsuCore;
  const { text } = Texts;
  const { options, node, button, lost, given, markOf } = View;
  const LONGEST = 200; // a bar of so many plies would be empty
  const SHOWN = 4; // plies of a line that was left
  const MOST_SIGNS = 40; // of a word that is no move
  const element = (id) => document.getElementById(id);
  let calls = null; // of the page: goTo(cursor, line), restart(load) and bringBoard()
  let unread = null; // says what is wrong with the text that was taken last
  let taken = null; // { first, name, variations, hasDiagram } of the game that was taken: its first ply, its file's name if it has one, and what of it was left out

  // ---- what is known of a game

  const isMine = (ply) => 1 - ply.side; // the side that made a ply
  const isJudged = ({ judged }) => !!judged && judged.best.kind !== "unknown";
  // What the ply of that number was worth, or of 0 the first position: { winner, plies, left, isWithin, isCounted }, with null for the winner of a draw. `plies`
  // are those that the move's value counts, its own with them, `left` those behind it. Null where no file says it.
  function worthOf(number) {
    const { plies, side } = Game.state, ply = plies[number && number - 1];
    if (number ? !ply.judged : !isJudged(ply)) return null;
    const { kind, plies: length, isWithin } = number ? ply.judged.value : ply.judged.best, mine = number ? isMine(ply) : side;
    const isCounted = number > 0 && (!options.inMoves || kind === "win"); // of the winner's moves none is the loser's
    return { winner: kind === "draw" ? null : kind === "win" ? mine : 1 - mine, plies: length, left: Math.max(0, number ? length - 1 : length), isWithin: !!isWithin, isCounted };
  }
  const counted = (plies) => (options.inMoves ? Texts.winnersMoves(plies) : plies);

  // ---- the strip

  // Who wins behind a ply, in words.
  function told(value) {
    if (!value) return text("stripUnknown");
    if (value.winner === null) return text("draw");
    const side = text("sides")[value.winner];
    return value.left ? text(value.isCounted ? "stripWinsWith" : "stripWins", side, text("lengthTold", value.plies, options.inMoves, value.isWithin)) : text("stripWon", side);
  }
  function cell(number, cursor, times) {
    const ply = number ? Game.state.plies[number - 1] : null, value = worthOf(number), gave = ply && given(ply);
    const name = ply ? text("stripPly", number, Notation.ofPly(ply)) : text("beginning"), repeated = times === View.REPEATED && text("repeatedShort", times);
    const made = button("", "move cell", [`${name}: ${told(value)}`, gave && text(gave), repeated].filter(Boolean).join(", "), () => calls.goTo(number));
    made.title = made.getAttribute("aria-label");
    const way = !value ? "unknown" : value.winner === null ? "even" : value.winner ? "down" : "up", bar = node("span", "", `bar ${way}`);
    if (value) bar.style.setProperty("--part", Math.max(0.12, 1 - Math.log(1 + value.left) / Math.log(LONGEST)).toFixed(3));
    const words = node("span", "", "worth");
    words.append(node("b", ply ? markOf(ply) : ""), value && value.winner !== null ? `${value.isWithin ? "≤" : ""}${counted(value.plies)}` : value ? "" : "·");
    made.append(bar, words, node("small", number || ""));
    made.classList.toggle("gave", !!gave);
    if (number === cursor) made.setAttribute("aria-current", "step");
    return made;
  }

  // ---- the cards' texts

  function summary() {
    const { plies } = Game.state;
    if (!plies.length) return [text("gameNone")];
    if (options.isHidden) return [...source(), text("hiddenShort")];
    const known = plies.filter(isJudged), gave = known.filter(lost), missed = plies.filter((ply) => ply.isMissed), unknown = plies.length - known.length;
    const counts = (name, list) => (list.length ? text(name, text("sides"), [0, 1].map((side) => list.filter((ply) => isMine(ply) === side).length)) : "");
    const isClean = known.length && !gave.length && !missed.length, isBounded = known.some(({ judged }) => judged.value.isWithin);
    const repeated = Game.times().findIndex((times) => times >= View.REPEATED);
    return [
      ...source(), repeated > 0 ? text("gameRepeated", repeated) : "", counts("gameMissed", missed), counts("gameGave", gave), isClean ? text("gameClean", !unknown) : "", !known.length ? text("gameUnknown") : unknown ? text("gamePartly", unknown) : "",
      isBounded ? text("gameBounds") : "", known.length ? text("stripHelp", text("sides")) : "",
    ].filter(Boolean);
  }
  const comment = (ply) => (ply.judged ? [ply.judged.value, isJudged(ply) && ply.judged.best].filter(Boolean).map((it) => Texts.value(it, options.inMoves)) : []);
  function mistake(ply, number) {
    const words = text("gaveTold", number, Notation.ofPly(ply), text(given(ply)), ...comment(ply)), item = node("li", "");
    item.append(button(words, "", text("goBefore", words), () => calls.goTo(number - 1)));
    return item;
  }
  // How many plies two lines begin with alike.
  function alike(line, other) {
    const end = line.findIndex((ply, i) => ply !== other[i]);
    return end < 0 ? line.length : end;
  }
  function branch(line) {
    const from = alike(line, Game.state.plies), rest = line.slice(from), words = rest.slice(0, SHOWN).map(Notation.ofPly).join(" ");
    const item = node("li", ""), shown = text("branch", from + 1, rest.length > SHOWN ? `${words} …` : words);
    item.append(button(shown, "", shown, () => calls.goTo(from + 1, line)));
    return item;
  }

  function draw() {
    const { plies, cursor, lines } = Game.state, times = Game.times(), isTold = !options.isHidden && plies.some((ply) => ply.judged || ply.isMissed);
    if (element("game-told").textContent !== summary().join(" ")) element("game-told").textContent = summary().join(" "); // heard where it changes
    View.drawSteps("strip", isTold ? times.map((it, number) => cell(number, cursor, it)) : [], cursor);
    element("mistakes").replaceChildren(...(isTold ? plies.flatMap((ply, i) => (given(ply) ? [mistake(ply, i + 1)] : [])) : []));
    element("branches-head").hidden = !lines.length;
    element("branches").replaceChildren(...[...lines].sort((a, b) => alike(a, plies) - alike(b, plies)).map(branch));
    for (const name of ["copy-game", "print-game"]) element(name).hidden = !plies.length;
    drawFault();
  }
  function drawFault() {
    const words = unread ? unread() : "";
    if (element("game-fault").textContent !== words) element("game-fault").textContent = words; // heard where it changes
  }

  // ---- as a text: what stands before the game in brackets, then the moves, each left line in parentheses behind the ply that it isn't

  // A ply with its mark, and what is said of it, as far as that is known and shown.
  const marked = (ply) => Notation.ofPly(ply) + (options.isHidden ? "" : markOf(ply));
  const isKnown = (ply) => !!ply.judged && !options.isHidden;
  function plyWords(ply) {
    const [value, best] = comment(ply);
    return isKnown(ply) ? `${marked(ply)} {${given(ply) ? text("gaveBest", value, best) : value}}` : marked(ply);
  }
  // The lines, which begin alike up to that ply, from there on.
  function written([main, ...others], from) {
    const words = [];
    let isNumbered = true;
    for (let i = from; i < main.length; i++) {
      const leaving = others.filter((line) => alike(line, main) === i), firsts = new Set(leaving.map((line) => line[i]));
      words.push(i % 2 === 0 || isNumbered ? `${i + 1}. ${plyWords(main[i])}` : plyWords(main[i]));
      for (const first of firsts) words.push(`(${written(leaving.filter((line) => line[i] === first), i)})`);
      isNumbered = firsts.size > 0;
    }
    return words.join(" ");
  }
  function gameText() {
    const { profile, start, side, plies, lines } = Game.state;
    return `[Rules "${profile}"] [First "${side ? "Sky" : "Forest"}"] [Position "${start}"]\n\n${written([plies, ...lines], 0)}\n`;
  }

  // Plays the words of a game, up to the first that is no move there: gives that one as { word, number, why }, or null.
  function playWords(list) {
    const left = []; // the lines that are gone back to at the end of a parenthesis
    let wrong = null;
    for (const word of list) {
      if (word === "(" && Game.state.cursor) {
        left.push([Game.state.plies, Game.state.cursor]);
        Game.goTo(Game.state.cursor - 1);
      } else if (word === ")" && left.length) back(left.pop());
      else if (GameText.isEnd(word)) {
        if (!left.length) break;
      } else {
        const { move, why } = Notation.read(word);
        if (!move) { wrong = { word: word.replace(/<(..)>/, "($1)").slice(0, MOST_SIGNS), number: Game.state.cursor + 1, why }; break; }
        Game.play(move);
      }
    }
    if (left.length) back(left[0]);
    return wrong;
  }
  function back([line, cursor]) {
    Game.take(line);
    Game.goTo(cursor);
  }
  const POSITION = /(?:[.LGECH]{3}\/){3}[.LGECH]{3} (?:-|[CEG]+) (?:-|[CEG]+)/i;
  // Where a game begins: { start, side, profile } as its text says, else as the board says; the starting layout where the first move is none there.
  function beginningOf(given, first) {
    const { start, side, profile } = Game.state, found = POSITION.exec(given), tag = (name) => (new RegExp(`\\[${name} "(\\w+)"\\]`).exec(given) || [])[1];
    const rules = ["A", "B"].includes(tag("Rules")) ? tag("Rules") : profile;
    if (found) return { start: found[0], side: tag("First") === "Sky" ? 1 : 0, profile: rules };
    Game.goTo(0);
    return !/手合割|手数-/.test(given) && Notation.read(first).move ? { start, side, profile: rules } : { start: Game.START, side: 0, profile: rules };
  }
  // Loads the game of a text, or of a link; gives the first word that is no move as { word, number, why }, or null. What is no game at all is a fault.
  function load(given, name) {
    const link = GameText.link(given), { words, ...leaves } = GameText.read(given.replace(POSITION, " "));
    const wrong = link ? Game.readAddress(link) : loadWords(given, words);
    if (Game.state.plies.length) taken = { first: Game.state.plies[0], name, ...(link ? {} : leaves) };
    return wrong;
  }
  function loadWords(given, words) {
    if (!words.length || GameText.isEnd(words[0])) throw new Core.Fault("empty");
    const { start, side, profile } = beginningOf(given, words[0]);
    if (!Core.isAllowed(profile, Core.readPosition(start))) throw new Core.Fault("E26 FarChick");
    Game.load(start, side);
    Game.state.profile = profile;
    return playWords(words);
  }
  // Puts the game of a text on the board; says what is wrong with it, and leaves the board as it is where no move was played.
  async function take(given, name = "") {
    const kept = { ...Game.state }, restore = () => Object.assign(Game.state, kept);
    await calls.restart(() => {
      unread = null;
      try {
        const wrong = load(given, name);
        if (wrong) unread = () => text("gameWrong", wrong.word, wrong.number, wrong.why());
        if (wrong && !Game.state.plies.length) restore();
      } catch (fault) {
        restore();
        unread = () => (fault.fault === "empty" ? text("gameEmpty") : Texts.wrong(fault));
      }
    });
  }
  async function takeGame() {
    await take(element("game-text").value);
    if (unread) return;
    showPaste(false);
    element("paste-game").focus({ preventScroll: true });
    calls.bringBoard();
  }
  // Takes the game of a file. One that can't be read whole stands in the box, with what is wrong with it.
  async function takeFile(name, given) {
    await take(given, name);
    if (!unread) {
      showPaste(false);
      return calls.bringBoard();
    }
    showPaste(true);
    element("game-text").value = given;
    drawFault();
  }
  function showPaste(isShown) {
    element("paste-box").hidden = !isShown;
    element("paste-game").setAttribute("aria-expanded", isShown);
    if (isShown) element("game-text").focus();
    else {
      unread = null;
      element("game-text").value = "";
      drawFault();
    }
  }
  // What is said of where the game came from, as long as a line of it is there.
  function source() {
    const { plies, lines } = Game.state, isThere = taken && [plies, ...lines].some((line) => line[0] === taken.first);
    return isThere ? [taken.name && text("gameFrom", taken.name), taken.variations && text("gameVariations", taken.variations), taken.hasDiagram && text("gameDiagram")].filter(Boolean) : [];
  }

  // ---- on paper

  function diagram(number) {
    const { plies } = Game.state, ply = number ? plies[number - 1] : { position: Core.readPosition(Game.state.start), side: Game.state.side };
    const { squares, hands: [mover, enemy] } = Setup.seen(ply), item = node("div", "", "sheet-item");
    const value = number && isKnown(ply) ? Texts.value(ply.judged.value, options.inMoves) : "";
    item.append(node("b", number ? `${number}. ${marked(ply)}` : text("beginning"), "whole"), node("span", ` ${value}`));
    item.append(...Worksheet.diagram({ squares: squares.join(""), mover, enemy }));
    item.classList.toggle("gave", !!number && !options.isHidden && !!given(ply));
    return item;
  }
  function print() {
    const { plies, profile, start } = Game.state, items = node("div", "", "sheet-items game-items");
    items.append(...[...Array(plies.length + 1).keys()].map(diagram));
    const told = options.isHidden ? [] : summary().filter((it) => it !== text("stripHelp", text("sides")));
    element("sheet").replaceChildren(node("h2", text("gameTitle")), node("p", [text("gameRules", profile), start, ...told].join(" · ")), items);
    element("sheet").className = "";
    document.body.classList.add("sheet"); // until the page is told that it was printed
    window.print();
  }

  function make(given) {
    calls = given;
    element("paste-game").addEventListener("click", () => showPaste(element("paste-box").hidden));
    element("take-game").addEventListener("click", takeGame);
    element("print-game").addEventListener("click", print);
    document.addEventListener("record", draw);
  }

  return { make, gameText, takeFile };
})();
