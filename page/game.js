// The game on the board: where it began, the moves that were played, the lines that were left, and the address. Sides are 0 for Forest, which plays
// upwards, and 1 for Sky. Positions are seen from the side to move, as their texts are.
const Game = (() => {
  "use strict";
  const Core = DobutsuCore;
  const START = "gle/.c./.C./ELG - -";

  // plies[i] is { move, text, before, position, side, isOver, winner, isMissed }: a move, the positions before and after it, the side to move after it, who has
  // won where the game is over, and whether a lion could be caught and wasn't. After the game's end the position is only drawn. `lines` has the lines of plies that were left, each whole from the beginning; those that
  // begin alike share their first plies, and none is the beginning of another one or of the line on the board.
  const state = { profile: "A", side: 0, start: START, plies: [], cursor: 0, lines: [] };
  let engine = Core.engine;

  const now = () => (state.cursor ? state.plies[state.cursor - 1] : { position: Core.readPosition(state.start), side: state.side, isOver: false });
  // A position that a game by rules A came to may be none by rules B: then it has no moves.
  const movesOf = (profile, position) => (Core.isAllowed(profile, position) ? engine.moves(profile, position) : { status: "none", moves: [] });
  const moves = () => (now().isOver ? { status: "over", moves: [] } : movesOf(state.profile, now().position));
  // A real game goes on where a lion that can be caught isn't. Tables and engines know no such move, since their game has ended there: it is one by the
  // pieces' steps alone, and is written down as it was played.
  const isCatch = (position, move) => position.squares[move.to] === "l";
  const isMissed = (profile, position, move) => !isCatch(position, move) && movesOf(profile, position).status === "caught";
  const legalOf = (profile, position) => { const { status, moves } = movesOf(profile, position); return status === "caught" ? Core.everyMove(profile, position) : moves; };
  const legal = () => (now().isOver ? [] : legalOf(state.profile, now().position));
  const engineOf = (profile, position, move) => (isMissed(profile, position, move) ? Core.engine : engine);
  // The text of a move of a position in which that side moves.
  const moveText = (position, move, side, profile = state.profile) => engineOf(profile, position, move).moveText(profile, position, move, side === 1);
  const textOf = (move) => moveText(now().position, move, now().side);

  function load(text, side = 0) {
    Core.readPosition(text);
    Object.assign(state, { start: text, side, plies: [], cursor: 0, lines: [] });
  }
  const isSame = (a, b) => a.letter === b.letter && a.from === b.from && a.to === b.to;
  const isMove = (profile, position, move) => legalOf(profile, position).some((it) => isSame(it, move));
  const isBeginning = (line, other) => line.length <= other.length && line.every((ply, i) => ply === other[i]);
  // Puts a line on the board. The one that was there is kept, unless the new one goes on from it.
  function take(line) {
    state.lines = [...state.lines, state.plies].filter((other) => !isBeginning(other, line));
    state.plies = line;
  }
  // Plays a move: on the line where a known one goes on with it, else on a new one.
  function play(move) {
    const { cursor } = state, before = state.plies.slice(0, cursor);
    const known = [state.plies, ...state.lines].find((line) => line.length > cursor && isBeginning(before, line) && isSame(line[cursor].move, move));
    take(known || [...before, plyOf(move)]);
    state.cursor++;
  }
  function plyOf(move) {
    const { position, side } = now(), { profile } = state, isCaught = isCatch(position, move);
    const after = (isCaught ? Core.engine : engineOf(profile, position, move)).apply(profile, position, move), isHome = after.squares.indexOf("L") >= 9; // it wasn't caught there
    return {
      move, text: textOf(move), before: position, position: after, side: 1 - side, isOver: isCaught || isHome, winner: isCaught ? side : isHome ? 1 - side : null,
      isMissed: isMissed(profile, position, move),
    };
  }
  // How often each position of the line on the board has been there up to then, from the first position on.
  function times() {
    const met = new Map(), { start, side, plies } = state;
    return [{ position: Core.readPosition(start), side }, ...plies].map((it) => {
      const key = `${it.side} ${Core.writePosition(it.position)}`;
      met.set(key, (met.get(key) || 0) + 1);
      return met.get(key);
    });
  }
  const goTo = (cursor) => { state.cursor = Math.max(0, Math.min(cursor, state.plies.length)); };

  // A first position of a set: the starting layout without what the set lacks.
  function startOf(pieces) {
    const squares = [...Core.readPosition(START).squares];
    pieces.forEach((number, kind) => {
      const own = Core.KINDS[kind], other = own.toLowerCase();
      if (number < 2) squares[squares.indexOf(other)] = ".";
      if (number < 1) squares[squares.indexOf(own)] = ".";
    });
    return Core.writePosition({ squares: squares.join(""), mover: [0, 0, 0], enemy: [0, 0, 0] });
  }

  // ---- the address: `#TEXT` with `_` for spaces, then `:MOVE,MOVE`; in front of the text `B;` by those rules, then `~` where Sky moves first

  function address() {
    const played = state.plies.slice(0, state.cursor).map((ply) => ply.text).join(",");
    return `#${state.profile === "A" ? "" : `${state.profile};`}${state.side ? "~" : ""}${state.start.replaceAll(" ", "_")}${played ? ":" + played : ""}`;
  }
  // Takes the game of an address, up to the first move that isn't one: gives that one as { word, number, why }, or null where all are played.
  function readAddress(hash) {
    const [, profile = "A", sky, text, played] = /^#(?:([AB]);)?(~?)([^:]*):?(.*)$/.exec(decodeURIComponent(hash)) || [];
    if (!text) return null;
    load(text.replaceAll("_", " "), sky ? 1 : 0);
    state.profile = profile;
    for (const word of played ? played.split(",") : []) {
      const { move, why } = Notation.read(word);
      if (!move) return { word, number: state.cursor + 1, why };
      play(move);
    }
    return null;
  }

  return {
    START, state, now, moves, legal, isCatch, isMove, moveText, textOf, load, play, take, times, goTo, startOf, address, readAddress,
    engine: () => engine, useEngine: (it) => { engine = it; },
  };
})();
