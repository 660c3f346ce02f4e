// How moves are written and read. Texts of games and addresses have Cb2xb3 in English and anywhere; Japanese readers see and write ▲22ひよこ, with files from
// Forest's right and ranks from the top, 打 for a drop, 成 for a chick that becomes a hen, and the square that a piece comes from where two can go there.
const Notation = (() => {
  "use strict";
  const Core = DobutsuCore;
  const { text } = Texts;
  const MARKS = ["▲☗▼", "△☖▽"]; // of Forest and of Sky
  const SIGNS = { ja: { drop: "打", grow: "成" }, kana: { drop: "うつ", grow: "なる" } };
  const NAMES = { ら: "L", き: "G", ぞ: "E", ひ: "C", に: "H" };
  const LATIN = /^([LGECH])?([abc][1-4])?([-x*])?([abc][1-4])(\+)?$/i;
  const JAPANESE = /^([▲☗▼△☖▽])?(?:([1-3][1-4])|同)(ら(?:いおん)?|き(?:りん)?|ぞう?|ひ(?:よこ)?|に(?:わとり)?)([右左]?)([直上行入引寄]?)(打|うつ|成|なる)?(?:<([1-3][1-4])>)?$/;

  const isJapanese = () => Texts.language() !== "en";
  const turned = (square, side) => (side ? 11 - square : square); // as a side sees it from as Forest does, and back
  const columnOf = (square) => square % 3, rowOf = (square) => Math.floor(square / 3);

  // ---- written: squares as Forest sees them

  const columnName = (column) => (isJapanese() ? `${3 - column}` : "abc"[column]);
  const rowName = (row) => `${isJapanese() ? 4 - row : row + 1}`;
  const squareName = (square) => columnName(columnOf(square)) + rowName(rowOf(square));

  function japanese(position, move, side) {
    const { letter, from, to } = move, { drop, grow } = SIGNS[Texts.language()], name = (square) => squareName(turned(square, side));
    const isAlone = from < 0 || Core.everyMove("A", position).every((it) => it.letter !== letter || it.to !== to || [from, -1].includes(it.from));
    const sign = from < 0 ? drop : Core.grows(move) ? grow : "";
    return `${MARKS[side][0]}${name(to)}${text("pieces")[letter]}${sign}${isAlone ? "" : `(${name(from)})`}`;
  }
  // A move of a position in which that side moves, as it is shown in the chosen language; by the board's rules, or those that are given.
  const shown = (position, move, side, profile) => (isJapanese() ? japanese : Game.moveText)(position, move, side, profile);
  const ofPly = (ply) => (isJapanese() ? japanese(ply.before, ply.move, 1 - ply.side) : ply.text);

  // ---- read

  const latinSquare = (name) => name && "abc".indexOf(name[0].toLowerCase()) + 3 * (name[1] - 1);
  const japaneseSquare = (name) => name && 3 - name[0] + 3 * (4 - name[1]);
  // A Japanese move in one way: kana as hiragana, ranks as digits.
  const plain = (word) => word.replace(/[ァ-ヶ]/g, (kana) => String.fromCharCode(kana.charCodeAt(0) - 96)).replace(/(?<=[1-3])[一二三四]/g, (rank) => "一二三四".indexOf(rank) + 1);

  // What a word says of a move: what it leaves open is undefined. Squares are as Forest sees them. Null where it is written as no move.
  function said(word) {
    const [, letter, from, sign, to, grows] = LATIN.exec(word) || [];
    if (to && (letter || from || sign)) {
      const takes = { "-": false, x: true }[(sign || "").toLowerCase()];
      return { letter: letter?.toUpperCase(), from: latinSquare(from), to: latinSquare(to), isDrop: from ? false : sign === "*" || undefined, takes, grows: !!grows || undefined };
    }
    const [, mark, at, name, hand, way, act, origin] = JAPANESE.exec(plain(word)) || [], { cursor, plies } = Game.state, last = plies[cursor - 1];
    if (!name || !(at || last)) return null;
    const isDrop = "打うつ".includes(act || "-") || (origin || way || hand || act ? false : undefined);
    return {
      letter: NAMES[name[0]], from: japaneseSquare(origin), to: at ? japaneseSquare(at) : turned(last.move.to, 1 - last.side), isDrop, grows: "成なる".includes(act || "-") || undefined,
      side: mark && MARKS.findIndex((marks) => marks.includes(mark)), hand, way,
    };
  }
  const WAYS = { 直: (column, row) => !column && row > 0, 上: (_, row) => row > 0, 引: (_, row) => row < 0, 寄: (_, row) => !row };
  WAYS.行 = WAYS.入 = WAYS.上;
  // The moves that a word may mean: of a step and a drop the step, unless it says the other.
  function meant({ letter, from, to, isDrop, takes, grows, hand, way }, { position, side }, moves) {
    const isOpen = (asked, found) => asked === undefined || asked === found;
    const fitting = moves.filter((move) => isOpen(letter, move.letter) && turned(move.to, side) === to && isOpen(from, turned(move.from, side)) && isOpen(isDrop, move.from < 0)
      && isOpen(takes, position.squares[move.to] !== ".") && isOpen(grows, Core.grows(move)) && (!way || WAYS[way](columnOf(move.to) - columnOf(move.from), rowOf(move.to) - rowOf(move.from))));
    const steps = fitting.filter((move) => move.from >= 0), columns = steps.map((move) => columnOf(move.from));
    if (hand) return steps.filter((move) => columnOf(move.from) === Math[hand === "右" ? "max" : "min"](...columns));
    return steps.length ? steps : fitting;
  }
  // Why a word means no move, in words.
  function why(it, { position, side, isOver }, moves) {
    const none = text("noMove"), { squares, mover } = position;
    if (!it) return none.unwritten();
    if (isOver || !moves.length) return none.over();
    const { letter } = it, name = text("sides")[side], piece = letter ? text("pieces")[letter] : "", at = squareName(it.to), to = turned(it.to, side), inHand = mover[Core.KINDS.indexOf(letter)] > 0;
    if (it.side !== undefined && it.side !== side) return none.turn(name);
    const own = moves.filter((move) => move.from >= 0).map((move) => move.from); // those that can step
    const stands = (square) => Core.isOwn(squares[square]) && (!letter || squares[square] === letter), isThere = it.from === undefined ? [...squares].some((_, square) => stands(square)) : stands(turned(it.from, side));
    if (it.isDrop || (!isThere && it.from === undefined && inHand)) {
      if (letter && "LH".includes(letter)) return none.undropped(piece);
      if (letter && !inHand) return none.hand(name, piece);
      return squares[to] !== "." ? none.filled(at) : letter ? none.far() : none.unwritten();
    }
    if (!isThere) return it.from === undefined ? none.missing(name, piece) : none.piece(name, squareName(it.from), piece);
    if (Core.isOwn(squares[to])) return none.own(at);
    const goes = moves.filter((move) => own.includes(move.from) && stands(move.from) && move.to === to && (it.from === undefined || turned(it.from, side) === move.from));
    if (!goes.length || (it.way && !meant({ ...it, hand: "" }, { position, side }, goes).length)) return none.way(piece || text("pieces")[squares[turned(it.from, side)]], at + (it.way || ""));
    if (it.grows && !goes.some(Core.grows)) return none.grows();
    if (it.takes !== undefined && it.takes !== (squares[to] !== ".")) return it.takes ? none.empty(at) : none.taken(at);
    return none.several();
  }
  // The move of a word at the position on the board: { move }, or where it is none there { why }, a call that says why in the language of its time.
  function read(word) {
    const now = Game.now(), moves = Game.legal(), exact = moves.find((move) => Game.textOf(move) === word), it = said(word);
    const found = exact ? [exact] : it && (it.side ?? now.side) === now.side ? meant(it, now, moves) : [];
    return found.length === 1 ? { move: found[0] } : { why: () => why(it, now, moves) };
  }

  return { columnName, rowName, squareName, shown, ofPly, read };
})();
