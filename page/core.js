// The engine in JavaScript: texts, moves, class numbers and records, written from docs/RULES.md and docs/FORMAT.md as
// tools/read_db.py is. Nothing here is proved. It touches neither the page nor a file, so that Node can test it.
//
// A position is { squares, mover, enemy }: twelve letters from a1 to c4 ('.' is empty, upper case the mover's), and the hands as
// [chicks, elephants, giraffes]. A move is { letter, from, to }, with from = -1 for a drop.
(function (root) {
  "use strict";

  const KINDS = "CEG";
  const FORMS = { C: "CHch", E: "Ee", G: "Gg" };
  const STEPS = { // columns to the right and rows forward, of the mover
    L: [[-1, -1], [0, -1], [1, -1], [-1, 0], [1, 0], [-1, 1], [0, 1], [1, 1]],
    G: [[0, -1], [-1, 0], [1, 0], [0, 1]],
    E: [[-1, -1], [1, -1], [-1, 1], [1, 1]],
    C: [[0, 1]],
    H: [[0, -1], [-1, 0], [1, 0], [-1, 1], [0, 1], [1, 1]],
  };

  class Fault extends Error {
    constructor(name) { super(name); this.fault = name; }
  }

  const isOwn = (letter) => letter >= "A" && letter <= "Z";
  const kindOf = (letter) => ("CHch".includes(letter) ? "C" : letter.toUpperCase());
  const swapCase = (letter) => (isOwn(letter) ? letter.toLowerCase() : letter.toUpperCase());

  // ---- texts

  function readHand(word, letters) {
    const numbers = [...letters].map((letter) => word.split(letter).length - 1);
    const whole = [...letters].map((letter, i) => letter.repeat(numbers[i])).join("");
    if (word !== "-" && word !== whole) throw new Fault("E3 Hand");
    return numbers;
  }

  function readPosition(text) {
    const rows = text.slice(0, 15).split("/"), hands = text.slice(15).split(" ");
    const isShape = /^[\x00-\x7f]*$/.test(text) && rows.length === 4 && rows.every((row) => row.length === 3)
      && !text.slice(0, 15).includes(" ");
    if (!isShape || hands.length !== 3 || hands[0] !== "" || !hands[1] || !hands[2]) throw new Fault("E1 Shape");
    const squares = rows.reverse().join("");
    if (!/^[.LGECHlgech]*$/.test(squares)) throw new Fault("E2 Letter");
    const position = { squares, mover: readHand(hands[1], "CEG"), enemy: readHand(hands[2], "ceg") };
    check(position);
    return position;
  }

  // The faults E4 to E6 of a position whose text is in order.
  function check(position) {
    const squares = position.squares;
    if (squares.split("L").length !== 2 || squares.split("l").length !== 2) throw new Fault("E4 Lions");
    if (Math.max(...setOf(position)) > 2) throw new Fault("E5 Count");
    if (squares.indexOf("L") >= 9) throw new Fault("E6 FarLion");
  }

  function handText(numbers, letters) {
    return [...letters].map((letter, i) => letter.repeat(numbers[i])).join("") || "-";
  }

  function writePosition(position) {
    const rows = [9, 6, 3, 0].map((at) => position.squares.slice(at, at + 3)).join("/");
    return `${rows} ${handText(position.mover, "CEG")} ${handText(position.enemy, "ceg")}`;
  }

  const squareName = (square) => "abc"[square % 3] + (Math.floor(square / 3) + 1);
  const mirroredSquare = (square) => square + 2 - 2 * (square % 3);

  function mirrored(position) {
    const squares = Array.from({ length: 12 }, (_, s) => position.squares[mirroredSquare(s)]).join("");
    return { squares, mover: position.mover, enemy: position.enemy };
  }

  function turned(position) {
    const squares = [...position.squares].reverse().map((c) => (c === "." ? c : swapCase(c))).join("");
    return { squares, mover: position.enemy, enemy: position.mover };
  }

  function placesOf(squares, kind) {
    const found = [];
    for (let s = 0; s < 12; s++) {
      const letter = squares[s];
      if (letter !== "." && letter !== "L" && letter !== "l" && kindOf(letter) === kind) found.push(s);
    }
    return found;
  }

  function setOf(position) {
    return [...KINDS].map((kind, i) => placesOf(position.squares, kind).length + position.mover[i] + position.enemy[i]);
  }

  // In profile B no chick stands on its own far row.
  const mayStand = (profile, letter, square) => profile === "A" || !((letter === "C" && square >= 9) || (letter === "c" && square < 3));
  const isAllowed = (profile, position) => [...position.squares].every((letter, square) => mayStand(profile, letter, square));

  // ---- moves

  function stepsFrom(squares, start) {
    const ends = [];
    for (const [column, row] of STEPS[squares[start]]) {
      const c = (start % 3) + column, r = Math.floor(start / 3) + row;
      if (c < 0 || c > 2 || r < 0 || r > 3) continue;
      if (!isOwn(squares[c + 3 * r])) ends.push(c + 3 * r);
    }
    return ends.sort((a, b) => a - b);
  }

  function stepsOf({ squares }) {
    const moves = [];
    for (let s = 0; s < 12; s++) {
      if (isOwn(squares[s])) for (const to of stepsFrom(squares, s)) moves.push({ letter: squares[s], from: s, to });
    }
    return moves;
  }
  function dropsOf(profile, { squares, mover }) {
    const moves = [];
    [...KINDS].forEach((letter, i) => {
      if (!mover[i]) return;
      for (let to = 0; to < 12; to++) {
        if (squares[to] === "." && mayStand(profile, letter, to)) moves.push({ letter, from: -1, to });
      }
    });
    return moves;
  }
  // The status and the moves in move order: all catches of the lion at `caught`, none at `tried` and `stuck`.
  function statusAndMoves(profile, position) {
    const { squares } = position, steps = stepsOf(position), catches = steps.filter((move) => squares[move.to] === "l");
    if (catches.length) return { status: "caught", moves: catches };
    if (squares.indexOf("l") < 3) return { status: "tried", moves: [] };
    const moves = [...steps, ...dropsOf(profile, position)];
    return { status: moves.length ? "open" : "stuck", moves };
  }
  // All steps and drops, in move order, whether or not the lion can be caught.
  const everyMove = (profile, position) => [...stepsOf(position), ...dropsOf(profile, position)];

  const grows = (move) => move.letter === "C" && move.from >= 0 && move.to >= 9;

  // The position after the move of an open one, seen from the other side.
  function apply(position, move) {
    const squares = [...position.squares], mover = [...position.mover];
    if (move.from < 0) {
      mover[KINDS.indexOf(move.letter)] -= 1;
    } else {
      const caught = squares[move.to];
      if (caught !== "." && caught !== "l") mover[KINDS.indexOf(kindOf(caught))] += 1;
      squares[move.from] = ".";
    }
    squares[move.to] = grows(move) ? "H" : move.letter;
    return turned({ squares: squares.join(""), mover, enemy: position.enemy });
  }

  // The text of a move; of the second side in lower case with the squares turned back.
  function moveText(position, move, second) {
    const turn = (square) => squareName(second ? 11 - square : square);
    const letter = second ? move.letter.toLowerCase() : move.letter;
    if (move.from < 0) return `${letter}*${turn(move.to)}`;
    const way = position.squares[move.to] === "." ? "-" : "x";
    return letter + turn(move.from) + way + turn(move.to) + (grows(move) ? "+" : "");
  }

  // ---- class numbers, computed: see docs/FORMAT.md and tools/read_db.py

  const LIONS = [];
  for (let own = 0; own < 9; own++) for (let other = 0; other < 12; other++) if (own !== other) LIONS.push([own, other]);

  const cached = (make) => {
    const kept = new Map();
    return (...words) => {
      const key = words.join("|");
      let found = kept.get(key);
      if (found === undefined) kept.set(key, (found = make(...words)));
      return found;
    };
  };

  const numbered = (listed) => ({ listed, numbers: new Map(listed.map((it, i) => [it.join(), i])) });

  // The ways to choose `number` of the squares, in order, with the number of each.
  const choices = cached((squares, number) => {
    const listed = [];
    const go = (from, chosen) => {
      if (chosen.length === number) return void listed.push(chosen);
      for (let i = from; i < squares.length; i++) go(i + 1, [...chosen, squares[i]]);
    };
    go(0, []);
    return numbered(listed);
  });

  // The forms that pieces of the kind may have on those squares, in order, with the number of each.
  const formsOn = cached((profile, kind, squares) => {
    let listed = [[]];
    for (const square of squares) {
      const letters = [...FORMS[kind]].filter((letter) => mayStand(profile, letter, square));
      listed = listed.flatMap((form) => letters.map((letter) => [...form, letter]));
    }
    return numbered(listed);
  });

  // In how many ways k of n things are chosen.
  function choose(n, k) {
    let all = 1;
    for (let i = 0; i < k; i++) all = (all * (n - i)) / (i + 1);
    return all;
  }

  // The places of the runs with these numbers on the board and these lions. A place is six digits: which squares the chicks, the
  // elephants and the giraffes have, and their forms.
  class Run {
    constructor(profile, on, lions) {
      Object.assign(this, { profile, on, lions, kept: new Map() });
      const image = lions.map(mirroredSquare);
      this.order = Math.sign(lions[0] - image[0] || lions[1] - image[1]); // -1: each is the earlier one, 1: the later one, 0: mixed
      const free = [10, 10 - on[0], 10 - on[0] - on[1]];
      const bases = [1, choose(free[1], on[1]), choose(free[2], on[2]), 1, 2 ** on[1], 2 ** on[2]];
      this.others = Array.from({ length: 7 }, (_, digit) => bases.slice(digit).reduce((a, b) => a * b, 1));
      this.size = profile === "A" ? choose(10, on[0]) * 4 ** on[0] * this.others[1]
        : this.options([], 0).listed.reduce((sum, squares) => sum + this.ways([squares], 1), 0);
      this.count = this.order ? (this.order < 0 ? this.size : 0) : (this.size + this.allFixed()) / 2;
    }
    // How many places are their own images. By rules A that is the same for all lions on column b.
    allFixed() {
      const first = [1, 4];
      return this.profile === "A" && compare(this.lions, first) ? runOf("A", this.on, first).fixed([], 0) : this.fixed([], 0);
    }
    options(chosen, digit) {
      if (digit >= 3) return formsOn(this.profile, KINDS[digit - 3], chosen[digit - 3]);
      const taken = new Set([...this.lions, ...chosen.flat()]);
      return choices([...Array(12).keys()].filter((s) => !taken.has(s)), this.on[digit]);
    }
    ways(chosen, digit) {
      if (digit === 0) return this.size;
      return this.others[digit] * (digit > 3 ? 1 : this.profile === "A" ? 4 ** this.on[0] : formsOn("B", "C", chosen[0]).listed.length);
    }
    // The number of the image's option, where the digits before are those of the image.
    image(chosen, digit, option) {
      const numbers = this.options(chosen, digit).numbers;
      if (digit < 3) return numbers.get(option.map(mirroredSquare).sort((a, b) => a - b).join());
      const seen = option.map((form, i) => [mirroredSquare(chosen[digit - 3][i]), form]).sort((a, b) => a[0] - b[0]);
      return numbers.get(seen.map((it) => it[1]).join());
    }
    // How many ways to go on are their own images.
    fixed(chosen, digit) {
      if (digit === 6) return 1;
      const key = chosen.join("|");
      let sum = this.kept.get(key);
      if (sum === undefined) {
        sum = 0;
        this.options(chosen, digit).listed.forEach((option, i) => {
          if (this.image(chosen, digit, option) === i) sum += this.fixed([...chosen, option], digit + 1);
        });
        this.kept.set(key, sum);
      }
      return sum;
    }
    // How many ways to go on from the option of that number are no later than their images.
    earlier(chosen, digit, number, option) {
      const image = this.image(chosen, digit, option), more = [...chosen, option];
      if (image === number) return (this.ways(more, digit + 1) + this.fixed(more, digit + 1)) / 2;
      return image > number ? this.ways(more, digit + 1) : 0;
    }
    // How many places with the same options before a digit come before that one.
    number(options, digit) {
      let total = 0;
      for (let at = digit; at < 6; at++) {
        const { listed, numbers } = this.options(options.slice(0, at), at), end = numbers.get(options[at].join());
        for (let i = 0; i < end; i++) total += this.ways([...options.slice(0, at), listed[i]], at + 1);
      }
      return total;
    }
    before(options, digit = 0) {
      if (this.order) return this.order < 0 ? this.number(options, 0) : 0;
      if (digit === 6) return 0;
      const chosen = options.slice(0, digit), { listed, numbers } = this.options(chosen, digit);
      const number = numbers.get(options[digit].join()), image = this.image(chosen, digit, options[digit]);
      let total = 0;
      for (let i = 0; i < number; i++) total += this.earlier(chosen, digit, i, listed[i]);
      if (image === number) return total + this.before(options, digit + 1);
      return image > number ? total + this.number(options, digit + 1) : total;
    }
    // The place of the representative with `number` before it in the run.
    optionsAt(number) {
      let chosen = [], isMixed = !this.order;
      for (let digit = 0; digit < 6; digit++) {
        const begins = isMixed ? this.beginnings(chosen, digit).findLast(({ firsts }) => firsts <= number) : this.beginning(chosen, digit, number);
        number -= begins.firsts;
        isMixed = isMixed && begins.isImage;
        chosen = [...chosen, begins.option];
      }
      return chosen;
    }
    // The option in which the place of that number lies, where all places count, and how many begin before it. But for the chicks' squares, on which by
    // rules B their forms rest, there are as many ways to go on from each option.
    beginning(chosen, digit, number) {
      const { listed } = this.options(chosen, digit), waysOf = (option) => this.ways([...chosen, option], digit + 1);
      let at = 0, firsts = 0;
      if (digit) firsts = waysOf(listed[0]) * (at = Math.floor(number / waysOf(listed[0])));
      else for (; number >= firsts + waysOf(listed[at]); at++) firsts += waysOf(listed[at]);
      return { option: listed[at], firsts };
    }
    // Behind how many representatives and how many places each option begins, where the digits before are those of the image.
    beginnings(chosen, digit) {
      const key = `${digit} from ${chosen.join("|")}`;
      let found = this.kept.get(key);
      if (!found) {
        let firsts = 0, places = 0;
        found = this.options(chosen, digit).listed.map((option, at) => {
          const begins = { option, firsts, places, isImage: this.image(chosen, digit, option) === at };
          firsts += this.earlier(chosen, digit, at, option);
          places += this.ways([...chosen, option], digit + 1);
          return begins;
        });
        this.kept.set(key, found);
      }
      return found;
    }
    // How many places stand before the representative with so many before it.
    placeAt(number) {
      if (this.order) return number;
      let chosen = [], place = 0;
      for (let digit = 0; digit < 6; digit++) {
        const begins = this.beginnings(chosen, digit).findLast(({ firsts }) => firsts <= number);
        number -= begins.firsts;
        place += begins.places;
        if (!begins.isImage) return place + number;
        chosen = [...chosen, begins.option];
      }
      return place;
    }
  }

  const runOf = cached((profile, on, lions) => new Run(profile, on, lions));
  const inHand = cached((profile, on) => LIONS.reduce((sum, lions) => sum + runOf(profile, on, lions).count, 0));
  const product = (ends) => ends.reduce((all, end) => all.flatMap((it) => Array.from({ length: end + 1 }, (_, i) => [...it, i])), [[]]);
  const handsOf = (pieces, on) => product(pieces.map((n, i) => n - on[i]));
  function compare(a, b) {
    for (let i = 0; i < a.length; i++) if (a[i] !== b[i]) return a[i] - b[i];
    return 0;
  }

  const countClasses = cached((profile, pieces) =>
    product(pieces).reduce((sum, on) => sum + handsOf(pieces, on).length * inHand(profile, on), 0));

  function placeOf(profile, position) {
    const squares = position.squares, on = [...KINDS].map((kind) => placesOf(squares, kind));
    const run = runOf(profile, on.map((it) => it.length), [squares.indexOf("L"), squares.indexOf("l")]);
    const options = [...on, ...on.map((it) => it.map((s) => squares[s]))];
    const digits = options.map((option, digit) => run.options(options.slice(0, digit), digit).numbers.get(option.join()));
    return { run, options, key: [...run.lions, ...digits] };
  }

  // How many representatives stand before that of the position, a position of the profile.
  function classNumber(profile, position) {
    const pieces = setOf(position);
    let place = placeOf(profile, position);
    const image = placeOf(profile, mirrored(position));
    if (compare(image.key, place.key) < 0) place = image;
    const { run, options } = place;
    let total = 0;
    for (const on of product(pieces)) {
      if (compare(on, run.on) >= 0) break;
      total += handsOf(pieces, on).length * inHand(profile, on);
    }
    total += handsOf(pieces, run.on).findIndex((hand) => compare(hand, position.mover) === 0) * inHand(profile, run.on);
    for (const lions of LIONS) {
      if (compare(lions, run.lions) >= 0) break;
      total += runOf(profile, run.on, lions).count;
    }
    return total + run.before(options);
  }

  // The representative of the class of that number, one below the family's count.
  function positionAt(profile, pieces, number) {
    const on = product(pieces).find((it) => {
      const all = handsOf(pieces, it).length * inHand(profile, it);
      if (number < all) return true;
      number -= all;
      return false;
    });
    const mover = handsOf(pieces, on)[Math.floor(number / inHand(profile, on))];
    number %= inHand(profile, on);
    const lions = LIONS.find((it) => {
      const { count } = runOf(profile, on, it);
      if (number < count) return true;
      number -= count;
      return false;
    });
    return positionIn(pieces, mover, runOf(profile, on, lions), number);
  }
  // The position of the representative with `number` before it in the run, with that hand.
  function positionIn(pieces, mover, run, number) {
    const options = run.optionsAt(number), squares = Array(12).fill("."), { on, lions } = run;
    squares[lions[0]] = "L";
    squares[lions[1]] = "l";
    for (let kind = 0; kind < 3; kind++) options[kind].forEach((square, i) => { squares[square] = options[3 + kind][i]; });
    return { squares: squares.join(""), mover, enemy: pieces.map((n, i) => n - on[i] - mover[i]) };
  }

  // Goes with each of some classes, whose numbers ascend, to its run: { run, mover, number, places }, how many representatives stand before it in the run
  // and how many positions before the run.
  function* placesOfClasses(profile, pieces, classes) {
    let next = 0, firsts = 0, places = 0; // how many classes and positions stand before a run
    for (const on of product(pieces)) {
      const runs = LIONS.map((lions) => runOf(profile, on, lions));
      for (const mover of handsOf(pieces, on)) {
        for (const run of runs) {
          for (; next < classes.length && classes[next] < firsts + run.count; next++) yield { run, mover, number: classes[next] - firsts, places };
          firsts += run.count;
          places += run.size;
        }
      }
    }
  }
  // The ranks of the representatives of classes, whose numbers ascend: how many positions of the same pieces and rules stand before each. They are
  // written into the list `ranks`; `tell` is called now and then with how many there are.
  function ranksOf(profile, pieces, classes, ranks = new Uint32Array(classes.length), tell = () => {}) {
    let i = 0;
    for (const { run, number, places } of placesOfClasses(profile, pieces, classes)) {
      ranks[i++] = places + run.placeAt(number);
      if (i % 50000 === 0) tell(i);
    }
    return ranks;
  }
  // The representatives of classes, whose numbers ascend, one after the other.
  function* positionsOf(profile, pieces, classes) {
    for (const { run, mover, number } of placesOfClasses(profile, pieces, classes)) yield positionIn(pieces, mover, run, number);
  }

  // ---- records

  const recordOf = ([low, high]) => low + 256 * high;

  // { kind: 'win' | 'loss' | 'draw', plies } of a record, for the side to move.
  function valueOf(record) {
    if (record === 0) return { kind: "draw", plies: 0 };
    return { kind: (record - 1) % 2 ? "win" : "loss", plies: record - 1 };
  }
  const afterMove = (record) => valueOf(record ? record + 1 : 0); // of a move, by the record of what it leads to

  // The record of a position that follows from its status and the records of what its moves lead to: a win by the nearest loss of the
  // other side, else a draw by a draw, else a loss by the farthest win.
  function recordBy(status, records) {
    if (status === "caught") return 2;
    if (status !== "open") return 1;
    const lost = records.filter((it) => it % 2 === 1);
    if (lost.length) return Math.min(...lost) + 1;
    return records.includes(0) ? 0 : Math.max(...records) + 1;
  }
  const goodness = (value) => ({ win: 1e6 - value.plies, draw: 0, loss: -1e6 + value.plies })[value.kind];

  // { set, profile, classes, first }, the last the place of the first record, of a file's first 21 bytes and its length; the faults come in the
  // order of docs/FORMAT.md.
  function readHeader(bytes, length) {
    if (length < 20) throw new Fault("E15 Truncated");
    const title = String.fromCharCode(...bytes.slice(0, 8));
    if (title !== "DOBUTSU1" && title !== "DOBUTSU2") throw new Fault("E16 Magic");
    const pieces = [...bytes.slice(8, 11)];
    if (Math.max(...pieces) > 2 || bytes[11] !== 2) throw new Fault("E17 SetByte");
    let profile = "A", start = 20;
    if (title === "DOBUTSU2") {
      if (length < 21) throw new Fault("E15 Truncated");
      if (bytes[12] > 1) throw new Fault("E27 ProfileByte");
      profile = "AB"[bytes[12]];
      start = 21;
    }
    let count = 0;
    for (let i = start - 1; i >= start - 8; i--) count = count * 256 + bytes[i];
    return { set: pieces, profile, classes: count, first: start };
  }

  // What the page asks of an engine. The proved one answers to the same names.
  const engine = {
    isProved: false,
    moves: statusAndMoves,
    classOf: classNumber,
    classAfter: (profile, position, move) => classNumber(profile, apply(position, move)),
    apply: (profile, position, move) => apply(position, move),
    moveText: (profile, position, move, second) => moveText(position, move, second),
    valueOf: (bytes) => valueOf(recordOf(bytes)),
    afterMove: (bytes) => afterMove(recordOf(bytes)),
    readHeader,
  };

  root.DobutsuCore = {
    engine, Fault, readPosition, writePosition, check, turned, mirrored, setOf, isAllowed, mayStand, statusAndMoves, everyMove, apply, grows, moveText, squareName,
    classNumber, positionAt, positionsOf, ranksOf, countClasses, recordOf, recordBy, valueOf, afterMove, goodness, readHeader, isOwn, kindOf, STEPS, KINDS,
  };
  if (typeof module === "object") module.exports = root.DobutsuCore;
})(typeof window === "object" ? window : globalThis);
