// What an open file says of a position: its value, its moves' values, the best line, and exercises. Each number of a class comes from the
// engine, each record from the file.
const Answers = (() => {
  "use strict";
  const Core = DobutsuCore;
  // For exercises a file of at most `small` classes is read whole each time; where at most `few` classes are asked for they are put in order, else the order is
  // gone through. A larger file is read once, by `window` classes, and `kept` positions of each length are kept; once more where they are used up, at most
  // `passes` times for one exercise.
  const limits = { small: 1 << 20, few: 2000, window: 1 << 21, kept: 200, passes: 3 };
  const MOST_LINES = 5000;

  // { status, value, moves, follows }: the moves with their values, best first and equal ones in move order, and whether the position's
  // record follows from those of its moves.
  async function lookUp(table, engine, position) {
    if (table.isCertificate) return Certificates.lookUp(table, engine, position);
    const { profile } = table, { status, moves } = engine.moves(profile, position);
    const record = await table.record(engine.classOf(profile, position));
    const after = status === "caught" ? [] : await Promise.all(moves.map((move) => table.record(engine.classAfter(profile, position, move))));
    const valued = moves.map((move, order) => ({ move, order, value: status === "caught" ? { kind: "win", plies: 1 } : engine.afterMove(after[order]) }));
    valued.sort((a, b) => Core.goodness(b.value) - Core.goodness(a.value) || a.order - b.order);
    return { status, value: engine.valueOf(record), moves: valued, follows: Core.recordOf(record) === Core.recordBy(status, after.map(Core.recordOf)) };
  }

  // A move that leaves a lion which could be caught is worth what the position behind it is; a lion that has reached its far row so has won.
  async function judgeMissed(table, engine, position, move) {
    const after = Core.apply(position, move), best = { kind: "win", plies: 1 };
    if (after.squares.indexOf("L") >= 9) return { value: { kind: "loss", plies: 0 }, best };
    const { kind, plies, isWithin } = (await lookUp(table, engine, after)).value;
    return kind === "unknown" ? null : { value: { kind: { win: "loss", loss: "win", draw: "draw" }[kind], plies: kind === "draw" ? 0 : plies + 1, isWithin }, best };
  }
  // What a move that was played was worth, and what the best one would have been, each for the side that made it. By a certificate the best may be of kind
  // `unknown`, and null is what it knows nothing of.
  async function judge(table, engine, position, move) {
    if (position.squares[move.to] !== "l" && engine.moves(table.profile, position).status === "caught") return judgeMissed(table, engine, position, move);
    if (table.isCertificate) return Certificates.judge(table, engine, position, move);
    const { profile } = table, best = engine.valueOf(await table.record(engine.classOf(profile, position)));
    if (engine.moves(profile, position).status === "caught") return { value: best, best };
    return { value: engine.afterMove(await table.record(engine.classAfter(profile, position, move))), best };
  }

  // ---- the best line

  const lines = new Map(); // what is left of a line, by table and position
  const keyOf = (table, position) => table.key + Core.writePosition(position);
  function keep(table, steps, end) {
    if (lines.size > MOST_LINES) lines.clear();
    steps.forEach((step, i) => lines.set(keyOf(table, step.position), { steps: steps.slice(i), end }));
  }

  // { steps, end }: the winner's shortest and the loser's longest way, each step with its position and move, and how it ends. The best
  // move, of equal ones the first, is the first whose outcome's record is one less. Null where it came too late; `tell` is called on the way.
  async function bestLine(table, engine, position, isLate, tell) {
    if (table.isCertificate) return Certificates.line(table, engine, position);
    const known = lines.get(keyOf(table, position));
    if (known) return known;
    const steps = [];
    let record = Core.recordOf(await table.record(engine.classOf(table.profile, position))), end = record ? null : "draw";
    while (!end) {
      const { status, moves } = engine.moves(table.profile, position);
      if (status === "tried" || status === "stuck") {
        end = record === 1 ? status : "broken";
        break;
      }
      let best = status === "caught" && record === 2 ? moves[0] : null;
      for (const move of status === "open" ? moves : []) {
        if (isLate()) return null;
        if (Core.recordOf(await table.record(engine.classAfter(table.profile, position, move))) === record - 1) { best = move; break; }
      }
      if (!best) {
        end = "broken";
        break;
      }
      steps.push({ position, move: best });
      if (status === "caught") end = "caught";
      else position = engine.apply(table.profile, position, best);
      record--;
      if (!end && steps.length % 16 === 0) tell({ steps, end: "going" });
    }
    if (end !== "broken") keep(table, steps, end);
    return { steps, end };
  }

  // ---- exercises

  const random = (below) => Math.floor(Math.random() * below);
  function shuffled(list) {
    for (let i = list.length - 1; i > 0; i--) {
      const j = random(i + 1);
      [list[i], list[j]] = [list[j], list[i]];
    }
    return list;
  }
  const numbersOf = (records, wanted) => [...records.keys()].filter((i) => records[i] === wanted);

  // A large file read once: of each record some classes that have it, each choice of them as likely as any other (Vitter's algorithm R).
  async function survey(table) {
    const met = new Uint32Array(1 << 16), kept = new Map();
    for (let first = 0; first < table.count; first += limits.window) {
      const records = await table.records(first, Math.min(limits.window, table.count - first));
      for (let i = 0; i < records.length; i++) {
        const record = records[i];
        if (record < 4 || record % 2) continue; // no win in 3 plies or more
        const number = met[record]++;
        if (!number) kept.set(record, []);
        const place = number < limits.kept ? number : random(number + 1);
        if (place < limits.kept) kept.get(record)[place] = first + i;
      }
    }
    for (const classes of kept.values()) shuffled(classes);
    return kept;
  }
  const surveys = new WeakMap(); // what is left of the last one, by table
  function surveyOf(table, isNew) {
    if (isNew || !surveys.has(table)) {
      const found = survey(table);
      surveys.set(table, found);
      found.catch(() => surveys.delete(table));
    }
    return surveys.get(table);
  }
  // The classes that have a record, of a file that is read whole, in the order in which the program goes over them by that seed.
  function* inOrder(records, record, seed) {
    const order = new Shuffle(seed, records.length), classes = numbersOf(records, record), { places } = order;
    if (classes.length <= limits.few) return yield* classes.map((number) => [order.placeOf(number), number]).sort((a, b) => a[0] - b[0]).map((it) => it[1]);
    for (let place = 0; place < places; place++) {
      const number = order.numberAt(place);
      if (records[number] === record) yield number;
    }
  }
  // The classes that have a record, in an order drawn at random: where the file is read whole that of a seed.
  async function* classesOf(table, record, seed) {
    if (table.count <= limits.small) return yield* inOrder(await table.records(0, table.count), record, seed);
    for (let pass = 0; pass < limits.passes; pass++) {
      const classes = (await surveyOf(table, pass > 0)).get(record) || [];
      while (classes.length) yield classes.pop();
    }
  }

  // The lengths in plies, from 3 on, at which positions of the file are won.
  async function lengths(table) {
    const met = table.count <= limits.small ? new Set(await table.records(0, table.count)) : (await surveyOf(table, false)).keys();
    return [...met].map((it) => it - 1).filter((plies) => plies >= 3 && plies % 2 === 1).sort((a, b) => a - b);
  }

  // A position with exactly one fastest winning move, in `plies`, with that move, or null where none was found; only one that is wanted is
  // taken. Each of the file is as likely as any other; of one that is read whole it is the program's by the seed, or its mirror image.
  const newSeed = () => (BigInt(random(1 << 26)) << 26n) + BigInt(random(1 << 26));
  async function drawExercise(table, engine, plies, isLate, isWanted = () => true, seed = newSeed()) {
    for await (const number of classesOf(table, plies + 1, seed)) {
      if (isLate()) return null;
      let position = Core.positionAt(table.profile, table.pieces, number);
      if (random(2)) position = Core.mirrored(position);
      if (!isWanted(position)) continue;
      const { value, moves } = await lookUp(table, engine, position);
      const best = moves.filter((it) => it.value.kind === "win" && it.value.plies === plies);
      if (value.kind === "win" && value.plies === plies && best.length === 1) return { position, move: best[0].move };
    }
    return null;
  }

  return { limits, lookUp, judge, bestLine, forget: () => lines.clear(), lengths, drawExercise };
})();
