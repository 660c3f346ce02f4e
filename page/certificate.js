// Certificates: a small file that shows who wins one position, with no table. Its lists say of classes within how many plies they are lost (`lost`), or for
// how many they aren't (`held`), and each entry is shown by the others: docs/FORMAT.md, "The certificate". A file is read and looked up here; it is checked
// by the proved call where the engine has one, else here.
const Certificates = (() => {
  "use strict";
  const Core = DobutsuCore;
  const TITLE = "DOBUCERT", HEAD = 28, DIGEST = 32, EVER = 65535, NEVER = 255; // NEVER is the byte of EVER
  const CLAIMS = ["draw", "win", "loss", "winWithin", "lossWithin"];
  const TOLD = 100000; // so many entries are read between two words of how far that is
  const SLICE = 40; // milliseconds of checking, then the page is drawn
  // Entries that are checked in JavaScript, some ten thousand in a second: by a worker, and by the page itself where there can be none.
  const limits = { checked: 1000000, here: 20000 };

  // ---- reading

  const isOne = (bytes) => String.fromCharCode(...bytes.slice(0, 8)) === TITLE;

  // A list of entries: classes, which ascend, with their plies.
  class Entries {
    constructor(count) { Object.assign(this, { classes: new Uint32Array(count), plies: new Uint16Array(count) }); }
    // The plies of that class, or null where it isn't listed.
    find(number) {
      let low = 0, high = this.classes.length;
      while (low < high) {
        const middle = (low + high) >> 1;
        if (this.classes[middle] < number) low = middle + 1;
        else high = middle;
      }
      return this.classes[low] === number ? this.plies[low] : null;
    }
  }

  // The number at a place, which says how far a class is from the last one, in groups of seven bits, and the place behind it.
  function numberAt(bytes, place) {
    let number = 0;
    for (let digit = 0; digit < 5; digit++) {
      if (place >= bytes.length) throw new Core.Fault("E15 Truncated");
      const byte = bytes[place++];
      number += (byte % 128) * 128 ** digit;
      if (byte >= 128) continue;
      if (byte === 0 && digit) break;
      return { number, place };
    }
    throw new Core.Fault("E36 EntryNumber");
  }
  function entriesAt(bytes, place, count, classes, isEverTold, tell) {
    const entries = new Entries(Math.min(count, (bytes.length - place) >> 1)); // an entry takes two bytes and more
    let last = -1;
    for (let i = 0; i < count; i++) {
      const found = numberAt(bytes, place), number = last + found.number;
      ({ place } = found);
      if (number <= last) throw new Core.Fault("E37 EntryOrder");
      if (number >= classes) throw new Core.Fault("E38 EntryClass");
      if (place >= bytes.length) throw new Core.Fault("E15 Truncated");
      if (bytes[place] === NEVER && !isEverTold) throw new Core.Fault("E42 EntryPlies");
      entries.classes[i] = last = number;
      entries.plies[i] = bytes[place] === NEVER ? EVER : bytes[place];
      place++;
      if (i % TOLD === 0) tell(place / bytes.length);
    }
    return { entries, place };
  }

  // The head: set, profile, root's class, claim and the lists' lengths; faults in the order of docs/FORMAT.md.
  function headOf(bytes, countClasses) {
    if (bytes.length < HEAD) throw new Core.Fault("E15 Truncated");
    if (!isOne(bytes)) throw new Core.Fault("E16 Magic");
    if (bytes[8] !== 1) throw new Core.Fault("E32 Version");
    const pieces = [...bytes.slice(9, 12)], view = new DataView(bytes.buffer, bytes.byteOffset, HEAD);
    if (Math.max(...pieces) > 2 || bytes[12] !== 2) throw new Core.Fault("E17 SetByte");
    if (bytes[13] > 1) throw new Core.Fault("E27 ProfileByte");
    const profile = "AB"[bytes[13]], classes = countClasses(profile, pieces), root = view.getUint32(14, true);
    if (root >= classes) throw new Core.Fault("E33 RootClass");
    const kind = bytes[18], plies = bytes[19];
    if (kind >= CLAIMS.length || plies === NEVER || (kind === 0 && plies)) throw new Core.Fault("E34 ClaimByte");
    const lost = view.getUint32(20, true), held = view.getUint32(24, true);
    if (lost > classes || held > classes) throw new Core.Fault("E35 EntryCount");
    return { pieces, profile, classes, root, claim: CLAIMS[kind], plies, lost, held };
  }
  // What a head claims of the position of a class, and whether that is that the first player loses the game.
  function claimOf({ pieces, profile, root, claim, plies }, engine) {
    const set = pieces.join(""), kind = claim.replace("Within", "");
    const isOfStart = kind === "loss" && set === "222" && engine.classOf(profile, Core.readPosition(Game.START)) === root;
    return { set, profile, root, isOfStart, said: { kind, plies, isWithin: claim.endsWith("Within") } };
  }
  // The same of a file's first bytes, before it is read: null where the head isn't as it has to be.
  function claimIn(bytes, engine) {
    try { return claimOf(headOf(bytes, () => Infinity), engine); } catch { return null; }
  }
  // What a file says: its head with both lists of entries. Its digest is tested where the browser can. `tell` is called with the part that is read.
  async function read(bytes, countClasses = Core.countClasses, tell = () => {}) {
    const head = headOf(bytes, countClasses);
    const lost = entriesAt(bytes, HEAD, head.lost, head.classes, false, tell);
    const held = entriesAt(bytes, lost.place, head.held, head.classes, true, tell), end = held.place;
    if (bytes.length < end + DIGEST) throw new Core.Fault("E15 Truncated");
    if (bytes.length > end + DIGEST) throw new Core.Fault("E19 Trailing");
    if (globalThis.crypto?.subtle) {
      const digest = new Uint8Array(await crypto.subtle.digest("SHA-256", bytes.subarray(0, end)));
      if (digest.some((byte, i) => byte !== bytes[end + i])) throw new Core.Fault("E20 Digest");
    }
    return { ...head, lost: lost.entries, held: held.entries };
  }

  // ---- checking, in JavaScript: each entry by the others, then the claim

  class Checker {
    constructor({ profile, pieces, lost, held }) {
      Object.assign(this, { profile, pieces, lost, held });
      this.plies = { lost: new Map(), held: new Map() }; // by open position, that of a mirror image too
    }
    key({ squares, mover, enemy }) { return squares + mover.join("") + enemy.join(""); }
    at(number) { return Core.positionAt(this.profile, this.pieces, number); }
    asked(position) { return Core.statusAndMoves(this.profile, position); }
    status(position) { return this.asked(position).status; }

    hasLost(position) { return ["tried", "stuck"].includes(this.status(position)); }
    isSaidLost(position, plies) {
      const listed = this.plies.lost.get(this.key(position));
      return (listed !== undefined && listed <= plies) || this.hasLost(position);
    }
    isAnswered(position, plies) {
      const { status, moves } = this.asked(position);
      return status === "caught" || (status === "open" && moves.some((move) => this.isSaidLost(Core.apply(position, move), plies)));
    }
    isLostShown(position, plies) {
      const { status, moves } = this.asked(position);
      if (status !== "open") return status !== "caught";
      return plies >= 2 && moves.every((move) => this.isAnswered(Core.apply(position, move), plies - 2));
    }

    isSaidHeld(position, plies) {
      const status = this.status(position);
      return status === "caught" || (status === "open" && (plies <= 1 || (this.plies.held.get(this.key(position)) ?? -1) >= plies));
    }
    isSafe(position, plies) {
      const { status, moves } = this.asked(position);
      return status !== "caught" && moves.every((move) => this.isSaidHeld(Core.apply(position, move), plies));
    }
    isHeldShown(position, plies) {
      const { status, moves } = this.asked(position), least = plies === EVER ? EVER : plies - 2;
      return status === "caught" || (status === "open" && (plies < 2 || moves.some((move) => this.isSafe(Core.apply(position, move), least))));
    }

    isClaimShown({ root, claim, plies }) {
      const position = this.at(root);
      const isLost = () => this.isSaidLost(position, plies), isWon = () => plies > 0 && this.isAnswered(position, plies - 1);
      return {
        lossWithin: isLost, winWithin: isWon,
        loss: () => isLost() && (plies === 0 || this.isSaidHeld(position, plies - 1)),
        win: () => isWon() && (plies === 1 || this.isSafe(position, plies - 2)),
        draw: () => this.isSaidHeld(position, EVER) && this.isSafe(position, EVER),
      }[claim]();
    }
  }

  // Does something with each entry of a list, in slices between which the page is drawn; `tell` is called with how many were done.
  async function each(entries, act, tell) {
    let since = performance.now();
    for (let i = 0; i < entries.classes.length; i++) {
      act(entries.classes[i], entries.plies[i]);
      if (performance.now() - since < SLICE) continue;
      tell(i);
      await new Promise((done) => setTimeout(done, 0));
      since = performance.now();
    }
  }
  // Throws the first entry that isn't shown, E30, or E31 where the lists don't show the claim. `tell` is called with the part that is done.
  async function check(certificate, tell) {
    const checker = new Checker(certificate), { lost, held } = certificate, all = 2 * (lost.classes.length + held.classes.length);
    const positions = new Map(); // by class
    let before = 0;
    const part = (i) => tell((before + i) / all);
    for (const [list, entries] of Object.entries({ lost, held })) {
      const walk = Core.positionsOf(certificate.profile, certificate.pieces, entries.classes);
      await each(entries, (number, plies) => {
        const position = walk.next().value;
        positions.set(number, position);
        const isOpen = checker.status(position) === "open"; // an entry of another says nothing of it
        for (const it of isOpen ? [position, Core.mirrored(position)] : []) checker.plies[list].set(checker.key(it), plies);
      }, part);
      before += entries.classes.length;
    }
    for (const [entries, isShown] of [[lost, "isLostShown"], [held, "isHeldShown"]]) {
      await each(entries, (number, plies) => { if (!checker[isShown](positions.get(number), plies)) throw new Core.Fault(`E30 Unsupported class ${number}`); }, part);
      before += entries.classes.length;
    }
    if (!checker.isClaimShown(certificate)) throw new Core.Fault("E31 Claim");
  }

  // ---- what it says of a position

  const within = (kind, plies) => ({ kind, plies, isWithin: plies > 1 });

  // A move with which the side to move wins within the fewest plies by the list, of equal ones the first: { move, plies }, or null.
  function replyTo({ certificate, engine }, position) {
    const { profile } = certificate, { status, moves } = engine.moves(profile, position);
    if (status === "caught") return { move: moves[0], plies: 1 };
    let best = null;
    for (const move of status === "open" ? moves : []) {
      const plies = pliesAfter(certificate, engine, position, move);
      if (plies !== null && (!best || plies + 1 < best.plies)) best = { move, plies: plies + 1 };
    }
    return best;
  }
  // Within how many plies the other side has lost after a move, or null where the list doesn't say.
  function pliesAfter({ profile, lost }, engine, position, move) {
    const after = engine.apply(profile, position, move), { status } = engine.moves(profile, after);
    if (status === "tried" || status === "stuck") return 0;
    return status === "open" ? lost.find(engine.classAfter(profile, position, move)) : null;
  }
  const isRoot = ({ profile, root, set }, engine, position) => Core.setOf(position).join("") === set && engine.classOf(profile, position) === root;

  // A move that the other side answers by the list: what it is worth, and the reply. Null where the list has no answer.
  function answered(certificate, engine, position, move) {
    const after = engine.apply(certificate.profile, position, move), reply = replyTo({ certificate, engine }, after);
    return reply && { value: within("loss", reply.plies + 1), reply: { move: reply.move, position: after, plies: reply.plies } };
  }
  // A position that is listed as lost: within the plies of its entry, and within those of the move that holds out longest.
  function ofLost(certificate, engine, position, moves, plies) {
    const valued = moves.map((move, order) => ({ move, order, ...(answered(certificate, engine, position, move) || { value: within("loss", plies), reply: null }) }));
    valued.sort((a, b) => b.value.plies - a.value.plies || a.order - b.order);
    return { value: within("loss", Math.min(plies, valued[0].value.plies)), moves: valued };
  }
  // One that isn't: moves win by the list, lose by an answer of it, or have no value. It is lost where each move is answered.
  function ofOthers(certificate, engine, position, moves) {
    const valued = moves.map((move, order) => {
      const plies = pliesAfter(certificate, engine, position, move);
      return { move, order, value: null, ...(plies === null ? answered(certificate, engine, position, move) : { value: within("win", plies + 1) }) };
    });
    const goodness = ({ value }) => (value ? Core.goodness(value) : 0);
    valued.sort((a, b) => goodness(b) - goodness(a) || a.order - b.order);
    return { value: valued[0].value || { kind: "unknown", plies: 0 }, moves: valued };
  }
  // { status, value, moves, follows } as of a table. A value may be a bound (`isWithin`), of kind `unknown` outside; a move that loses has its reply.
  function lookUp(certificate, engine, position) {
    const { profile, claim, plies } = certificate, { status, moves } = engine.moves(profile, position), follows = true;
    const said = (value) => ({ status, value, moves: moves.map((move, order) => ({ move, order, value })), follows });
    if (status === "caught") return said({ kind: "win", plies: 1 });
    if (status !== "open") return said({ kind: "loss", plies: 0 });
    const listed = certificate.lost.find(engine.classOf(profile, position));
    const found = listed !== null ? ofLost(certificate, engine, position, moves, listed) : ofOthers(certificate, engine, position, moves);
    if (["win", "loss", "draw"].includes(claim) && isRoot(certificate, engine, position)) found.value = { kind: claim, plies };
    return { status, ...found, follows };
  }
  const isSame = (a, b) => a.letter === b.letter && a.from === b.from && a.to === b.to;
  // A position's value for the side that moved there, the move counted.
  const ofMover = ({ kind, plies }) => (kind === "draw" ? { kind, plies: 0 } : within(kind === "win" ? "loss" : "win", plies + 1));
  // What a move was worth, by the list or by what is said of the position behind it, and the best one: of kind `unknown` where that isn't known. Null where the
  // move's worth isn't known.
  function judge(certificate, engine, position, move) {
    const { value: best, moves } = lookUp(certificate, engine, position), { value: listed } = moves.find((it) => isSame(it.move, move));
    const behind = listed ? null : lookUp(certificate, engine, engine.apply(certificate.profile, position, move)).value;
    if (behind && behind.kind === "unknown") return null;
    const value = listed || ofMover(behind);
    return { value, best: best.kind === "unknown" && value.kind === "win" ? value : best };
  }
  // The line of its replies: the winner's by the list, against the moves that hold out longest by it.
  function line(certificate, engine, position) {
    const steps = [];
    for (;;) {
      const { status, value, moves } = lookUp(certificate, engine, position);
      if (status === "tried" || status === "stuck") return { steps, end: status };
      if (value.kind === "unknown" || value.kind === "draw") return { steps, end: "outside" };
      steps.push({ position, move: moves[0].move });
      if (status === "caught") return { steps, end: "caught" };
      position = engine.apply(certificate.profile, position, moves[0].move);
    }
  }

  // ---- an open one

  class Open {
    // `checked` is "proved", "script" or "not": by what it was checked.
    constructor(name, certificate, checked, engine) {
      Object.assign(this, certificate, claimOf(certificate, engine), { name, isCertificate: true, checked, isBroken: false });
      this.key = `${this.set}${this.profile}.cert`;
    }
    position() { return Core.positionAt(this.profile, this.pieces, this.root); }
  }

  // Reads a file and checks it: by the engine's proved call, or one of at most so many entries in JavaScript; `tell` is called with the part that is
  // done, and with about how many milliseconds the rest takes where nothing is told meanwhile. Gives { certificate, checked }, without the held list, of which nothing is looked up.
  async function examine(file, engine, most, tell) {
    const certificate = await read(new Uint8Array(await file.arrayBuffer()), Core.countClasses, (part) => tell(0.1 * part));
    const entries = certificate.lost.classes.length + certificate.held.classes.length, rest = (part, wait) => tell(0.1 + 0.9 * part, wait);
    const checked = engine.isProved ? "proved" : entries <= most ? "script" : "not";
    if (checked === "proved") engine.verify(certificate, rest);
    if (checked === "script") await check(certificate, rest);
    return { certificate: { ...certificate, held: null }, checked };
  }

  // ---- beside the page: a worker checks, so that the page answers

  // What the worker does: it examines the file that it is given.
  function serve() {
    onmessage = async ({ data: { file, isProved } }) => {
      try {
        const engine = isProved ? { ...(await DobutsuWasm.open(Core)), isProved } : Core.engine;
        const { certificate, checked } = await examine(file, engine, limits.checked, (part, wait) => postMessage({ part, wait }));
        const { classes, plies } = certificate.lost;
        postMessage({ certificate: { ...certificate, lost: { classes, plies } }, checked }, [classes.buffer, plies.buffer]);
      } catch ({ fault, message }) { postMessage({ fault, message }); }
    };
    postMessage({ part: 0 });
  }
  // Its script is what stands in the page in front of all that draws. It may open no address but this one, and sends nothing: the page's policy is its own.
  function makeWorker() {
    const script = `"use strict"; const window = self;\n${document.getElementById("engine-script").textContent}\nCertificates.limits.checked = ${limits.checked};\nCertificates.serve();`;
    const address = URL.createObjectURL(new Blob([script], { type: "text/javascript" })), worker = new Worker(address);
    return { worker, forget: () => URL.revokeObjectURL(address) };
  }
  // The same as `examine`, by a worker. `whenStarted` is called with what stops it: then it is the fault "stopped". Null where no worker can be made.
  function examineBeside(file, isProved, tell, whenStarted) {
    return new Promise((done, fail) => {
      let isThere = false, made = null;
      try { made = makeWorker(); } catch { return done(null); }
      const { worker, forget } = made, end = (act, about) => { worker.terminate(); forget(); act(about); };
      worker.onerror = (event) => { event.preventDefault(); isThere ? end(fail, new Error(event.message)) : end(done, null); };
      worker.onmessage = ({ data }) => {
        isThere = true;
        if (data.part !== undefined) return tell(data.part, data.wait);
        if (data.message !== undefined) return end(fail, data.fault ? new Core.Fault(data.fault) : new Error(data.message));
        const { classes, plies } = data.certificate.lost;
        return end(done, { ...data, certificate: { ...data.certificate, lost: Object.assign(new Entries(0), { classes, plies }) } });
      };
      whenStarted(() => end(fail, new Core.Fault("stopped")));
      worker.postMessage({ file, isProved });
    });
  }
  // Opens a file: examines it beside the page, or where that can't be here.
  async function open(file, engine, tell, whenStarted) {
    const beside = await examineBeside(file, engine.isProved, tell, whenStarted);
    const { certificate, checked } = beside || await examine(file, engine, limits.here, tell);
    return new Open(file.name, certificate, checked, engine);
  }

  return { limits, HEAD, isOne, claimIn, read, check, examine, serve, open, lookUp, judge, line };
})();
if (typeof module === "object") module.exports = Certificates;
