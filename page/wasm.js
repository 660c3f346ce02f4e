// The proved engine: the exports of crates/dobutsu_web, compiled for WebAssembly. What is said of the game is their answer; this puts texts and numbers
// into the module's memory, puts its calls in order and keeps what they answered. The module stands in the page, packed by gzip, since a page of a file may
// fetch nothing.
window.DobutsuWasm = {
  async open(Core) {
    "use strict";
    const packed = new Blob([Uint8Array.from(atob("/*BYTES*/"), (c) => c.charCodeAt(0))]).stream().pipeThrough(new DecompressionStream("gzip"));
    const bytes = await new Response(packed).arrayBuffer();
    const { instance: { exports: calls } } = await WebAssembly.instantiate(bytes);

    // A page of memory behind the module's own. A memory of 64 bits counts in BigInt; pointers and numbers of 64 bits are BigInt in both.
    const PAGE = 65536;
    const grow = (pages) => { try { return PAGE * calls.memory.grow(pages); } catch { return PAGE * Number(calls.memory.grow(BigInt(pages))); } };
    const BASE = grow(1), TEXT = 0, OUT = 512, ROW = 1024, ROW_LEN = 101;
    const at = (place) => BigInt(BASE + place);
    const view = () => new DataView(calls.memory.buffer, BASE, 2048); // made anew each time: it dies where the memory grows
    const bytesAt = (place, length) => new Uint8Array(calls.memory.buffer, BASE + place, length);
    const word = (place) => view().getUint32(OUT + place, true), long = (place) => view().getBigUint64(OUT + place, true);
    const give = (data) => { bytesAt(TEXT, data.length).set(data); return [at(TEXT), BigInt(data.length)]; };
    const OUT_AT = at(OUT), ROW_ARGS = [at(ROW), BigInt(ROW_LEN)];

    const NAMES = { 1: "Shape", 2: "Letter", 3: "Hand", 4: "Lions", 5: "Count", 6: "FarLion", 15: "Truncated", 16: "Magic", 17: "SetByte", 18: "ClassCount", 19: "Trailing", 20: "Digest", 23: "Memory", 26: "FarChick", 27: "ProfileByte", 30: "Unsupported", 31: "Claim" };
    const GIVEN = 0.15, REST = 6; // the part of a certificate's time until its lists are given, and how many times that the call takes, about
    const NO_MOVE = 28, UNSUPPORTED = 30, PLACES = 180, NO_SQUARE = 12, MOST_CLASSES = (1n << 64n) - 1n;
    const STATUSES = ["open", "caught", "tried", "stuck"], KINDS = ["draw", "win", "loss"], LETTERS = "CEGHL";
    const accept = (answer) => { if (answer) throw new Core.Fault(`E${answer} ${NAMES[answer] || "Call"}`); };

    const encoder = new TextEncoder();
    const ask = (profile, position) => [...give(encoder.encode(Core.writePosition(position))), "AB".indexOf(profile)];
    const textIn = () => String.fromCharCode(...bytesAt(OUT + 4, word(0)));
    const placeOf = (move) => (move.from < 0 ? 144 + 12 * LETTERS.indexOf(move.letter) : 12 * move.from) + move.to;
    const squareOf = (number) => (number === NO_SQUARE ? -1 : number);

    // The row of each block that was met, by which a class number is found at once. It lies at ROW while it is used.
    const rows = new Map(), classes = new Map(); // classes: how many the headers said, by family
    let used = "";
    const familyOf = (profile, position) => Core.setOf(position).join("") + profile;
    const countOf = (family) => classes.get(family) || MOST_CLASSES;
    function useRow(args, family, block) {
      const key = `${family}/${block}`;
      if (key === used) return;
      const kept = rows.get(key);
      if (kept) bytesAt(ROW, 8 * ROW_LEN).set(kept);
      else {
        accept(calls.dobutsu_row(...args, block, ...ROW_ARGS));
        rows.set(key, bytesAt(ROW, 8 * ROW_LEN).slice());
      }
      used = key;
    }

    function classOf(profile, position) {
      const args = ask(profile, position), family = familyOf(profile, position);
      accept(calls.dobutsu_block(...args, OUT_AT));
      useRow(args, family, long(0));
      accept(calls.dobutsu_class_by(...args, ...ROW_ARGS, countOf(family), OUT_AT));
      return Number(long(0));
    }

    function classAfter(profile, position, move) {
      const args = ask(profile, position), family = familyOf(profile, position), place = placeOf(move);
      let { block } = move;
      if (block === undefined) {
        accept(calls.dobutsu_move(...args, place, OUT_AT));
        block = long(0);
      }
      useRow(args, family, block);
      accept(calls.dobutsu_class_after(...args, place, ...ROW_ARGS, countOf(family), OUT_AT));
      return Number(long(0));
    }

    const met = new Map(); // positions with their moves
    function moves(profile, position) {
      const key = profile + Core.writePosition(position), known = met.get(key);
      if (known) return known;
      const args = ask(profile, position), listed = [];
      accept(calls.dobutsu_status(...args, OUT_AT, OUT_AT + 4n));
      const status = STATUSES[word(0)];
      for (let place = 0; place < PLACES; place++) {
        const answer = calls.dobutsu_move(...args, place, OUT_AT);
        if (answer === NO_MOVE) continue;
        accept(answer);
        listed.push({ letter: LETTERS[word(8)], from: squareOf(word(12)), to: word(16), block: long(0) });
      }
      const found = { status, moves: listed };
      if (met.size > 2000) met.clear();
      met.set(key, found);
      return found;
    }

    function apply(profile, position, move) {
      accept(calls.dobutsu_after(...ask(profile, position), placeOf(move), OUT_AT));
      return Core.readPosition(textIn());
    }

    function moveText(profile, position, move, second) {
      accept(calls.dobutsu_move_text(...ask(profile, position), placeOf(move), second ? 1 : 0, OUT_AT));
      return textIn();
    }

    function told(call, record) {
      accept(call(...give(record), OUT_AT));
      return { kind: KINDS[word(0)], plies: word(4) };
    }

    // The family that a file's first 21 bytes name, if it has as many bytes as that family's files.
    function readHeader(front, size) {
      accept(calls.dobutsu_header(...give(front), BigInt(size), OUT_AT));
      const set = [word(16), word(20), word(24)], profile = "AB"[word(28)];
      classes.set(set.join("") + profile, long(0));
      return { set, profile, classes: Number(long(0)), first: Number(long(8)) };
    }

    // Room behind the module's memory for a certificate's list, which is kept for the next one.
    let room = { place: 0, bytes: 0 };
    function roomFor(bytes) {
      if (bytes > room.bytes) {
        const pages = Math.ceil(bytes / PAGE);
        room = { place: grow(pages), bytes: PAGE * pages };
      }
      return room.place;
    }
    // Puts the ranks of lists of entries and their plies there, one behind the other. Gives the words for a call; `tell` is called with the part that is done.
    function giveLists({ profile, pieces }, lists, tell) {
      const total = lists.reduce((sum, { classes }) => sum + 6 * classes.length + 2, 0), all = lists.reduce((sum, { classes }) => sum + classes.length, 0), words = [];
      let place = roomFor(total), before = 0;
      const room = (Numbers, length) => {
        const list = new Numbers(calls.memory.buffer, place, length);
        words.push(BigInt(place), BigInt(length));
        place += Math.ceil(list.byteLength / 4) * 4;
        return list;
      };
      for (const { classes, plies } of lists) {
        Core.ranksOf(profile, pieces, classes, room(Uint32Array, classes.length), (i) => tell((before + i) / all));
        room(Uint16Array, plies.length).set(plies);
        before += classes.length;
      }
      return words;
    }

    // Throws why a certificate doesn't prove what it claims. The position is that of its root. `tell` is called with the part that is done,
    // and before the call, which tells nothing on its way, with about how many milliseconds it takes.
    const CLAIMS = ["draw", "win", "loss", "winWithin", "lossWithin"];
    function verify({ profile, pieces, root, claim, plies, lost, held }, tell = () => {}) {
      const position = Core.positionAt(profile, pieces, root);
      if (classOf(profile, position) !== root) throw new Core.Fault("E33 RootClass");
      const since = performance.now(), lists = giveLists({ profile, pieces }, [lost, held], (part) => tell(GIVEN * part));
      tell(GIVEN, REST * (performance.now() - since));
      const answer = calls.dobutsu_certified(...ask(profile, position), CLAIMS.indexOf(claim), plies, ...lists, OUT_AT);
      if (answer === UNSUPPORTED) {
        const place = Number(long(0)), behind = place - lost.classes.length;
        throw new Core.Fault(`E30 Unsupported class ${behind < 0 ? lost.classes[place] : held.classes[behind]}`);
      }
      accept(answer);
    }

    // Once, against the other engine: a module that doesn't run here as it should isn't taken.
    const lions = Core.readPosition("..l/.../.C./.L. - -");
    if (classOf("A", lions) !== Core.classNumber("A", lions)) throw new Error("another class number");
    const valueOf = (record) => told(calls.dobutsu_value, record), afterMove = (record) => told(calls.dobutsu_value_of_move, record);
    return { isProved: true, moves, classOf, classAfter, apply, moveText, valueOf, afterMove, readHeader, verify };
  },
};
