// node page/test/wasm.test.js MODULE [N [CORE]]: the proved engine against the one in JavaScript (page/core.js unless it is named), on N random positions of
// set 111 and others in both profiles, with each of their moves, on headers that are spoilt, and on the whole game's certificates, spoilt ones among them.
"use strict";
const fs = require("fs"), path = require("path"), zlib = require("zlib");
const [module_, count = "2000", core = path.join(__dirname, "..", "core.js")] = process.argv.slice(2);
const Core = require(path.resolve(core)), page = path.join(__dirname, "..");
global.window = {};
eval(fs.readFileSync(path.join(page, "wasm.js"), "utf8").replace("/*BYTES*/", zlib.gzipSync(fs.readFileSync(module_)).toString("base64")));

let seed = 5;
const random = (below) => { seed = (seed * 1103515245 + 12345) % 2147483648; return Math.floor(seed / 65536) % below; };

// A position of at most so many of each kind.
function draw(pieces) {
  const squares = Array(12).fill("."), mover = [0, 0, 0], enemy = [0, 0, 0];
  const empty = () => { let square; do square = random(12); while (squares[square] !== "."); return square; };
  squares[random(9)] = "L";
  squares[empty()] = "l";
  ["CHch", "Ee", "Gg"].forEach((forms, kind) => {
    for (let left = pieces[kind]; left > 0; left--) {
      const where = random(4);
      if (where === 0) mover[kind]++;
      else if (where === 1) enemy[kind]++;
      else squares[empty()] = forms[random(forms.length)];
    }
  });
  return { squares: squares.join(""), mover, enemy };
}

const faultOf = (call) => { try { return JSON.stringify(call()); } catch (fault) { return fault.fault || String(fault); } };

(async () => {
  const script = Core.engine, proved = await window.DobutsuWasm.open(Core);
  let asked = 0, compared = 0, bad = 0;
  function same(what, a, b) {
    compared++;
    if (JSON.stringify(a) !== JSON.stringify(b) && bad++ < 5) console.log("differs:", what, JSON.stringify(a), JSON.stringify(b));
  }

  const bare = ({ status, moves }) => ({ status, moves: moves.map(({ letter, from, to }) => ({ letter, from, to })) });
  for (let left = +count; left > 0; left--) {
    const pieces = left % 4 ? [1, 1, 1] : [random(3), random(3), random(3)], position = draw(pieces);
    for (const profile of "AB") {
      if (!Core.isAllowed(profile, position)) continue;
      const name = `${profile} ${Core.writePosition(position)}`;
      asked++;
      same(name, script.classOf(profile, position), proved.classOf(profile, position));
      const told = script.moves(profile, position), found = proved.moves(profile, position);
      same(name, bare(told), bare(found));
      if (told.moves.length !== found.moves.length) continue;
      told.moves.forEach((move, i) => {
        for (const second of [false, true]) same(name, script.moveText(profile, position, move, second), proved.moveText(profile, position, found.moves[i], second));
        if (told.status !== "open") return;
        same(name, Core.writePosition(script.apply(profile, position, move)), Core.writePosition(proved.apply(profile, position, found.moves[i])));
        same(name, script.classAfter(profile, position, move), proved.classAfter(profile, position, found.moves[i]));
        same(name, script.classAfter(profile, position, move), proved.classAfter(profile, position, move));
      });
    }
  }

  for (let code = 0; code < 400; code++) {
    const record = Uint8Array.of(code % 256, Math.floor(code / 256));
    same(`record ${code}`, script.valueOf(record), proved.valueOf(record));
    same(`move by record ${code}`, script.afterMove(record), proved.afterMove(record));
  }
  same("half a record", "E15 Truncated", faultOf(() => proved.valueOf(Uint8Array.of(1))));

  // headers: those of a family, and each byte spoilt, by the faults in the order of docs/FORMAT.md
  const header = [..."DOBUTSU2"].map((it) => it.charCodeAt(0)).concat([1, 1, 1, 2, 0], [176, 173, 11, 0, 0, 0, 0, 0]); // 765,360 classes
  const first = [..."DOBUTSU1"].map((it) => it.charCodeAt(0)).concat([0, 0, 0, 2], [54, 0, 0, 0, 0, 0, 0, 0]);
  const size = (start, classes) => start + 2 * classes + 32;
  const test = (bytes, length) => faultOf(() => proved.readHeader(Uint8Array.from(bytes), length));
  same("header of 111", JSON.stringify({ set: [1, 1, 1], profile: "A", classes: 765360, first: 21 }), test(header, size(21, 765360)));
  same("header of 000", JSON.stringify({ set: [0, 0, 0], profile: "A", classes: 54, first: 20 }), test([...first, 0], size(20, 54)));
  const spoilt = (place, byte) => header.map((it, i) => (i === place ? byte : it));
  for (const [what, bytes, length, fault] of [
    ["nothing", [], 0, "E15 Truncated"], ["19 bytes", header.slice(0, 19), 19, "E15 Truncated"], ["20 bytes", header.slice(0, 20), 20, "E15 Truncated"],
    ["a byte less", header, size(21, 765360) - 1, "E15 Truncated"], ["a byte more", header, size(21, 765360) + 1, "E19 Trailing"],
    ["title", spoilt(7, 51), size(21, 765360), "E16 Magic"], ["pieces", spoilt(9, 3), size(21, 765360), "E17 SetByte"], ["lions", spoilt(11, 1), size(21, 765360), "E17 SetByte"],
    ["profile", spoilt(12, 2), size(21, 765360), "E27 ProfileByte"], ["other rules", spoilt(12, 1), size(21, 765360), "E18 ClassCount"],
    ["count", spoilt(13, 177), size(21, 765360), "E18 ClassCount"], ["far count", spoilt(20, 1), size(21, 765360), "E18 ClassCount"],
  ]) same(what, fault, test(bytes, length));

  // positions that are none are refused by the faults of their texts
  for (const [squares, hands, fault] of [["L..L.......l", [0, 0, 0], "E4 Lions"], ["L....CCC...l", [0, 0, 0], "E5 Count"], [".........Ll.", [0, 0, 0], "E6 FarLion"]])
    same(squares, fault, faultOf(() => proved.classOf("A", { squares, mover: hands, enemy: hands })));
  same("a chick on its far row", "E26 FarChick", faultOf(() => proved.moves("B", { squares: "L......l..C.", mover: [0, 0, 0], enemy: [0, 0, 0] })));

  // the whole game's certificates prove what they claim, and no more, and not without an entry or with a false one
  global.DobutsuCore = Core;
  const Certificates = require(path.join(page, "certificate.js"));
  for (const rules of "AB") {
    const certificate = await Certificates.read(new Uint8Array(fs.readFileSync(path.join(page, "..", "testdata", `222_${rules}.cert`))));
    const { classes, plies } = certificate.lost, root = classes.indexOf(certificate.root), late = plies.indexOf(60);
    const without = (place) => ({ classes: classes.filter((_, i) => i !== place), plies: plies.filter((_, i) => i !== place) });
    const false_ = plies.map((it, i) => (i === late ? 2 : it)), twice = classes.map((it, i) => (i === 9 ? classes[8] : it));
    for (const [what, change, fault] of [
      ["whole", {}, undefined], ["a claim of 76", { plies: 76 }, "E31 Claim"], ["a win", { claim: "winWithin" }, "E31 Claim"], ["no root", { lost: without(root) }, "E31 Claim"],
      ["a false entry", { lost: { classes, plies: false_ } }, `E30 Unsupported class ${classes[late]}`],
      ["plies missing", { lost: { classes, plies: plies.slice(1) } }, "E29 Call"], ["a class twice", { lost: { classes: twice, plies } }, "E29 Call"],
    ]) same(`222_${rules}.cert: ${what}`, fault, faultOf(() => proved.verify({ ...certificate, ...change })));
  }

  // an exact one, by both lists: what is found of it with each number of plies changed is what JavaScript finds
  const exact = await Certificates.read(new Uint8Array(fs.readFileSync(path.join(page, "..", "testdata", "one_chick.cert"))));
  const checked = async (certificate) => Certificates.check(certificate, () => {}).then(() => undefined, (fault) => fault.fault || String(fault));
  const claims = ["draw", "win", "loss", "winWithin", "lossWithin"].flatMap((claim) => [0, 1, 7, 8, 9].map((plies) => ({ claim, plies })));
  const changed = ["lost", "held"].flatMap((list) => [...exact[list].plies.keys()].flatMap((place) => [-1, 1, 2, -2].map((more) => ({
    [list]: Object.assign(Object.create(Object.getPrototypeOf(exact[list])), { classes: exact[list].classes, plies: exact[list].plies.map((it, i) => (i === place ? Math.max(0, it + more) : it)) }),
  }))));
  for (const change of [{}, ...claims, ...changed]) {
    const spoilt = { ...exact, ...change };
    same(`one_chick.cert with ${JSON.stringify(change)}`, await checked(spoilt), faultOf(() => proved.verify(spoilt)));
  }
  console.log(`${path.basename(module_)}: ${asked} positions, ${compared} answers compared, ${bad} differ`);
  process.exit(bad || !asked ? 1 : 0);
})();
