// node page/test/told.test.js MODULE PROGRAM [N [CORE]]: the proved engine against the program `dobutsu` on N positions of set 111 by each of the rules: the value of
// each and of all that its moves lead to, read from files that the program builds at the class numbers that the engine tells, against the program's `probe --each`; and
// the moves with their values of one position in forty against its `moves`.
"use strict";
const fs = require("fs"), os = require("os"), path = require("path"), zlib = require("zlib"), { spawnSync } = require("child_process");
const [module_, program, count = "2000", core = path.join(__dirname, "..", "core.js")] = process.argv.slice(2);
const Core = require(path.resolve(core));
global.window = {};
eval(fs.readFileSync(path.join(__dirname, "..", "wasm.js"), "utf8").replace("/*BYTES*/", zlib.gzipSync(fs.readFileSync(module_)).toString("base64")));

let seed = 54;
const random = (below) => { seed = (seed * 1103515245 + 12345) % 2147483648; return Math.floor(seed / 65536) % below; };
function draw() {
  const squares = Array(12).fill("."), mover = [0, 0, 0], enemy = [0, 0, 0];
  const empty = () => { let square; do square = random(12); while (squares[square] !== "."); return square; };
  squares[random(9)] = "L";
  squares[empty()] = "l";
  ["CHch", "Ee", "Gg"].forEach((forms, kind) => {
    const where = random(5);
    if (where === 0) mover[kind]++;
    else if (where === 1) enemy[kind]++;
    else squares[empty()] = forms[random(forms.length)];
  });
  return { squares: squares.join(""), mover, enemy };
}

const shown = ({ kind, plies }) => (kind === "draw" ? kind : `${kind} ${plies}`);
const goodness = ({ kind, plies }) => ({ win: 1e6 - plies, draw: 0, loss: plies - 1e6 })[kind];

(async () => {
  const engine = await window.DobutsuWasm.open(Core), folder = fs.mkdtempSync(path.join(os.tmpdir(), "page-told-"));
  let compared = 0, bad = 0;
  function run(words, input = "") {
    const ran = spawnSync(program, words, { input, encoding: "utf8", maxBuffer: 1 << 28 });
    if (ran.error || ran.status) throw new Error(`${program} ${words.join(" ")}: ${ran.error || ran.stderr}`);
    return ran.stdout.split("\n").slice(0, -1);
  }
  function same(what, told, found) {
    compared++;
    if (told !== found && bad++ < 5) console.log("differs:", what, told, found);
  }
  try {
    for (const profile of "AB") {
      const file = path.join(folder, `${profile}.db`);
      run(["build", "--set", "111", "--rules", profile, "--nodes", "2", "--out", file]);
      const bytes = fs.readFileSync(file), header = engine.readHeader(bytes.subarray(0, 21), bytes.length);
      const recordAt = (number) => bytes.subarray(header.first + 2 * number, header.first + 2 * number + 2);
      const texts = [], values = [];
      const note = (text, value) => { texts.push(text); values.push(shown(value)); };
      for (let left = +count; left > 0; left--) {
        let position;
        do position = draw(); while (!Core.isAllowed(profile, position));
        const text = Core.writePosition(position), { status, moves } = engine.moves(profile, position);
        note(text, engine.valueOf(recordAt(engine.classOf(profile, position))));
        const valued = moves.map((move) => {
          const name = engine.moveText(profile, position, move, false);
          if (status === "caught") return { name, value: { kind: "win", plies: 1 } };
          const record = recordAt(engine.classAfter(profile, position, move));
          note(Core.writePosition(engine.apply(profile, position, move)), engine.valueOf(record));
          return { name, value: engine.afterMove(record) };
        });
        if (left % 40) continue;
        const best = valued.map((it, order) => ({ ...it, order })).sort((a, b) => goodness(b.value) - goodness(a.value) || a.order - b.order);
        const lines = best.slice(0, status === "caught" ? 1 : undefined).map((it) => `${it.name} ${shown(it.value)}`);
        same(`moves of ${text} by ${profile}`, run(["moves", "--db", file, text]).join(", "), lines.join(", ") || "end");
      }
      run(["probe", "--db", file, "--each"], texts.join("\n") + "\n").forEach((told, i) => same(`${texts[i]} by ${profile}`, told, values[i]));
    }
  } finally {
    fs.rmSync(folder, { recursive: true });
  }
  console.log(`${path.basename(module_)} and ${path.basename(program)}: ${compared} answers compared, ${bad} differ`);
  process.exit(bad || compared < 2 * +count ? 1 : 0);
})();
