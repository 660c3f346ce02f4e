// node page/test/core.test.js [NUMBER]: the engine in JavaScript against tools/read_db.py, on so many positions of all sets drawn at
// random and by both rules: class numbers, statuses, moves and what they lead to; and positions of class numbers, both ways.
"use strict";
const { spawnSync } = require("child_process");
const path = require("path");
const Core = require("../core.js");

const NUMBER = +(process.argv[2] || 3000);
const TOOLS = path.join(__dirname, "../../tools");
const READER = `
import sys
sys.dont_write_bytecode = True
sys.path.insert(0, ${JSON.stringify(TOOLS)})
import read_db as reader
for line in sys.stdin:
    rules, text = line.rstrip("\\n").split("|")
    position = reader.read_position(text)
    status, moves = reader.status_and_moves(rules, position)
    after = lambda move: "" if status == "caught" else ">" + reader.write_position(reader.apply(position, move))
    print(reader.class_number(rules, position), status, ",".join(reader.move_text(position, move) + after(move) for move in moves), sep=";")
`;

let seed = 1;
function draw(below) {
  seed = (seed * 1103515245 + 12345) % 2147483648;
  return Math.floor(seed / 65536) % below;
}
function drawPosition() {
  const squares = Array(12).fill("."), mover = [0, 0, 0], enemy = [0, 0, 0];
  const empty = () => { let square; do square = draw(12); while (squares[square] !== "."); return square; };
  squares[draw(9)] = "L";
  squares[empty()] = "l";
  ["CHch", "Ee", "Gg"].forEach((forms, kind) => {
    for (let left = draw(3); left > 0; left--) {
      const where = draw(4);
      if (where === 0) mover[kind]++;
      else if (where === 1) enemy[kind]++;
      else squares[empty()] = forms[draw(forms.length)];
    }
  });
  return { squares: squares.join(""), mover, enemy };
}

function told(rules, position) {
  const { status, moves } = Core.statusAndMoves(rules, position), some = status === "caught" ? moves.slice(0, 1) : moves;
  const after = (move) => (status === "caught" ? "" : `>${Core.writePosition(Core.apply(position, move))}`);
  return [Core.classNumber(rules, position), status, some.map((move) => Core.moveText(position, move) + after(move)).join(",")].join(";");
}

let wrong = 0;
const differs = (...words) => { if (wrong++ < 3) console.log("FAILED:", ...words); };

const asked = [];
while (asked.length < NUMBER) {
  const position = drawPosition();
  for (const rules of "AB") if (Core.isAllowed(rules, position)) asked.push([rules, Core.writePosition(position)]);
}
const ran = spawnSync("python3", ["-c", READER], { input: asked.map((it) => `${it.join("|")}\n`).join(""), encoding: "utf8", maxBuffer: 1 << 30 });
const wanted = ran.stdout.split("\n");
asked.forEach(([rules, text], i) => { if (told(rules, Core.readPosition(text)) !== wanted[i]) differs(rules, text); });

// Of each class number drawn the position has that number. The sizes of families are those of docs/FORMAT.md.
const SIZES = [["000", 54, 54], ["001", 1116, 1116], ["100", 2124, 1864], ["200", 39978, 30790], ["111", 765360, 672480], ["222", 588021930, 456797042]];
for (const [set, a, b] of SIZES) {
  for (const [rules, count] of [["A", a], ["B", b]]) {
    const pieces = [...set].map(Number);
    if (Core.countClasses(rules, pieces) !== count) differs("classes of", set, rules);
    for (let i = 0; i < 50; i++) {
      const number = Math.floor((draw(32768) / 32768) * count);
      if (Core.classNumber(rules, Core.positionAt(rules, pieces, number)) !== number) differs("class", number, "of", set, rules);
    }
  }
}
// The order of a seed is that of the Python package, which is the program's; and each number stands at its place.
const Shuffle = require("../shuffle.js"), seeds = [[1n, 10], [7n, 54], [123456789012345n, 2124], [18446744073709551615n, 1]];
const ORDERS = `
import sys
sys.dont_write_bytecode = True
sys.path.insert(0, ${JSON.stringify(path.join(TOOLS, "../python"))})
from dobutsu import puzzles
for line in sys.stdin:
    print(*puzzles.shuffled(*map(int, line.split())))
`;
const orders = spawnSync("python3", ["-c", ORDERS], { input: seeds.map((it) => `${it.join(" ")}\n`).join(""), encoding: "utf8" }).stdout.split("\n");
seeds.forEach(([seed, count], i) => {
  const order = new Shuffle(seed, count), all = Array.from({ length: order.places }, (_, place) => order.numberAt(place));
  if (all.filter((it) => it < count).join(" ") !== orders[i]) differs("the order of seed", seed);
  if (all.some((number, place) => order.placeOf(number) !== place)) differs("places by seed", seed);
});
// Positions of classes in a row are those of each.
for (const rules of "AB") {
  const numbers = Array.from({ length: 300 }, () => draw(32768) * 17), row = [...new Set(numbers)].sort((a, b) => a - b), pieces = [2, 1, 1];
  const found = [...Core.positionsOf(rules, pieces, row)];
  row.forEach((number, i) => { if (Core.writePosition(found[i]) !== Core.writePosition(Core.positionAt(rules, pieces, number))) differs("class in a row", number, rules); });
}

console.log(`${asked.length} positions and 600 classes, ${wrong} differences`);
process.exit(wrong || ran.status ? 1 : 0);
