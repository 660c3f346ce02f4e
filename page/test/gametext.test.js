// node page/test/gametext.test.js [GAMETEXT]: which words of a game's text are moves, which text is a link, and what the bytes of files say; GAMETEXT is
// page/gametext.js by default.
"use strict";
const fs = require("fs"), path = require("path");
const GameText = require(path.resolve(process.argv[2] || path.join(__dirname, "..", "gametext.js")));
let compared = 0, bad = 0;
function same(what, found, wanted) {
  compared++;
  if (JSON.stringify(found) !== JSON.stringify(wanted) && ++bad) console.log("differs:", what, JSON.stringify(found), JSON.stringify(wanted));
}

// ---- words

const JAPANESE = ["2二ひよこ<23>", "同ぞう<11>", "1三きりん<14>"]; // whose ranks Notation reads
const MARKED = ["▲2二ひよこ", "△同ぞう", "▲1三きりん"];
const LATIN = ["Cb2xb3", "ec4xb3", "Gc1-c2"];
const TEXTS = [ // what the text has, the text, its words, its variations
  ["moves alone", "Cb2xb3 ec4xb3, Gc1-c2", LATIN],
  ["numbers and marks", "1. Cb2xb3! ec4xb3?? 2.Gc1-c2#", LATIN],
  ["tags with a number sign", '[Event "Game #12"]\n[Site "a/b"]\n\n1. Cb2xb3 ec4xb3 2. Gc1-c2 1-0', [...LATIN, "1-0"]],
  ["a comment line", "# game of Monday\nCb2xb3 ec4xb3\n  # and more: b1\nGc1-c2", LATIN],
  ["comments", "Cb2xb3 {good # b2b3} ec4xb3 ; b2b3 is worse\nGc1-c2 # c*b1", LATIN],
  ["nothing but a comment", "# game of Monday", []],
  ["lines in parentheses", "Cb2xb3 (Lb1-a2) ec4xb3", ["Cb2xb3", "(", "Lb1-a2", ")", "ec4xb3"]],
  ["a record of Kifu for Windows", "# ---- Kifu for Windows V7 ----\n手数----指手---------消費時間--\n   1 ２二ひよこ(23)   ( 0:01/00:00:01)\n   2 同　ぞう(11)\n   3 １三きりん(14)   ( 0:02/00:00:03)+\nまで3手で先手の勝ち", JAPANESE],
  ["the usual first line", "#KIF version=2.0\n1 ２二ひよこ(23)\n2 同　ぞう(11)\n3 １三きりん(14)+", JAPANESE],
  ["comments of a record", "▲２二ひよこ\n*▲１二ライオンもある\n**深い\n&しおり\n△同　ぞう ▲１三きりん", MARKED],
  ["headers", "先手：はな\n記録係：太郎\n棋戦詳細：第2回、1回戦\n備考：2二ひよこ\n先手の持駒：なし\n謎の欄3：12\nhttps://example.com/a:b\n▲２二ひよこ △同ぞう\n▲１三きりん", MARKED],
  ["seconds", "▲２二ひよこ（3秒）\n△同　ぞう（1分2秒）\n▲１三きりん", MARKED],
  ["a diagram", "後手の持駒：なし\n  ３ ２ １\n+---------+\n|vきvらvぞ|一\n|ぞ ら き|四\n+---------+\n手数＝0 まで\n▲２二ひよこ △同ぞう ▲１三きりん", MARKED],
  ["variations", "1 ２二ひよこ(23)\n2 同　ぞう(11)\n3 １三きりん(14)\n\n変化：3手\n3 ３三ライオン(24)\n\n変化：2手\n2 同　ライオン(21)", JAPANESE, 2],
];
for (const [what, given, words, variations = 0] of TEXTS) same(what, GameText.read(given), { words, variations, hasDiagram: what === "a diagram" });
for (const end of ["投了", "詰み", "トライ", "千日手", "持将棋", "反則勝ち", "反則負け", "時間切れ", "中断", "1-0", "0-1", "1/2-1/2", "*"]) same(`${end} ends a game`, GameText.isEnd(end), true);
for (const move of ["Cb2xb3", "▲22ひよこ", "*b2", "22ひよこ", "1-0x"]) same(`${move} ends none`, GameText.isEnd(move), false);

// ---- links

const LINKS = [ // the text, and its address or null
  ["#.l./.../.C./.L._-_-:Lb1-a2", "#.l./.../.C./.L._-_-:Lb1-a2"], ["see file:///a/dobutsu.html#B;~gle/.c./.C./ELG_-_-:lb4-c3 there", "#B;~gle/.c./.C./ELG_-_-:lb4-c3"],
  ["PAGE#.l./.../.C./.L.%5F-%5F-", "#.l./.../.C./.L.%5F-%5F-"], ["#glx/.c./.C./ELG_-_-", "#glx/.c./.C./ELG_-_-"], ["#KIF version=2.0\nLb1-a2", null], ["# ---- Kifu for Windows ----", null], ['[Event "Game #12"]', null],
  ["3. La3xb4#", null], ["# gle/.c./.C./ELG - -", null], ["#gle/.c./.C./ELG - - Lb1-a2", null], ["{PAGE#.l./.../.C./.L._-_-} Lb1-a2", null], ["*PAGE#.l./.../.C./.L._-_-\nLb1-a2", null],
];
for (const [given, link] of LINKS) same(`the link of ${given}`, GameText.link(given), link);

// ---- bytes

const bytesOf = (name) => new Uint8Array(fs.readFileSync(path.join(__dirname, "games", name)));
const wordsOf = (name) => GameText.read(GameText.decode(bytesOf(name)));
same("a file in Shift_JIS", wordsOf("shift_jis.kif"), { words: [...JAPANESE, "3三ひよこ打", "2三ひよこ打", "投了"], variations: 2, hasDiagram: false });
same("a file in UTF-8", wordsOf("utf_8.ki2"), { words: [...MARKED, "△3三ひよこ打", "▲2三ひよこ打"], variations: 0, hasDiagram: true });
same("a file with tags", wordsOf("tags.txt"), { words: [...LATIN, "c*a2", "C*b2", "1-0"], variations: 0, hasDiagram: false });
same("bytes of both kinds of letters", ["ひよこ\n", [0x82, 0xd0, 0x82, 0xe6, 0x82, 0xb1, 0x0a]].map((it) => GameText.decode(typeof it === "string" ? new TextEncoder().encode(it) : new Uint8Array(it))), ["ひよこ\n", "ひよこ\n"]);
same("bytes that are no text", [[68, 0, 79], [255, 255], [1]].map((it) => GameText.decode(new Uint8Array(it))), [null, null, null]);

// ---- files

const file = (name, words, size = 1) => Object.assign(new Blob([words]), { name }, size > 1 ? { size } : {});
(async () => {
  const texts = [["a.kif", "▲22ひよこ"], ["a.db", "no table"], ["a.CERT", "none"], ["a", "DOBUTSU2 and more"], ["a.txt", ""], ["a.txt", "a\0b"]];
  const found = [];
  for (const [name, words] of texts) found.push(await GameText.textOf(file(name, words)));
  same("texts of files", found, ["▲22ひよこ", null, null, null, null, null]);
  same("a file that can't be read", await GameText.textOf({ name: "a.kif", size: 9, arrayBuffer: async () => { throw new Error("lost"); } }), null);
  same("a file that is too large", await GameText.textOf({ name: "a.kif", size: (1 << 20) + 1, arrayBuffer: async () => new ArrayBuffer(1) }), null);
  console.log(`gametext.js: ${compared} compared, ${bad} differ`);
  process.exit(bad ? 1 : 0);
})();
