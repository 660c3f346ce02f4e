// A game as a text or a file: which words of it are moves, and which letters its bytes are. What records have besides goes: tags, headers, comments, clocks,
// results, a board's diagram. Of a record with variations (変化) the main line is read.
const GameText = (() => {
  "use strict";
  const MOST_BYTES = 1 << 20; // of a file that may be a game
  const TITLES = /^DOBU(?:TSU|CERT)/, NAMES = /\.(?:db|cert)$/i; // of tables and certificates, docs/FORMAT.md
  const CONTROL = /[\0-\x08\x0b\x0e-\x1f]/; // no text has these
  const DOS_END = 0x1a; // a byte behind the text
  // An address as the page writes it: `#`, the rules, the side, four rows of three, `_`, and what follows up to a blank.
  const LINK = /#(?:[AB];)?~?[^\s#:/]{3}(?:\/[^\s#:/]{3}){3}(?:_|%5F)\S*/i;
  const COMMENTS = /\{[^}]*\}|\[[^\]]*\]|^\s*[#*&%].*$|\s[#;].*$/gm; // lines of these signs, and what stands in brackets or behind `#` or `;`
  // Lines without moves: a name with a colon, the heads of columns, edges and rows of a diagram, and the sentence that ends a record.
  const ASIDE = /^\s*(?:(?![\d▲☗▼△☖▽同])(?:(?![abc][1-4])[^:\n])*:|手数|[+|]|まで).*$/gim;
  const CLOCK = /\(\s*\d+[:分秒][^)]*\)\+?/g; // `+` behind it says that a variation begins there
  const VARIATION = /^\s*変化\s*:/gm, DIAGRAM = /^\s*\|.*\|/m;
  const END = /^(?:投了|まいりました|詰み?|トライ|キャッチ|千日手|持将棋|引き分け|反則勝ち|反則負け|時間切れ|切れ負け|不戦敗|中断|封じ手|(?:1-0|0-1|1\/2-1\/2|\*)$)/;

  // The address that a text has outside its comments, or null.
  function link(given) {
    const [found] = LINK.exec(given.replace(/\{[^}]*\}|^\s*[*&].*$/gm, " ")) || [null];
    return found;
  }
  // { words, variations, hasDiagram }: the words of the main line, in which a square in brackets stays with its move and a mark of a side begins one, how many
  // variations follow it, and whether a diagram says where it begins, of which nothing is read.
  function read(given) {
    const plain = given.normalize("NFKC").replace(COMMENTS, " "), begins = plain.search(VARIATION);
    const main = (begins < 0 ? plain : plain.slice(0, begins)).replace(CLOCK, " ").replace(ASIDE, " ");
    const words = main.replace(/\(([1-3][1-4])\)\+?/g, "<$1>").replace(/[()]/g, " $& ").replace(/[▲☗▼△☖▽]/g, " $&").replace(/同\s+/g, "同").split(/[\s,]+/)
      .map((word) => word.replace(/^\d*\.+/, "").replace(/[?!#]+$/, "")).filter((word) => word && !/^(?:\d+|\$\d+)$/.test(word));
    return { words, variations: (plain.match(VARIATION) || []).length, hasDiagram: DIAGRAM.test(plain) };
  }
  const isEnd = (word) => END.test(word);

  // What bytes say as UTF-8, or else as Shift_JIS; null where they are no text.
  function decode(bytes) {
    for (const name of ["utf-8", "shift_jis"]) {
      try {
        const words = new TextDecoder(name, { fatal: true }).decode(bytes.at(-1) === DOS_END ? bytes.subarray(0, -1) : bytes);
        return CONTROL.test(words) ? null : words;
      } catch { /* it has other letters */ }
    }
    return null;
  }
  // The text of a file, or null where it is none, but a table or a certificate, or can't be read.
  async function textOf(file) {
    if (!file.size || file.size > MOST_BYTES || NAMES.test(file.name)) return null;
    const found = await file.arrayBuffer().catch(() => null), words = found && decode(new Uint8Array(found));
    return words && !TITLES.test(words) ? words : null;
  }

  return { link, read, isEnd, decode, textOf };
})();
if (typeof module === "object") module.exports = GameText;
