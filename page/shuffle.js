// The order in which the program goes over the classes of a table for `puzzles --random SEED`, as the crate dob_shuffle says it: numbers lie row by row on a
// square, and three rounds turn each column by a word of its row, and each row by a word of its column. The words are those of SplitMix64 (Steele, Lea and
// Flood 2014). Each number below the count has a place, and some places have none.
class Shuffle {
  // Of the numbers below `count`, by a seed below 2^64, which is a BigInt.
  constructor(seed, count) {
    this.side = Math.floor(Math.sqrt(count)) + 1;
    this.keys = [0n, 1n, 2n].map((i) => Shuffle.word(seed + i * Shuffle.GOLDEN));
  }
  static GOLDEN = 0x9e3779b97f4a7c15n; // from a state to the next one
  static word(state) {
    const cut = (number) => BigInt.asUintN(64, number), z = cut(state + Shuffle.GOLDEN);
    const mixed = cut((z ^ (z >> 30n)) * 0xbf58476d1ce4e5b9n), more = cut((mixed ^ (mixed >> 27n)) * 0x94d049bb133111ebn);
    return more ^ (more >> 31n);
  }
  // By how many steps a line is turned, by its key and number.
  steps(key, number) { return Number(Shuffle.word(key + BigInt(number)) % BigInt(this.side)); }
  get places() { return this.side * this.side; }
  numberAt(place) {
    const { side, keys } = this;
    let row = Math.floor(place / side), column = place % side;
    for (const key of keys) {
      column = (column + this.steps(key, row)) % side;
      row = (row + this.steps(key, side + column)) % side;
    }
    return row * side + column;
  }
  placeOf(number) {
    const { side, keys } = this;
    let row = Math.floor(number / side), column = number % side;
    for (const key of [...keys].reverse()) {
      row = (row + side - this.steps(key, side + column)) % side;
      column = (column + side - this.steps(key, row)) % side;
    }
    return row * side + column;
  }
}
if (typeof module === "object") module.exports = Shuffle;
