// The set at a glance: how many classes are won, lost and drawn, a chart by distance, the longest win and loss, zugzwangs, and positions that one move alone
// saves, each a click away. An open file is counted here in slices, between which the page answers; of the whole game the results are in the page.
const Glance = (() => {
  "use strict";
  const Core = DobutsuCore;
  const { text } = Texts;
  const { options, node, button } = View;
  const limits = { classes: 1 << 25 }; // a larger file isn't counted
  const SLICE = 12, WINDOW = 1 << 16, STRIDE = 1000003; // milliseconds of counting; classes that are read at once; a prime, so that its steps meet each class once
  const HALF = 50; // of the chart's height
  const LOST = 1; // the record of a position that is lost at once
  const element = (id) => document.getElementById(id);

  const counted = new Map(); // of files that were counted their census
  let restart = null; // of the page: puts a game on the board by a call that loads it
  let shown = null; // the census that is shown
  let picked = 2; // the record that is told of it
  let part = null, notice = null; // how far counting is, and the name of a text about the last search
  let turn = 0;

  // ---- what is counted: { name, profile, counts, longestWin, longestLoss, zugzwangs } and of a file { table, records, lost }, the last the numbers of the
  // classes that are lost, but not at once

  const isWin = (record) => record > 0 && record % 2 === 0, isLoss = (record) => record % 2 === 1;
  const valueOf = (record) => Core.valueOf(record), said = (record) => Texts.value(valueOf(record), options.inMoves);
  const textAt = ({ profile, pieces }, number) => Core.writePosition(Core.positionAt(profile, pieces, number));
  const longest = (counts, isOne) => counts.findLastIndex((number, record) => number > 0 && isOne(record));

  const pause = () => new Promise((done) => setTimeout(done, 0));
  // Does something with each number below the end, in slices; `tell` is called between them. Says whether it was done: it isn't where it is late.
  async function each(end, act, isLate, tell = () => {}) {
    let since = performance.now();
    for (let i = 0; i < end; i++) {
      if (act(i)) return true;
      if (i % 32 || performance.now() - since < SLICE) continue;
      tell(i / end);
      await pause();
      if (isLate()) return false;
      since = performance.now();
    }
    return true;
  }

  async function recordsOf(table, isLate) {
    const records = new Uint16Array(table.count);
    for (let first = 0; first < table.count && !isLate(); first += WINDOW) records.set(await table.records(first, Math.min(WINDOW, table.count - first)), first);
    return records;
  }
  // The pairs of a position and its turn, the same board with the other side to move, that are lost by both, or by one where the other draws. The turn of a
  // position that is lost, but not at once, is a position of the set.
  async function zugzwangsOf({ table: { profile, pieces }, records, lost }, isLate, tell) {
    const engine = Game.engine(), found = { both: 0, half: 0, deepest: null, classes: [] }, positions = Core.positionsOf(profile, pieces, lost);
    const depth = ({ plies, turnPlies }) => 1000 * Math.min(plies, turnPlies) + Math.max(plies, turnPlies);
    const isDone = await each(lost.length, (i) => {
      const number = lost[i], record = records[number], turned = engine.classOf(profile, Core.turned(positions.next().value)), other = records[turned];
      if (isWin(other) || other === LOST || (other && turned < number)) return;
      found[other ? "both" : "half"]++;
      found.classes.push(number);
      const pair = { number, plies: record - 1, turnPlies: other - 1 };
      if (other && (!found.deepest || depth(pair) > depth(found.deepest))) found.deepest = pair;
    }, isLate, tell);
    if (found.deepest) found.deepest.text = textAt({ profile, pieces }, found.deepest.number);
    return isDone ? found : null;
  }
  async function census(table, isLate, tell) {
    const records = await recordsOf(table, isLate), counts = [], firsts = [], lost = [], { profile } = table;
    const made = { table, records, lost, profile, counts, zugzwangs: null };
    await each(records.length, (number) => {
      const record = records[number];
      if (!counts[record]) firsts[record] = number;
      counts[record] = (counts[record] || 0) + 1;
      if (isLoss(record) && record !== LOST) lost.push(number);
    }, isLate, tell);
    for (let record = 0; record < counts.length; record++) counts[record] = counts[record] || 0;
    const first = (isOne) => { const record = longest(counts, isOne); return record < 0 ? null : textAt(table, firsts[record]); };
    return Object.assign(made, { longestWin: first(isWin), longestLoss: first(isLoss) });
  }

  // ---- what is chosen

  const small = () => Files.withRecords().filter((table) => table.count <= limits.classes);
  const sources = () => [...small().map((table) => ({ key: table.key, table })), ...["A", "B"].map((rules) => ({ key: rules, rules }))];
  const nameOf = ({ table, rules }) => (table ? text("glanceFile", table.set, table.profile) : text("glanceWhole", rules));
  // Offers what there is. A file that was opened since is chosen, else what was chosen stays where it is there still.
  function fill() {
    const select = element("glance-set"), was = [...select.options].map(({ value }) => value), { value } = select, all = sources(), keys = all.map(({ key }) => key);
    const isKept = keys.includes(value) && keys.every((key) => was.includes(key));
    select.replaceChildren(...all.map((source) => new Option(nameOf(source), source.key)));
    select.value = isKept ? value : keys[Math.max(0, small().length - 1)];
  }
  // Counts what is chosen, unless it is known, and shows it. The census stands before the zugzwangs are counted.
  async function look() {
    const chosen = () => sources().find(({ key }) => key === element("glance-set").value);
    if (!chosen()) fill(); // its file was closed while this card was
    const { table, rules } = chosen(), mine = ++turn, isLate = () => mine !== turn;
    notice = part = null;
    picked = 2;
    shown = table ? counted.get(table) || null : { profile: rules, ...Results[rules] };
    draw();
    const isKnown = !table || (!!shown && !!shown.zugzwangs);
    element("glance").setAttribute("aria-busy", !isKnown);
    if (isKnown) return;
    try {
      const tell = (done) => { part = done; drawTold(); };
      const known = shown || await census(table, isLate, tell);
      if (isLate()) return;
      counted.set(table, known);
      shown = known;
      part = 0;
      draw();
      const zugzwangs = await zugzwangsOf(shown, isLate, tell);
      if (isLate()) return;
      Object.assign(shown, { zugzwangs, lost: null });
      part = null;
    } catch {
      if (isLate()) return;
      shown = part = null;
      notice = "lostFile";
    }
    element("glance").setAttribute("aria-busy", false);
    draw();
  }
  function changed() {
    for (const table of counted.keys()) if (!Files.all().includes(table)) counted.delete(table);
    if (!element("glance").open) return;
    const was = element("glance-set").value, wasTable = shown && shown.table;
    fill();
    const isSame = element("glance-set").value === was && (!wasTable || Files.all().includes(wasTable));
    if (isSame && shown) draw();
    else look();
  }

  // ---- clicks

  // A move of the starting layout, by its text.
  function shownMove(words) {
    const position = Core.readPosition(Game.START), { moves } = Core.statusAndMoves("A", position);
    return Notation.shown(position, moves.find((move) => Core.moveText(position, move, false) === words), 0);
  }
  const show = (start, profile, moves = []) => restart(() => {
    Game.load(start);
    Game.state.profile = profile;
    for (const words of moves) Game.play(Game.moves().moves.find((move) => Game.textOf(move) === words));
  });
  // The first class from a random one on of which something is true, in an order that meets each of them; null where there is none.
  async function search(isOne) {
    const { records, table } = shown, mine = turn, { length } = records, from = Math.floor(Math.random() * length);
    let found = null;
    element("glance").setAttribute("aria-busy", true);
    const isDone = await each(length, (i) => {
      const number = (from + i * STRIDE) % length;
      if (isOne(number)) found = number;
      return found !== null;
    }, () => mine !== turn);
    element("glance").setAttribute("aria-busy", false);
    if (!isDone) return;
    notice = found === null ? "glanceNone" : null;
    draw();
    if (found !== null) await show(textAt(table, found), table.profile);
  }
  // Whether each move of a class but one lets the other side win.
  function isSaved(number) {
    const { table: { profile, pieces }, records } = shown, engine = Game.engine(), record = records[number];
    if (isLoss(record) || record === 2) return false;
    const position = Core.positionAt(profile, pieces, number), { moves } = engine.moves(profile, position);
    const saving = moves.filter((move) => !isWin(records[engine.classAfter(profile, position, move)]));
    return moves.length > 1 && saving.length === 1;
  }
  function showZugzwang() {
    const { classes } = shown.zugzwangs;
    return show(textAt(shown.table, classes[Math.floor(Math.random() * classes.length)]), shown.profile);
  }

  // ---- drawing

  const percent = (number, all) => `${((100 * number) / all).toFixed(1)}\u00a0%`;
  const whole = (number) => number.toLocaleString(Texts.language() === "en" ? "en" : "ja");
  const sum = (counts, isOne) => counts.reduce((all, number, record) => (isOne(record) ? all + number : all), 0);

  function drawTold() {
    const { counts, profile } = shown || {}, words = [notice && text(notice)], done = Math.floor(100 * part);
    if (counts) {
      const all = sum(counts, () => true), shares = [isWin, (record) => !record, isLoss].map((isOne) => sum(counts, isOne));
      words.unshift(text("glanceShares", whole(all), profile, shares.map((number) => percent(number, all))));
      element("glance-bar").replaceChildren(...["win", "draw", "loss"].map((kind, i) => { const it = node("span", "", kind); it.style.flexGrow = shares[i] / all; return it; }));
      if (part !== null) words.push(text("glanceCountingMore", done));
    } else if (!notice) words.unshift(text("glanceCounting", done));
    if (Files.withRecords().length > small().length) words.push(text("glanceLarge", whole(limits.classes)));
    element("glance-told").textContent = words.filter(Boolean).join(" ");
  }
  // A bar for each distance from its place on the middle line, wins up and losses down, by the logarithm of their number.
  function drawChart() {
    const { counts } = shown, most = Math.log(1 + Math.max(...counts.slice(1))), high = (record) => ((HALF - 2) * Math.log(1 + counts[record])) / most;
    const bars = (isOne, way) => counts.map((number, record) => (record && number && isOne(record) ? `M${record - 1} ${HALF}v${(way * high(record)).toFixed(1)}h1V${HALF}z` : "")).join("");
    element("glance-chart").innerHTML = `<svg viewBox="0 0 ${counts.length - 1} ${2 * HALF}" preserveAspectRatio="none" aria-hidden="true">`
      + `<path class="picked" d="M${picked - 1} 0h1v${2 * HALF}h-1z"/><path class="wins" d="${bars(isWin, -1)}"/><path class="losses" d="${bars(isLoss, 1)}"/></svg>`;
    element("glance-end").textContent = counts.length - 2;
    element("glance-value").textContent = text("glanceValue", said(picked), whole(counts[picked]));
    element("glance-less").disabled = picked <= 1;
    element("glance-more").disabled = picked >= counts.length - 1;
    element("glance-show").hidden = !shown.table;
    element("glance-show").disabled = !counts[picked];
  }
  function links() {
    const { counts, profile, longestWin, longestLoss, zugzwangs, oneAnswer, table } = shown, found = [];
    const add = (words, act) => found.push([words, act]);
    if (longestWin) add(text("glanceLongestWin", said(longest(counts, isWin))), () => show(longestWin, profile));
    if (longestLoss) add(text("glanceLongestLoss", said(longest(counts, isLoss))), () => show(longestLoss, profile));
    if (zugzwangs) {
      const { both, half, deepest } = zugzwangs;
      if (both + half && table) add(text("glanceZugzwang", both, half), showZugzwang);
      if (deepest) add(text("glanceDeepest", said(deepest.plies + 1), said(deepest.turnPlies + 1)), () => show(deepest.text, profile));
    }
    if (table) add(text("glanceSaved"), () => search(isSaved));
    for (const move of oneAnswer || []) add(text("glanceOneAnswer", shownMove(move)), () => show(Game.START, profile, [move]));
    return found;
  }
  function draw() {
    drawTold();
    element("glance-of").hidden = !shown;
    if (!shown) return;
    drawChart();
    const { zugzwangs } = shown;
    element("glance-zugzwangs").textContent = zugzwangs ? text("glanceZugzwangs", whole(zugzwangs.both), whole(zugzwangs.half)) : "";
    View.replace(element("glance-links"), links().map(([words, act]) => { const item = node("li", ""); item.append(button(words, "", "", act)); return item; }));
  }
  function pick(record) {
    picked = Math.max(1, Math.min(record, shown.counts.length - 1));
    drawChart();
  }

  function make(given) {
    restart = given;
    element("glance").addEventListener("toggle", () => { if (element("glance").open) { fill(); look(); } else turn++; });
    element("glance-set").addEventListener("change", look);
    element("glance-less").addEventListener("click", () => pick(picked - 1));
    element("glance-more").addEventListener("click", () => pick(picked + 1));
    element("glance-show").addEventListener("click", () => search((number) => shown.records[number] === picked));
    element("glance-chart").addEventListener("click", (event) => {
      const { left, width } = element("glance-chart").getBoundingClientRect();
      pick(1 + Math.floor(((event.clientX - left) / width) * (shown.counts.length - 1)));
    });
    new MutationObserver(changed).observe(element("files"), { childList: true });
  }

  return { limits, make };
})();
