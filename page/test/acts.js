// Acts that a reader might do in any order, drawn at random: put into the page by lasting.py behind held.js, and run there. A seed says all that happens.
globalThis.Acts = (() => {
  "use strict";
  const Core = DobutsuCore;
  const TEXTS = [
    ".l./.../.C./.L. - -", ".../..l/.../L.. - c", ".../.l./.L./.C. - -", ".../L../..l/h.. - -", ".../.../.../L.l - c", "..l/.../.../L.. C -", ".../l../.../L.C - -",
    "gle/.c./.C./ELG - -", "..l/.../L../... - -", "", "nonsense", "C.l/.../.../L.. - -", "L.l/.../.../... - -",
  ];
  const HASHES = ["#.l./.../.C./.L._-_-:Lb1-a2,lb4-c4", "#~.l./.../.C./.L._-_-", "#B;.l./.../.C./.L._-_-", "#nonsense", "#.l./.../.C./.L._-_-:Lb1-a2,none"];
  const KEYS = ["u", "r", "f", "e", "h", "n", "p", "x", "c", "ArrowLeft", "ArrowRight", "ArrowUp", "ArrowDown", "Escape", "C", "Delete", "1"];
  const LAST = 12; // acts that are told where something went wrong

  const all = (selector) => [...document.querySelectorAll(selector)], element = (id) => document.getElementById(id);
  const isUsable = (it) => it.checkVisibility() && !it.disabled && it.getAttribute("aria-disabled") !== "true";
  const event = (target, name) => new Promise((done) => target.addEventListener(name, done, { once: true }));

  // Numbers below one from a seed on (mulberry32).
  function numbers(seed) {
    return () => {
      seed = (seed + 0x6d2b79f5) | 0;
      let word = Math.imul(seed ^ (seed >>> 15), 1 | seed);
      word = (word + Math.imul(word ^ (word >>> 7), 61 | word)) ^ word;
      return ((word ^ (word >>> 14)) >>> 0) / 4294967296;
    };
  }

  function drop(files) {
    const dataTransfer = new DataTransfer();
    for (const file of files) dataTransfer.items.add(file);
    dispatchEvent(new DragEvent("drop", { dataTransfer, bubbles: true, cancelable: true }));
  }

  // The acts, each with how often it comes; one gives what it did in words, or nothing where there was nothing to do.
  function actsOf(files, some) {
    const click = async (selector) => {
      const it = some(all(selector).filter(isUsable));
      if (!it) return "";
      const words = `click ${it.id || it.className || it.textContent.slice(0, 20)}`, toggled = it.tagName === "SUMMARY" ? event(it.parentElement, "toggle") : null;
      it.click();
      await toggled;
      return words;
    };
    return [
      [14, () => click("button:not(.square)")], [10, () => click(".square, .slot")], [14, () => click("#moves button")], [6, () => click("#line .move, #record .move")],
      [7, () => click("#practise")], [9, () => click("#undo")], [3, () => click("#redo")], [4, () => click("#draw")], [3, () => click("#play")], [3, () => click("#hide")],
      [3, () => click("#language, #kana")], [4, () => click("#files .close")], [2, () => click("#edit")], [1, () => click("#worksheet")], [2, () => click("#start")],
      [2, () => click("summary, [type=checkbox]")],
      [7, () => {
        const given = [some(files), ...(some([0, 1]) ? [some(files)] : [])];
        drop(given);
        return `give ${given.map((it) => it.name)}`;
      }],
      [4, () => {
        const select = some(all("select").filter(isUsable)), option = select && some([...select.options]);
        if (!option) return "";
        select.value = option.value;
        select.dispatchEvent(new Event("change"));
        return `choose ${select.id} ${option.value}`;
      }],
      [6, () => {
        const key = some(KEYS);
        (document.activeElement || document.body).dispatchEvent(new KeyboardEvent("keydown", { key, bubbles: true, cancelable: true }));
        return `key ${key}`;
      }],
      [6, () => {
        const text = some(TEXTS), box = element("text");
        box.value = text;
        box.dispatchEvent(new Event("input"));
        box.dispatchEvent(new Event("blur"));
        return `enter ${text}`;
      }],
      [2, async () => {
        const hash = some(HASHES), changed = hash === location.hash ? null : event(window, "hashchange");
        location.hash = hash;
        await changed;
        return `go to ${hash}`;
      }],
    ];
  }

  // The script engine made as strict as the proved one, which says nothing of what is no position or no move by the rules.
  function strict(engine) {
    const asked = (name, hasMove) => (profile, position, move, ...about) => {
      if (!Core.isAllowed(profile, position)) throw new Core.Fault("E26 FarChick");
      const isMove = () => engine.moves(profile, position).moves.some((it) => ["letter", "from", "to"].every((part) => it[part] === move[part]));
      if (hasMove && !isMove()) throw new Core.Fault("E28 NoMove");
      return engine[name](profile, position, move, ...about);
    };
    const calls = { moves: false, classOf: false, classAfter: true, apply: true, moveText: true };
    return { ...engine, ...Object.fromEntries(Object.entries(calls).map(([name, hasMove]) => [name, asked(name, hasMove)])) };
  }

  // ---- what the page shows once it waits for nothing, against what the open files say of its position

  // The value and the moves as they are shown, each move with its value.
  const shownMove = (it) => `${it.ariaLabel.split(", ")[0]} ${it.querySelector(".told")?.textContent ?? ""}`;
  const shown = () => [element("value").firstChild.textContent, ...all("#moves button").map(shownMove)];
  async function wanted(held) {
    const { position, side, isOver } = Game.now(), { profile } = Game.state, { isHidden, inMoves } = View.options;
    if (isOver || !Core.isAllowed(profile, position)) return [""];
    const table = Files.tableFor(profile, position), looked = table && Answers.lookUp(table, Game.engine(), position);
    await held.settle(0);
    const found = await looked, plain = Game.moves().moves.map((move) => `${Notation.shown(position, move, side)} `);
    if (!found || isHidden) return ["", ...plain];
    const said = (value) => (!value || value.kind === "unknown" ? "" : Texts.value(value, inMoves));
    const told = ({ value, reply }) => (reply ? Texts.text("replied", Notation.shown(reply.position, reply.move, 1 - side), said(value)) : said(value));
    return [said(found.value), ...found.moves.map((it) => `${Notation.shown(position, it.move, side)} ${told(it)}`)];
  }
  // What is shown and isn't so, or nothing.
  async function differs(held) {
    if (Setup.isOn()) return "";
    if (document.documentElement.dataset.busy) return "the page is busy and waits for nothing";
    const [is, should] = [shown(), await wanted(held)].map(String);
    return is === should ? "" : `${is} for ${should}`;
  }

  // ---- a run

  // Lets the page have nothing of what it waits for, some of it, a while, or all and what comes soon; says what is wrong then.
  async function wait(held, draw) {
    const way = draw();
    if (way < 0.2) return "";
    await held.breathe();
    if (way < 0.45) await held.give(1 + Math.floor(8 * draw()));
    else if (way < 0.65) await held.pass(draw() < 0.7 ? 40 * draw() : 700 * draw());
    else if (way < 0.75) await held.settle(600);
    else {
      await held.settle();
      return differs(held);
    }
    return "";
  }

  // Does so many acts from a seed on, with files of { name, base64 }. Gives `wrong`, what went wrong, each with the last acts before it, and `done`, all acts.
  async function run(seed, number, given) {
    const draw = numbers(seed), some = (list) => list[Math.floor(draw() * list.length)], done = [], wrong = [], unknown = [];
    const files = given.map(({ name, base64 }) => new File([Uint8Array.from(atob(base64), (c) => c.charCodeAt(0))], name));
    const acts = actsOf(files, some), sum = acts.reduce((total, [weight]) => total + weight, 0), told = () => element("broken").textContent;
    const { engine } = Core, wordsOf = Texts.wrong, held = new Held(draw, numbers(~seed));
    const note = (what) => wrong.push(`${done.length}: ${what} after ${done.slice(-LAST).join("; ")}`);
    window.print = () => {};
    Texts.wrong = (fault) => {
      if (!fault.fault || fault.fault.startsWith("E28")) unknown.push(fault.stack);
      return wordsOf(fault);
    };
    if (!Game.engine().isProved) Game.useEngine(strict(engine));
    while (done.length < number) {
      let place = draw() * sum;
      const [, act] = acts.find(([weight]) => (place -= weight) < 0), before = told();
      try {
        const words = await act();
        if (!words) continue;
        done.push(words);
      } catch (fault) { note(fault.stack); }
      const differing = await wait(held, draw);
      if (differing) note(differing);
      if (told() && told() !== before) note(told());
      for (const fault of unknown.splice(0)) note(fault);
    }
    await held.end();
    if (!Game.engine().isProved) Game.useEngine(engine);
    Texts.wrong = wordsOf;
    return { wrong, done };
  }

  return { run };
})();
