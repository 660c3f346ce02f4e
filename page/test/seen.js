// What the tests look for in the page: put into it by screen.py, and read from there.
globalThis.Seen = (() => {
  "use strict";
  const element = (id) => document.getElementById(id);
  const all = (selector) => [...document.querySelectorAll(selector)];
  const shown = (selector) => all(selector).filter((it) => it.checkVisibility());

  // ---- what a reader does

  function enter(text) {
    element("text").value = text;
    element("text").dispatchEvent(new Event("input"));
    element("text").dispatchEvent(new Event("blur"));
  }
  function choose(id, value) {
    element(id).value = value;
    element(id).dispatchEvent(new Event("change"));
  }
  // The middle of an element, which is brought into view unless it stands beside the board.
  function middle(selector) {
    const found = document.querySelector(selector);
    if (!found.closest("#table, .palette")) found.scrollIntoView({ block: "center" });
    const box = found.getBoundingClientRect();
    return [box.x + box.width / 2, box.y + box.height / 2];
  }

  // ---- values

  // The tags on the squares, by square.
  const tags = () => Object.fromEntries(all(".square").map((it) => [it.dataset.square, it.querySelector(".tag").textContent]).filter((it) => it[1]));
  // Whether a value is seen or heard beside the value's own card.
  const hasValues = () => all("#moves, #line, .square, #next")
    .some((it) => /\b(win|loss|[WL]) \d|\bdraw\b|\d pl/.test(it.textContent + it.getAttribute("aria-label") + it.title));

  const classNumber = (profile, text) => DobutsuCore.classNumber(profile, DobutsuCore.readPosition(text));
  // The texts of the positions that the moves of a position lead to.
  function outcomes(text) {
    const position = DobutsuCore.readPosition(text);
    return Game.engine().moves("A", position).moves.map((move) => DobutsuCore.writePosition(DobutsuCore.apply(position, move)));
  }

  // ---- the board

  const nameOf = (it) => DobutsuCore.squareName(+it.dataset.square);
  const squares = (marked) => all(`.square${marked}`).map(nameOf).sort();
  const texts = (selector) => all(selector).map((it) => it.textContent);

  // ---- the clipboard

  // Keeps what is copied from now on in `window.copied`.
  function catchCopies() {
    Object.defineProperty(navigator, "clipboard", { value: { writeText: async (words) => { window.copied = words; } }, configurable: true });
  }

  // ---- texts

  function shape(it) {
    return typeof it === "object" ? Object.fromEntries(Object.entries(it).map(([name, part]) => [name, shape(part)])) : typeof it;
  }
  const shapes = () => ["en", "ja", "kana"].map((name) => shape(Texts.languages[name]));
  const missing = () => all("[data-text], [data-label]").filter((it) => {
    const words = (it.dataset.text ? it.textContent : "") + it.getAttribute("aria-label");
    return /undefined|object/.test(words) || (it.dataset.text && !it.textContent);
  }).map((it) => it.outerHTML);
  // ---- sizes

  const cut = () => shown("button, .open, h1, h2, label").filter((it) => it.scrollWidth > it.clientWidth + 1 && getComputedStyle(it).display !== "inline" && it.clientWidth > 1)
    .map((it) => it.outerHTML.slice(0, 90));
  const onTwoLines = () => shown(".told, .move, .tag").filter((it) => !it.closest(".steps") && it.getBoundingClientRect().height > 34)
    .map((it) => it.textContent);
  // The controls that are lower than `least` pixels, those in lines of moves than `steps`, or narrower than 24.
  function tooSmall(least, steps) {
    return shown("button, select, #text, .open, summary, [type=checkbox]").filter((it) => {
      const { width, height } = it.getBoundingClientRect(), wanted = it.type === "checkbox" ? 24 : it.closest(".steps") ? steps : least;
      return height + 0.5 < wanted || width + 0.5 < 24;
    }).map((it) => it.id || it.className || it.textContent);
  }

  // The buttons whose text is nearer than so many pixels to their left or right border.
  const crowded = (selector, least) => shown(selector).filter((it) => {
    const words = document.createTreeWalker(it, NodeFilter.SHOW_TEXT), outer = it.getBoundingClientRect(), range = document.createRange();
    for (let node = words.nextNode(); node; node = words.nextNode()) {
      range.selectNodeContents(node);
      const { left, right, width } = range.getBoundingClientRect(), isSeen = node.parentElement.getBoundingClientRect().width > 1;
      if (isSeen && width > 24 && Math.min(left - outer.left, outer.right - right) < least) return true;
    }
    return false;
  }).map((it) => it.id || it.textContent);
  function box(selector) {
    const { left, top, right, bottom } = document.querySelector(selector).getBoundingClientRect();
    return { left, top, right, bottom };
  }
  // The pairs of shown elements that lie on one another.
  function overlaps(selector) {
    const boxes = shown(selector).map((it) => [it.id || it.className, it.getBoundingClientRect()]);
    const lie = (a, b) => a.left < b.right - 1 && b.left < a.right - 1 && a.top < b.bottom - 1 && b.top < a.bottom - 1;
    return boxes.flatMap(([name, box], i) => boxes.slice(i + 1).filter((other) => lie(box, other[1])).map((other) => `${name} on ${other[0]}`));
  }
  // Fills the lists of moves and of the line with copies, up to so many.
  function fillLists(moves, plies) {
    const [first, ...others] = all("#moves ul"); // all moves in one group
    first.append(...others.flatMap((it) => [...it.children]));
    for (const [list, number] of [[first, moves], [element("line"), plies]]) {
      const items = [...list.children], end = list === first ? null : items.pop();
      while (list.children.length - (end ? 1 : 0) < number) list.insertBefore(items[list.children.length % 2].cloneNode(true), end);
    }
  }

  // ---- contrasts, by WCAG

  const linear = (part) => (part <= 0.03928 ? part / 12.92 : ((part + 0.055) / 1.055) ** 2.4);
  const light = ([red, green, blue]) => 0.2126 * linear(red / 255) + 0.7152 * linear(green / 255) + 0.0722 * linear(blue / 255);
  const ratio = (a, b) => (Math.max(light(a), light(b)) + 0.05) / (Math.min(light(a), light(b)) + 0.05);
  const numbers = (colour) => colour.match(/[\d.]+/g).map(Number);
  function ground(of) {
    for (let it = of; it; it = it.parentElement) {
      const [red, green, blue, alpha = 1] = numbers(getComputedStyle(it).backgroundColor);
      if (alpha === 1) return [red, green, blue];
    }
    return [255, 255, 255];
  }
  // The texts below 4.5, or below 3 where they are large.
  function tooPale() {
    const says = (it) => [...it.childNodes].some((part) => part.nodeType === 3 && part.textContent.trim());
    return shown("body *").filter((it) => says(it) && !it.closest("svg, script, :disabled, #drop")).map((it) => {
      const style = getComputedStyle(it), size = parseFloat(style.fontSize), isLarge = size >= 24 || (size >= 18.66 && +style.fontWeight >= 700);
      const found = ratio(numbers(style.color), ground(it));
      return found < (isLarge ? 3 : 4.5) ? `${it.id || it.className || it.tagName}: ${found.toFixed(2)}` : "";
    }).filter(Boolean);
  }
  // What is drawn and says something, below 3 against what it stands on.
  function paleMarks() {
    const styles = getComputedStyle(document.documentElement);
    const colour = (name) => [1, 3, 5].map((at) => parseInt(styles.getPropertyValue(name).trim().slice(at, at + 2), 16));
    const between = (a, b) => ratio(colour(a), colour(b)), found = [];
    const lands = ["--land", "--forest-land", "--sky-land"], pairs = (marks, grounds) => marks.flatMap((mark) => grounds.map((it) => [mark, it]));
    for (const [mark, it] of [...pairs(["--chosen", "--last", "--focus", "--accent", "--pen"], lands), ...pairs(["--edge", "--focus"], ["--card", "--ground"])]) {
      if (between(mark, it) < 3) found.push(`${mark} on ${it}`);
    }
    for (const side of ["forest", "sky"]) {
      const fill = (part) => numbers(getComputedStyle(document.querySelector(`.piece.${side} ${part}`)).fill);
      if (ratio(fill(".dot"), fill(".tile")) < 3) found.push(`dots of ${side}`);
      if (Math.max(between(`--${side}`, `--${side}-land`), between(`--${side}-tile`, `--${side}-land`)) < 3) found.push(side);
    }
    return found;
  }

  // ---- paper and privacy

  const visible = (...ids) => ids.filter((id) => element(id).checkVisibility());
  // The rule of the page's policy that refuses what is tried.
  const refusal = (act) => new Promise((done) => {
    addEventListener("securitypolicyviolation", (event) => done(event.effectiveDirective), { once: true });
    setTimeout(() => done("not refused"), 3000);
    try { act(done); } catch { /* the policy's event tells */ }
  });
  const add = (name, about) => document.body.append(Object.assign(document.createElement(name), about));
  const far = "https://example.com/";
  const attempts = {
    "a request": () => fetch(far).catch(() => 0),
    "a request to this machine": () => fetch("http://127.0.0.1:9/").catch(() => 0),
    "a request of a file": () => fetch(location.href).catch(() => 0),
    "a beacon": () => navigator.sendBeacon(far, "x"),
    "a socket": () => new WebSocket("wss://example.com/"),
    "a picture": () => { new Image().src = far; },
    "a script": () => add("script", { src: far }),
    "a frame": () => add("iframe", { src: far }),
    "a request of a worker": (done) => {
      const script = `addEventListener("securitypolicyviolation", (event) => postMessage(event.effectiveDirective)); fetch("${far}").catch(() => 0);`;
      new Worker(URL.createObjectURL(new Blob([script]))).onmessage = (event) => done(event.data);
    },
    "a worker": () => new Worker("data:text/javascript,0"),
    "a form": () => {
      add("form", { action: far, id: "sent" });
      element("sent").submit();
    },
  };

  return {
    enter, choose, middle, tags, hasValues, shapes, missing, cut, onTwoLines, tooSmall, tooPale, paleMarks, visible,
    classNumber, outcomes, crowded, box, overlaps, fillLists, squares, texts, catchCopies,
    refused: (name) => refusal(attempts[name]),
  };
})();
