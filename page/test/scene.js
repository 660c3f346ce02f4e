// All that a person sees, hears and can do on the page, as lines of text: put into it by scenes.py, and read from there. A line says what an element is, what
// stands on it in «», what is heard of it in "" where that differs, its state, how it looks where that isn't as usual, and where it stands to the one before.
globalThis.Scene = (() => {
  "use strict";
  const root = document.documentElement;
  const element = (id) => document.getElementById(id);
  const all = (selector, of = document) => [...of.querySelectorAll(selector)];
  const clean = (words) => words.replace(/\s+/g, " ").trim();

  // ---- what tests keep of what leaves the page: texts that are copied, calls to print, what the console says

  const told = { copied: null, printed: [] };
  function watch() {
    holdTimers();
    Object.defineProperty(navigator, "clipboard", { value: { writeText: async (words) => { told.copied = words; } }, configurable: true });
    window.print = () => { told.printed.push(document.body.className || "the page"); };
  }

  // ---- time: a timer of a tenth of a second or more comes when a story lets it come, so that no state hangs on how quick the machine is

  const LONG = 100, held = new Map(); // of the timers that wait { act, at } by number
  let clock = 0, number = 1e9; // milliseconds; greater than the browser's own numbers
  function holdTimers() {
    const { setTimeout: begin, clearTimeout: end } = window;
    window.setTimeout = (act, wait = 0, ...about) => {
      if (wait < LONG) return begin(act, wait, ...about);
      held.set(++number, { act: () => act(...about), at: clock + wait });
      return number;
    };
    window.clearTimeout = (of) => { if (!held.delete(of)) end(of); };
  }
  // Lets the next of them come.
  function pass() {
    const [of, { act, at }] = [...held].reduce((first, it) => (it[1].at < first[1].at ? it : first));
    held.delete(of);
    clock = at;
    act();
  }
  const waits = () => [...held.values()].map(({ at }) => at - clock).sort((a, b) => a - b).map((wait) => `${wait} ms`);

  // ---- colours, by the names that the page gives them

  const names = new Map();
  function readColours() {
    names.clear();
    const found = new Set();
    for (const sheet of document.styleSheets) {
      const rules = (list) => { for (const rule of list) { if (rule.cssRules && rule.cssRules.length) rules(rule.cssRules); for (const name of rule.style || []) if (name.startsWith("--")) found.add(name); } };
      rules(sheet.cssRules);
    }
    const styles = getComputedStyle(root);
    for (const name of found) {
      const hex = styles.getPropertyValue(name).trim();
      if (!/^#[0-9a-f]{6}$/i.test(hex)) continue;
      const key = [1, 3, 5].map((at) => parseInt(hex.slice(at, at + 2), 16)).join(",");
      if (!names.has(key)) names.set(key, name.slice(2));
    }
    return [...found].map((name) => `${name} ${styles.getPropertyValue(name).trim()}`);
  }
  const numbers = (colour) => (colour.match(/[\d.]+/g) || [0, 0, 0, 0]).map(Number);
  function colour(words) {
    const [red, green, blue, alpha = 1] = numbers(words), name = names.get([red, green, blue].join(",")) || `rgb ${red} ${green} ${blue}`;
    return alpha === 1 ? name : alpha === 0 ? "clear" : `${name} at ${alpha}`;
  }
  function groundOf(of) {
    for (let it = of; it; it = it.parentElement) {
      const [red, green, blue, alpha = 1] = numbers(getComputedStyle(it).backgroundColor);
      if (alpha > 0.9) return [red, green, blue];
    }
    return [255, 255, 255];
  }
  const linear = (part) => (part <= 0.03928 ? part / 12.92 : ((part + 0.055) / 1.055) ** 2.4);
  const light = ([red, green, blue]) => 0.2126 * linear(red / 255) + 0.7152 * linear(green / 255) + 0.0722 * linear(blue / 255);
  function contrast(a, b) {
    const ratio = (Math.max(light(a), light(b)) + 0.05) / (Math.min(light(a), light(b)) + 0.05);
    return ratio < 3 ? "contrast below 3" : ratio < 4.5 ? "contrast 3" : ratio < 7 ? "contrast 4.5" : "";
  }

  // ---- where things stand

  const boxOf = (it) => it.getBoundingClientRect();
  const isIn = (a, b) => a.left >= b.left - 1 && a.right <= b.right + 1 && a.top >= b.top - 1 && a.bottom <= b.bottom + 1;
  function place(box, before) {
    const across = box.left >= before.right - 1 ? "right" : box.right <= before.left + 1 ? "left" : "";
    const down = box.top >= before.bottom - 1 ? "below" : box.bottom <= before.top + 1 ? "above" : "";
    if (down && across) return `${down}, ${across}`;
    return down || across || (isIn(box, before) ? "inside" : isIn(before, box) ? "around" : "overlaps");
  }
  const nameOfNode = (it) => (it ? it.id ? `#${it.id}` : it.className && typeof it.className === "string" ? `.${it.className.split(" ")[0]}` : it.tagName.toLowerCase() : "nothing");
  // What lies on the middle of an element, if anything does; it is brought into the window for that.
  function coveredBy(it) {
    let box = boxOf(it);
    if (box.width < 2 || box.height < 2) return "";
    if (box.top < 0 || box.bottom > innerHeight) { it.scrollIntoView({ block: "center", behavior: "instant" }); box = boxOf(it); }
    const x = box.left + box.width / 2, y = box.top + box.height / 2;
    if (x < 0 || x >= innerWidth || y < 0 || y >= innerHeight) return "out of the window";
    const found = document.elementFromPoint(x, y);
    return !found || it.contains(found) || found.contains(it) ? "" : `under ${nameOfNode(found.closest("[id]") || found)}`;
  }
  const least = (size) => [600, 400, 250, 160, 120, 90, 70, 60, 54, 48, 44, 40, 36, 32, 28, 24, 20, 16, 8, 2, 0].find((it) => size >= it - 0.5);

  // ---- how an element looks, where that isn't as its kind usually does

  const USUAL = { BUTTON: "pointer", SUMMARY: "pointer", SELECT: "pointer" };
  function looks(it, isControl) {
    const style = getComputedStyle(it), found = [], ink = colour(style.color), ground = groundOf(it), groundName = names.get(ground.join(",")) || `rgb ${ground.join(" ")}`;
    const usualInk = ink === "ink" && ["card", "ground", "rgb 255 255 255"].includes(groundName);
    const pale = contrast(numbers(style.color).slice(0, 3), ground);
    if (ink === "soft" && ["card", "ground", "rgb 255 255 255"].includes(groundName)) found.push("soft");
    else if (!usualInk) found.push(groundName === `${ink}-ground` ? `as ${ink}` : `${ink} on ${groundName}`);
    contrasts.add(`${ink} on ${groundName} ${pale.slice(9) || "7"}`);
    if (pale && pale !== "contrast 4.5") found.push(pale);
    found.push(...type(style));
    const border = style.borderTopStyle !== "none" && parseFloat(style.borderTopWidth) > 0 ? `${colour(style.borderTopColor)}${style.borderTopStyle === "solid" ? "" : ` ${style.borderTopStyle}`}` : "none";
    if (isControl ? border !== "edge" : border !== "none" && border !== "clear") found.push(`border ${border}`);
    if (style.boxShadow !== "none" && isControl) found.push(`shadow ${colour(style.boxShadow.match(/rgba?\([^)]*\)/)[0])}${style.boxShadow.includes("inset") ? " inset" : ""}`);
    if (style.outlineStyle !== "none" && parseFloat(style.outlineWidth) > 0) found.push(`outline ${colour(style.outlineColor)}`);
    let opacity = 1;
    for (let up = it; up && up !== root; up = up.parentElement) opacity *= +getComputedStyle(up).opacity;
    if (opacity < 1) found.push(`opacity ${opacity.toFixed(2)}`);
    const cursor = style.cursor === "auto" ? "default" : style.cursor, usual = isControl && USUAL[it.tagName] && !isOff(it) ? USUAL[it.tagName] : it.tagName === "INPUT" || it.tagName === "TEXTAREA" ? "text" : "default";
    if (cursor !== usual && !(usual === "text" && cursor === "default") && !(usual === "default" && cursor === "text")) found.push(`cursor ${cursor}`);
    if (style.textAlign === "center" && !isControl) found.push("centred");
    if (style.textAlign !== "center" && it.tagName === "BUTTON" && style.display !== "flex") found.push(`aligned ${style.textAlign}`);
    if (style.transform !== "none") found.push(`turned ${style.transform.replace(/\.\d+/g, "")}`);
    return found;
  }
  function type(style) {
    const found = [], size = Math.round(parseFloat(style.fontSize));
    if (size !== 16) found.push(`${size} px`);
    if (+style.fontWeight >= 600) found.push("bold");
    if (/mono/i.test(style.fontFamily)) found.push("mono");
    if (style.textTransform !== "none") found.push(style.textTransform);
    return found;
  }

  // ---- what an element is, says and can do

  const ROLES = { BUTTON: "button", TEXTAREA: "textbox", SELECT: "select", SUMMARY: "summary", H1: "heading 1", H2: "heading 2", H3: "heading 3", UL: "list", LI: "item", DETAILS: "details", SECTION: "region", P: "text", LABEL: "label", SPAN: "text", SMALL: "text", B: "text", DIV: "group" };
  const KINDS = { checkbox: "checkbox", file: "file" };
  function roleOf(it) {
    const role = it.getAttribute("role") || (it.tagName === "INPUT" ? KINDS[it.type] || "textbox" : ROLES[it.tagName] || it.tagName.toLowerCase());
    return it.getAttribute("role") && ROLES[it.tagName] && it.tagName === "P" ? `text ${role}` : role;
  }
  const isOff = (it) => it.disabled || it.getAttribute("aria-disabled") === "true";
  const isControl = (it) => /^(BUTTON|INPUT|SELECT|TEXTAREA|SUMMARY)$/.test(it.tagName);
  const letterOf = (art) => art.querySelector(".letter").textContent;
  const STATES = ["aria-pressed", "aria-expanded", "aria-current", "aria-disabled", "aria-busy", "aria-live", "aria-atomic", "aria-hidden", "placeholder", "inputmode", "maxlength", "min", "max", "step", "rows",
    "spellcheck", "autocomplete", "autocapitalize", "accept", "multiple", "href", "lang", "for"];
  const UNCORRECTED = "spellcheck=false, autocomplete=off, autocapitalize=off";
  function states(it) {
    const found = STATES.filter((name) => it.hasAttribute(name)).map((name) => (it.getAttribute(name) ? `${name.replace("aria-", "")}=${it.getAttribute(name)}` : name));
    if (found.join(", ").startsWith(UNCORRECTED)) found.splice(0, 3, "uncorrected");
    if (it.disabled) found.push("off");
    if (it.tagName === "DETAILS") found.push(it.open ? "open" : "closed");
    if (it.type === "checkbox") found.push(it.checked ? "checked" : "not checked");
    if (it.tagName === "TEXTAREA" || (it.tagName === "INPUT" && it.type !== "checkbox" && it.type !== "file")) found.push(`has «${it.value}»`);
    if (it.tagName === "SELECT") found.push(`of ${[...it.options].map((option, i) => `${i === it.selectedIndex ? "●" : ""}${clean(option.textContent)}${option.value === option.textContent ? "" : `=${option.value}`}`).join(" | ")}`);
    if (it.title && it.title !== it.getAttribute("aria-label")) found.push(`title «${it.title}»`);
    if (it.title && it.title === it.getAttribute("aria-label")) found.push("titled");
    if (isControl(it) && !it.disabled && it.tabIndex < 0) found.push("no stop");
    if (!isControl(it) && it.tabIndex >= 0 && it.tagName !== "DETAILS") found.push("stop");
    return found;
  }
  function heardText(it) {
    let words = "";
    for (const part of it.childNodes) {
      if (part.nodeType === 3) words += part.textContent;
      else if (part.nodeType === 1 && part.getAttribute("aria-hidden") !== "true" && part.checkVisibility()) words += ` ${part.getAttribute("aria-label") || heardText(part)} `;
    }
    return clean(words);
  }
  function heardName(it) {
    const by = it.getAttribute("aria-labelledby");
    if (by) return clean(by.split(" ").map((id) => element(id)?.textContent ?? "(none)").join(" "));
    if (it.getAttribute("aria-label")) return it.getAttribute("aria-label");
    if (it.labels && it.labels.length) return clean([...it.labels].map((label) => label.textContent).join(" "));
    return isControl(it) ? heardText(it) : "";
  }
  const isUnseen = (it) => { const { width, height } = boxOf(it); return width <= 1 && height <= 1; };
  // What its style puts in front of an element, with the colour where that isn't the element's own.
  function before(it) {
    const { content, color } = getComputedStyle(it, "::before");
    if (["none", "normal", '""', ""].includes(content)) return "";
    const words = content.replaceAll('"', "");
    return color === getComputedStyle(it).color ? words : `{${colour(color)}: ${clean(words)}} `;
  }
  // What stands on an element: parts that look otherwise stand in braces with their looks, pictures of pieces in brackets, controls as □.
  function rich(it, outer = null) {
    const own = getComputedStyle(it), key = (style, of = null) => [colour(style.color), of && colour(style.backgroundColor) === "clear" ? colour(of.backgroundColor) : colour(style.backgroundColor), ...type(style)].join(" ");
    let words = before(it);
    for (const part of it.childNodes) {
      if (part.nodeType === 3) words += part.textContent;
      if (part.nodeType !== 1 || !part.checkVisibility()) continue;
      if (part.tagName === "svg") words += part.classList.contains("piece") ? `[${letterOf(part)}${part.querySelector("g").getAttribute("transform") ? " turned" : ""}]` : "";
      else if (isControl(part)) words += " □ ";
      else {
        const style = getComputedStyle(part), inner = rich(part, own), isBlock = style.display !== "inline";
        if (part.classList.contains("move") && key(style, own).replace(" mono", "") === key(own)) {
          words += /mono/.test(key(style)) ? ` ${inner} ` : ` {not mono: ${inner}} `;
          continue;
        }
        const ink = colour(style.color), ground = colour(style.backgroundColor), on = ground === "clear" ? [ink] : ground === `${ink}-ground` ? [`as ${ink}`] : [ink, `on ${ground}`];
        const look = inner && key(style, own) !== key(own) ? [...on, ...type(style)].join(" ") : "";
        const heard = isUnseen(part) && inner ? "unseen " : "";
        words += `${isBlock ? " " : ""}${look || heard ? `{${heard}${look}: ${inner}}` : inner}${isBlock ? " " : ""}`;
      }
    }
    return clean(words);
  }
  let isColoured = false; // whether it is told in which colours a piece is drawn
  let isPlain = false; // whether it is left out how things look and where they stand, which isn't the same in all browsers
  // Whether an element has a text of its own, or is one of those that are told anyway.
  const hasWords = (it) => [...it.childNodes].some((part) => part.nodeType === 3 && part.textContent.trim());
  const isLine = (it) => isControl(it) || /^(P|H1|H2|LABEL)$/.test(it.tagName) || hasWords(it);
  const isFrame = (it) => /^(HEADER|SECTION|UL|DETAILS)$/.test(it.tagName) || it.hasAttribute("role") || it.hasAttribute("aria-label") || it.classList.contains("card") || (it.id && colour(getComputedStyle(it).backgroundColor) !== "clear");
  function isCut(it) {
    const style = getComputedStyle(it);
    if (style.display === "inline" || it.clientWidth <= 1) return "";
    if (it.scrollWidth > it.clientWidth + 1) return "cut";
    return boxOf(it).right > root.clientWidth + 1 && style.position !== "fixed" ? "wider than the window" : "";
  }
  // How many lines the words on an element take: signs of several fonts on one line don't end at one height.
  function rowsOf(it) {
    const range = document.createRange();
    range.selectNodeContents(it);
    let rows = 0, end = -Infinity;
    for (const { top, bottom } of [...range.getClientRects()].filter((box) => box.width > 2).sort((a, b) => a.top + a.bottom - b.top - b.bottom)) {
      if ((top + bottom) / 2 > end) rows++;
      end = Math.max(end, bottom);
    }
    return rows;
  }

  // ---- the board

  const nameOf = (it) => DobutsuCore.squareName(+it.dataset.square);
  function markOf(it) {
    const style = getComputedStyle(it, "::after");
    if (style.content === "none" || style.content === "normal") return [];
    const size = boxOf(it).width, wide = parseFloat(style.width) / size;
    const fill = colour(style.backgroundColor), edge = style.borderTopStyle === "none" ? "" : ` edge ${colour(style.borderTopColor)}`;
    return [`${wide > 0.6 ? "ring" : "dot"} ${fill}${edge}`];
  }
  function insetOf(style) {
    return style.boxShadow === "none" ? [] : [`edge ${colour(style.boxShadow.match(/rgba?\([^)]*\)/)[0])} ${style.boxShadow.match(/([\d.]+)px(?: inset)?$/)?.[1] ?? ""}`.trim()];
  }
  const drawings = new Map(), contrasts = new Set();
  const digest = (words) => { let sum = 5381; for (const sign of words) sum = ((sum * 33) ^ sign.codePointAt(0)) >>> 0; return sum.toString(36); };
  const paintOf = (art) => digest([...art.querySelectorAll("*")].map((part) => { const { fill, stroke, strokeWidth } = getComputedStyle(part); return `${fill} ${stroke} ${strokeWidth}`; }).join());
  // A piece's picture by its letter; what is drawn of it is told once, below.
  function pictureOf(art) {
    const letter = letterOf(art), isTurned = !!art.querySelector("g").getAttribute("transform"), name = `${letter}${isTurned ? " turned" : ""}`, tile = art.querySelector(".tile");
    const ways = [...art.querySelectorAll(".dot")].map((dot) => { // where the dots are on the screen, from the tile's middle
      const [x, y] = [+dot.getAttribute("cx") - 50, +dot.getAttribute("cy") - 52].map((it) => (isTurned ? -it : it));
      return `${y < -12 ? "up" : y > 12 ? "down" : ""}${x < -12 ? " left" : x > 12 ? " right" : ""}`.trim();
    });
    const words = art.querySelector(".letter"), colours = [getComputedStyle(tile).fill, getComputedStyle(tile).stroke, getComputedStyle(art.querySelector(".dot")).fill].map(colour);
    drawings.set(name, `${name}: tile ${colours[0]} edge ${colours[1]}, dots ${colours[2]} ${ways.join(", ")}; letter ${+words.getAttribute("x") < 50 ? "left" : "right"} ${+words.getAttribute("y") > 50 ? "below" : "above"}, drawn as ${digest(art.outerHTML)}${isColoured ? ` in ${paintOf(art)}` : ""}`);
    return name;
  }
  // How wide a piece's picture is in its place, where that isn't as usual.
  function widthIn(art, it) {
    const tenths = art && !isPlain ? Math.round((10 * boxOf(art).width) / boxOf(it).width) : 9;
    return tenths === 9 ? [] : [`${tenths} tenths wide`];
  }
  function squareLine(it) {
    const style = getComputedStyle(it), art = it.querySelector(".piece"), tag = it.querySelector(".tag"), found = [art ? pictureOf(art) : "empty", `on ${colour(style.backgroundColor)}`];
    found.push(...widthIn(art, it), ...insetOf(style), ...markOf(it));
    if (tag.textContent) found.push(tag.checkVisibility() ? `tag «${tag.textContent}» ${colour(getComputedStyle(tag).color)} on ${colour(getComputedStyle(tag).backgroundColor)}` : `tag unseen «${tag.textContent}»`);
    if (art && +getComputedStyle(art.parentElement).opacity < 1) found.push("lifted");
    if (style.cursor !== "pointer") found.push(`cursor ${style.cursor}`);
    if (it.tabIndex >= 0) found.push("stop");
    if (it.disabled) found.push("off");
    return `  ${nameOf(it)} ${found.join(", ")} "${it.getAttribute("aria-label")}"`;
  }
  function slotLine(it) {
    const art = it.querySelector(".piece"), number = it.querySelector(".number"), found = [art ? pictureOf(art) : "empty"], style = getComputedStyle(it), faint = +getComputedStyle(it.querySelector(".art")).opacity;
    if (number.checkVisibility() && number.textContent) found.push(`number «${number.textContent}»`);
    if (faint < 1) found.push(`faint ${faint}`);
    found.push(...widthIn(art, it), ...insetOf(style));
    if (it.disabled) found.push("off");
    if (style.cursor !== (it.disabled ? "default" : "pointer")) found.push(`cursor ${style.cursor}`);
    if (it.tabIndex < 0) found.push("no stop");
    if (least(boxOf(it).height) < 44) found.push(`${least(boxOf(it).height)} high`);
    return `  ${it.dataset.hand} ${found.join(", ")} "${it.getAttribute("aria-label")}"`;
  }
  function squaresOf(drawn) {
    const name = ([x, y]) => nameOf(all(".square")[Math.floor(x) + 3 * Math.floor(y)]), kind = drawn.closest("#ink") ? "ink" : "arrow", style = getComputedStyle(drawn);
    if (drawn.tagName === "circle") return `${kind} around ${name([+drawn.getAttribute("cx"), +drawn.getAttribute("cy")])}, ${colour(style.stroke)}${style.strokeDasharray === "none" ? "" : " dashed"}`;
    const points = drawn.getAttribute("d").match(/[\d.]+ [\d.]+/g).map((it) => it.split(" ").map(Number));
    return `${kind} from ${name(points[0])} to ${name(points[3])}, ${colour(style.fill)}`;
  }
  function boardLines() {
    const squares = all(".square"), boxes = squares.map(boxOf), [first] = boxes, high = first.height, wide = first.width;
    const isGrid = boxes.every((box, i) => Math.abs(box.left - first.left - (i % 3) * (boxes[1].left - first.left)) < 2 && Math.abs(box.top - first.top - Math.floor(i / 3) * (boxes[3].top - first.top)) < 2);
    const labels = (name) => all(`.${name}`).map((it) => it.textContent).join(" "), board = boxOf(element("board"));
    const beside = all(".row-label").every((it, i) => { const box = boxOf(it); return box.right <= first.left + 2 && Math.abs(box.top + box.height / 2 - boxes[3 * i].top - high / 2) < 4; });
    const below = all(".column-label").every((it, i) => { const box = boxOf(it); return box.top >= boxes[11].bottom - 2 && Math.abs(box.left + box.width / 2 - boxes[i].left - wide / 2) < 4; });
    const hands = [0, 1].map((side) => `${element(`name-${side}`).textContent}'s hand ${place(boxOf(element(`side-${side}`)), board)}`);
    const drawn = all(".arrow path, .arrow circle, #ink path, #ink circle").filter((it) => it.checkVisibility()).map(squaresOf);
    const ink = element("ink"), lies = drawn.length ? all(".arrow svg, #ink svg").filter((it) => it.checkVisibility() && it.innerHTML).map((it) => (isIn(boxOf(it), board) && Math.abs(boxOf(it).left - first.left) < 3 && Math.abs(boxOf(it).bottom - boxes[11].bottom) < 3 ? "" : "drawn beside the squares")).filter(Boolean) : [];
    return [
      `board "${element("board").getAttribute("aria-label")}", ${isGrid ? "three by four" : "no grid"}, ${Math.abs(high / wide - 1) < 0.03 ? "square" : "not square"}, rows ${labels("row-label")}${beside ? "" : " not beside"}, columns ${labels("column-label")}${below ? "" : " not below"}; ${hands.join(", ")}${isPlain ? "" : `; ${Math.round((10 * (boxes[11].bottom - first.top)) / innerHeight)} tenths of the window's height`}`,
      ...squares.map(squareLine), ...drawn.map((it) => `  ${it}`), ...lies.map((it) => `  ${it}`),
      ...(getComputedStyle(ink).pointerEvents === "none" || !ink.checkVisibility() ? [] : [`  the pen is on the board, cursor ${getComputedStyle(ink).cursor}, touch ${getComputedStyle(ink).touchAction}`]),
      ...all(".dragged").map((it) => `  dragged: ${letterOf(it)} over ${placeBelow(boxOf(it))}`),
    ];
  }
  // The square or the hand's place below the middle of a box.
  function placeBelow({ left, top, width, height }) {
    const x = left + width / 2, y = top + height / 2, found = all(".square, .slot").find((it) => { const box = boxOf(it); return x >= box.left && x <= box.right && y >= box.top && y <= box.bottom; });
    return found ? found.dataset.hand || nameOf(found) : "nothing";
  }
  const handLines = (it) => [`hand "${it.getAttribute("aria-label")}"`, ...all(".slot", it).map(slotLine)];

  // ---- drawings of cards

  function cellLine(it) {
    const bar = it.querySelector(".bar"), box = boxOf(bar), cell = boxOf(it), middle = cell.top + 32.5, worth = it.querySelector(".worth"), words = boxOf(worth);
    const way = box.bottom <= middle + 1 ? "up" : box.top >= middle - 1 ? "down" : "across", high = Math.round(box.height / 3.1), ground = colour(getComputedStyle(bar).backgroundColor);
    const isOn = words.top < box.bottom - 1 && box.top < words.bottom - 1 && words.height > 0 && ground !== "clear" && way !== "across";
    return [`cell «${rich(it)}» "${it.getAttribute("aria-label")}"`, ground === "clear" ? "no bar" : `bar ${way} ${high} tenths ${ground}`, isOn ? "number on the bar" : "", ...states(it), ...(isPlain ? [] : looks(it, true).filter((look) => !/mono|px|border line|clear/.test(look)))].filter(Boolean).join(", ");
  }
  function chartLines() {
    const svg = element("glance-chart").querySelector("svg");
    if (!svg) return [];
    const path = (name) => svg.querySelector(`.${name}`), d = (name) => path(name).getAttribute("d"), part = (name) => (d(name).length < 400 ? d(name) : `${d(name).length} signs ${digest(d(name))}`);
    return [`chart ${svg.getAttribute("viewBox")}: picked ${d("picked")} ${colour(getComputedStyle(path("picked")).fill)}`, ...["wins", "losses"].map((name) => `  ${name} ${colour(getComputedStyle(path(name)).fill)} ${part(name)}`)];
  }
  const shareLine = (it) => `shares ${[...it.children].map((part) => `${part.className} ${colour(getComputedStyle(part).backgroundColor)} ${Math.round((20 * boxOf(part).width) / boxOf(it).width) * 5} %`).join(", ")}`;
  const sheetRow = (it) => `row ${[...it.children].map((part) => (part.querySelector(".piece") ? pictureOf(part.querySelector(".piece")).replace(" turned", "'") : part.classList.contains("small") ? "." : clean(part.textContent) || "_")).join(" ")}`;
  const sheetHand = (it) => `hand ${[...it.children].map((part) => (part.querySelector(".piece") ? pictureOf(part.querySelector(".piece")).replace(" turned", "'") : clean(part.textContent))).join(" ")}`;

  // ---- all of it

  function lineOf(it, isPaper) {
    const role = roleOf(it), words = it.tagName === "SELECT" || it.tagName === "TEXTAREA" || it.tagName === "INPUT" ? "" : rich(it), heard = heardName(it), control = isControl(it), box = boxOf(it);
    const parts = [`${role}${words ? ` «${words}»` : ""}${heard && heard !== words ? ` "${heard}"` : ""}`, ...states(it)];
    if (isUnseen(it)) parts.push("unseen");
    else if (!isPlain) {
      if (it.className === "number") return [`${it.textContent}`];
      const isStep = it.tagName === "BUTTON" && it.parentElement.closest(".steps"), usual = isStep ? ["mono", "border clear"] : [], found = looks(it, control && it.tagName !== "SUMMARY" && it.type !== "checkbox");
      parts.push(...found.filter((look) => !usual.includes(look)), ...usual.filter((look) => !found.includes(look)).map((look) => `not ${look}`));
      if (control && !isPaper && it.type !== "checkbox") {
        if (least(box.height) !== (isStep ? 32 : it.tagName === "SUMMARY" ? 28 : 40)) parts.push(`${least(box.height)} high`);
        if (box.width < 39.5) parts.push(`${least(box.width)} wide`);
        if (it.tagName === "BUTTON" && rowsOf(it) > 1) parts.push(`${rowsOf(it)} lines`);
      }
      const cut = isCut(it);
      if (cut) parts.push(cut);
    }
    return parts;
  }
  // The elements below one in reading order, each as { it, parts, depth }.
  function walk(parent, depth, out, isPaper, frame = null, last = { it: null }, isInner = false) {
    for (const it of parent.children) {
      if (/^(SCRIPT|NOSCRIPT|STYLE|svg)$/.test(it.tagName)) continue;
      if (!it.checkVisibility({ visibilityProperty: true })) continue;
      if (isInner && !isControl(it)) { // what stands on a text is told with it, but for what can be pressed
        walk(it, depth, out, isPaper, frame, last, true);
        continue;
      }
      const placed = () => {
        const box = boxOf(it);
        if (isUnseen(it) || !box.width || isPlain) return [];
        const found = last.it ? place(box, boxOf(last.it)) : frame && !isIn(box, boxOf(frame)) ? `out of ${nameOfNode(frame)}` : "";
        last.it = it;
        return found ? [found] : [];
      };
      const push = (parts) => { out.push({ it, depth, text: [...parts, ...placed()].join(", ") }); };
      if (it.id === "board") { out.push(...boardLines().map((text) => ({ depth, text }))); placed(); continue; }
      if (it.classList.contains("hand")) { out.push(...handLines(it).map((text) => ({ depth, text }))); continue; }
      if (it.classList.contains("cell")) { push([cellLine(it)]); continue; }
      if (it.id === "glance-chart") { out.push(...chartLines().map((text) => ({ depth, text }))); continue; }
      if (it.id === "glance-bar") { push([shareLine(it)]); continue; }
      if (it.classList.contains("sheet-item") && getComputedStyle(it).outlineStyle !== "none") push([`an item in ${colour(getComputedStyle(it).outlineColor)}`]);
      if (it.classList.contains("sheet-row")) { push([sheetRow(it)]); continue; }
      if (it.classList.contains("sheet-hand")) { push([sheetHand(it)]); continue; }
      if (it.parentElement.id === "palette") { push([`tool ${it.dataset.tool} ${it.querySelector(".piece") ? pictureOf(it.querySelector(".piece")) : rich(it)}`, `"${heardName(it)}"`, ...states(it), ...(isPlain ? [] : looks(it, true))]); continue; }
      if (isLine(it)) {
        push(lineOf(it, isPaper));
        if (!isControl(it)) walk(it, depth + 1, out, isPaper, null, { it: null }, true);
      } else if (isFrame(it)) {
        const parts = [`${it.classList.contains("card") ? "card" : roleOf(it)}${it.id ? ` #${it.id}` : ""}${heardName(it) ? ` "${heardName(it)}"` : ""}`, ...states(it)];
        const ground = colour(getComputedStyle(it).backgroundColor);
        if (ground !== "clear" && ground !== "card") parts.push(`on ${ground}`);
        if (!isPlain && it.className && /\b(win|loss|draw|none|bad)\b/.test(it.className)) parts.push(looks(it, false).join(" "));
        push(parts);
        walk(it, depth + 1, out, isPaper, it);
      } else walk(it, depth, out, isPaper, frame, last);
    }
  }
  function lines(isPaper) {
    const out = [], { scrollX: x, scrollY: y } = window;
    walk(document.body, 0, out, isPaper);
    if (!isPaper && !isPlain) {
      const inside = out.filter(({ it }) => it && isLine(it) && boxOf(it).width > 2).filter(({ it }) => { const box = boxOf(it); return box.top >= -1 && box.bottom <= innerHeight + 1; });
      Scene.window = inside.length ? [inside[0], inside[inside.length - 1]].map(({ it }) => (it.id ? `#${it.id}` : `«${clean(it.textContent).slice(0, 30)}»`)).join(" to ") : "nothing";
      for (const entry of out) {
        if (!entry.it || !isLine(entry.it) || isUnseen(entry.it)) continue;
        const by = coveredBy(entry.it);
        if (by) entry.text += `, ${by}`;
      }
      scrollTo(x, y);
    }
    return out.map(({ depth, text }) => `${"  ".repeat(depth)}${text}`);
  }
  function stored() {
    try { return Object.keys(localStorage).sort().map((name) => `${name.replace("dobutsu-", "")}=${localStorage.getItem(name)}`).join(" ") || "nothing"; } catch { return "none"; }
  }
  // The element that has the focus. One that is hidden or can't be used any more loses it with the next picture.
  function focused() {
    const it = document.activeElement;
    return it && it !== document.body && !it.disabled && it.checkVisibility({ visibilityProperty: true }) ? it : null;
  }
  function focusOf() {
    const it = focused();
    if (!it) return "nothing";
    if (it.dataset.square) return `the square ${nameOf(it)}`;
    return `${roleOf(it)} ${it.id ? `#${it.id} ` : ""}${it.classList.contains("slot") ? it.dataset.hand : clean(heardName(it) || it.textContent)}`;
  }
  // The stops of the tab key behind the one that has the focus.
  function stops() {
    return all("a[href], button, input, select, textarea, summary, [tabindex]").filter((it) => it.tabIndex >= 0 && !it.disabled && it.checkVisibility({ visibilityProperty: true }));
  }
  const nameOfStop = (it) => it.id || (it.dataset.square ? nameOf(it) : it.dataset.hand || it.dataset.tool || clean(it.textContent) || it.className);

  // The whole as a list of lines.
  function write({ withColours = false, isPlainly = false } = {}) {
    isPlain = isPlainly;
    isColoured = withColours;
    const palette = readColours();
    drawings.clear();
    contrasts.clear();
    const body = lines(false), all_ = stops(), at = all_.indexOf(focused());
    const wide = root.scrollWidth > innerWidth ? `, ${root.scrollWidth - innerWidth} pixels wider than the window` : "";
    return [
      `title «${document.title}», lang ${root.lang}, ${root.dataset.theme}, scheme ${getComputedStyle(root).colorScheme}, body ${document.body.className || "plain"} on ${colour(getComputedStyle(document.body).backgroundColor)}`,
      `address ${decodeURI(location.hash)}`, `stored ${stored()}`,
      ...(held.size ? [`waits for ${waits().join(", ")}`] : []),
      ...(told.copied === null ? [] : [`copied «${told.copied.replaceAll(location.href.split("#")[0], "PAGE").replaceAll("\n", "⏎")}»`]), ...(told.printed.length ? [`printed ${told.printed.join(", ")}`] : []),
      `focus on ${focusOf()}; Tab leads to ${all_.length ? nameOfStop(all_[(at + 1) % all_.length]) : "nothing"}, ${all_.length} stops`,
      ...(isPlain ? [] : [`in the window ${Scene.window}${scrollY > 1 ? ", scrolled" : ""}${wide}`]),
      ...body, ...(withColours ? [...[...drawings.values()].sort().map((it) => `drawing ${it}`), `contrasts at least ${[...contrasts].sort().join(", ")}`, ...palette.map((it) => `colour ${it}`)] : []),
    ];
  }
  // What stands on paper, while the browser draws for it.
  function paper() {
    isPlain = false;
    readColours();
    drawings.clear();
    return lines(true).map((it) => it.replace(/, no stop|, stop|, cursor [-a-z]+/g, "")).filter((it) => !/^\s*(hidden|region|header)/.test(it));
  }
  // What the page says of the position on its board, to be compared with pure Python.
  function facts() {
    const { position, side, isOver } = Game.now(), { profile } = Game.state, table = isOver || !DobutsuCore.isAllowed(profile, position) ? null : Files.tableFor(profile, position);
    if (!table || Setup.isOn() || View.options.isHidden || View.options.inMoves || Texts.language() !== "en") return null;
    const names = (selector) => all(selector).map((it) => it.textContent), judged = Game.state.plies.map(({ text, judged: it }) => [text, it && Texts.value(it.value), it && Texts.value(it.best)]);
    return {
      file: table.name, isCertificate: !!table.isCertificate, isBroken: table.isBroken, position: DobutsuCore.writePosition(position), side, value: element("value").firstChild.textContent,
      moves: all("#moves button").map((it) => [it.querySelector(".move").textContent, it.querySelector(".told")?.textContent ?? ""]), line: names("#line .move"), start: Game.state.start, first: Game.state.side, judged,
      tags: all(".square .tag").filter((it) => it.textContent).map((it) => [nameOf(it.closest(".square")), it.textContent]),
    };
  }
  // The texts that tell of what is on the board, in the language that is chosen.
  const SAID = "#files p, #files button, #files summary, #broken, #editor-fault, #value, #judged, #moves button, #line .end, #line-head, #moves-head, #record .move, #record .mark, .tag, #game-told, #strip .cell, #mistakes button, #branches-head, #branches button, "
    + "#game-fault, #task, #verdict, #score, #exercise-length, #exercise-file, #answer, #practise, #practice, #glance-told, #glance-set, #glance-value, #glance-zugzwangs, #glance-links button, #text-fault, #lesson-first, #lesson-rest, #copy, #link, #badge, #play, #hide";
  function said() {
    return all(SAID).filter((it) => it.checkVisibility() && (it.textContent || it.getAttribute("aria-label"))).map((it) => {
      const words = clean(it.tagName === "SELECT" ? [...it.options].map((option) => option.textContent).join(" | ") : it.innerText), heard = it.getAttribute("aria-label");
      return `  ${words}${heard && heard !== words ? ` "${heard}"` : ""}`;
    });
  }
  // ---- acts: each gives what is there when the page has come to rest

  const pause = (wait) => new Promise((done) => setTimeout(done, wait));
  // Whether nothing is looked up, no set is counted, and no exercises are counted or drawn.
  const isBusy = (id) => element(id).getAttribute("aria-busy") === "true";
  const isResting = () => root.dataset.busy === "" && !isBusy("exercise-card") && !(isBusy("glance") && element("glance").open) && element("task").textContent !== Texts.text("drawing");
  async function rest(isThere = () => true) {
    for (let i = 0; ; i++) {
      await pause(i < 4 ? 0 : 8);
      if (isResting() && isThere()) return;
      if (realNow() - began > 1000 * Scene.patience) throw new Error(`it doesn't come to rest: ${isThere}`);
    }
  }
  const realNow = performance.now.bind(performance);
  let began = 0;
  async function act(does, isThere, isTold, options) {
    began = realNow();
    await does();
    await rest(isThere);
    return isTold ? { lines: write(options), facts: facts() } : null;
  }
  function enter(text) {
    element("text").value = text;
    element("text").dispatchEvent(new Event("input"));
    element("text").dispatchEvent(new Event("blur"));
  }
  function choose(id, value) {
    element(id).value = value;
    element(id).dispatchEvent(new Event("change"));
  }
  async function play(moves) {
    for (const move of moves) {
      all("#moves button").find((it) => it.querySelector(".move").textContent === move).click();
      await rest();
    }
  }
  function press(words, within) {
    all(`${within} button, ${within} summary`).find((it) => it.checkVisibility() && it.textContent.trim().startsWith(words)).click();
  }
  async function speak(name) {
    if ((root.dataset.language === "en") !== (name === "en")) { element("language").click(); await rest(); }
    if (root.dataset.language !== name) { element("kana").click(); await rest(); }
  }
  async function saidIn(names) {
    began = realNow();
    const found = [];
    for (const name of names) {
      await speak(name);
      found.push(said());
    }
    await speak("en");
    return found;
  }
  // Gives files of { name, base64 } as if they were picked, and waits until each is told as open or refused.
  async function give(files) {
    const data = new DataTransfer();
    for (const { name, base64 } of files) data.items.add(new File([Uint8Array.from(atob(base64), (sign) => sign.charCodeAt(0))], name));
    element("files").textContent = "";
    element("file").files = data.files;
    element("file").dispatchEvent(new Event("change"));
    await rest(filesTold);
  }
  const filesTold = () => document.querySelector("#files:not([aria-busy=true]) b") && document.querySelector("#exercise-card[aria-busy=false]");
  async function ready() {
    began = realNow();
    while (root.dataset.ready !== "1") await pause(4);
    await rest();
  }
  return { patience: 60, act, rest, pass, enter, choose, play, press, speak, saidIn, give, filesTold, ready, watch, write, paper, facts, said, told };
})();
Scene.watch();
