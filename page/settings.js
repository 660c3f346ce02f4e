// What the reader chose, kept between visits where the browser keeps anything: language, colours, how values are said, keys, arrow, speed, exercises, and
// whether values are hidden.
const Settings = (() => {
  "use strict";
  const { text } = Texts;
  const { options } = View;
  const THEMES = ["system", "light", "dark"], SIGNS = { system: "◐", light: "☀", dark: "☾" };
  const SPEEDS = { slow: 2400, normal: 1200, fast: 500 }; // milliseconds between moves that are played out
  const element = (id) => document.getElementById(id);
  const wantsDark = matchMedia("(prefers-color-scheme: dark)");
  let theme = "system", changed = null, hides = false;

  const stored = {
    get: (name) => { try { return localStorage.getItem(`dobutsu-${name}`); } catch { return null; } },
    set: (name, value) => { try { localStorage.setItem(`dobutsu-${name}`, value); } catch { /* nothing is kept */ } },
  };

  function drawTheme() {
    document.documentElement.dataset.theme = theme === "system" ? (wantsDark.matches ? "dark" : "light") : theme;
    element("theme").textContent = SIGNS[theme];
    element("theme").setAttribute("aria-label", text("theme")[theme]);
    element("theme").title = text("theme")[theme];
  }
  function nextTheme() {
    theme = THEMES[(THEMES.indexOf(theme) + 1) % THEMES.length];
    stored.set("theme", theme);
    drawTheme();
  }

  // Writes the page's own texts in the chosen language; in Japanese a switch takes all to kana.
  function drawLanguage() {
    const isEnglish = Texts.language() === "en";
    Texts.writeAll();
    element("language").textContent = text("language");
    element("language").lang = isEnglish ? "ja" : "en";
    element("language").setAttribute("aria-label", text("languageLabel"));
    element("kana").hidden = isEnglish;
    element("kana").setAttribute("aria-pressed", Texts.language() === "kana");
    drawTheme();
  }
  function speak(language) {
    Texts.choose(language);
    stored.set("language", language);
    drawLanguage();
  }
  const otherLanguage = () => speak(Texts.language() === "en" ? "ja" : "en");
  const switchKana = () => speak(Texts.language() === "kana" ? "ja" : "kana");

  function hideValues(isHidden) {
    hides = isHidden;
    stored.set("hidden", isHidden ? "yes" : "no");
  }

  const isChecked = (name) => element(name).checked;
  function keepChecked(name) {
    element(name).checked = stored.get(name) !== "off";
    element(name).addEventListener("change", () => { stored.set(name, isChecked(name) ? "on" : "off"); changed(); });
  }
  function keepSelected(name, values) {
    if (values.includes(stored.get(name))) element(name).value = stored.get(name);
    element(name).addEventListener("change", () => { stored.set(name, element(name).value); take(); changed(); });
  }
  const take = () => { options.inMoves = element("measure").value === "moves"; };

  // Takes what was kept; `whenChanged` is called where a choice changes what is shown.
  function make(whenChanged) {
    changed = whenChanged;
    Texts.choose(stored.get("language") || (/^ja\b/.test(navigator.language) ? "ja" : "en"));
    if (THEMES.includes(stored.get("theme"))) theme = stored.get("theme");
    options.isHidden = hides = stored.get("hidden") === "yes";
    Worksheet.make();
    for (const name of ["letters", "arrow", "no-stuck"]) keepChecked(name);
    keepSelected("measure", ["plies", "moves"]);
    keepSelected("speed", Object.keys(SPEEDS));
    keepSelected("sheet-number", Array.from({ length: Worksheet.MOST }, (_, i) => String(i + 1)));
    keepSelected("sheet-answers", ["below", "apart"]);
    keepSelected("sheet-measure", ["moves", "plies"]);
    take();
    wantsDark.addEventListener("change", drawTheme);
    drawLanguage();
  }

  return {
    make, nextTheme, otherLanguage, switchKana, hideValues, drawLanguage,
    hides: () => hides, hasLetters: () => isChecked("letters"), leavesStuck: () => isChecked("no-stuck"), hasArrow: () => isChecked("arrow"), pace: () => SPEEDS[element("speed").value],
  };
})();
