// What the page says: languages are English, Japanese, and Japanese in kana, each in a file of its own. A text is a string, or a function of what it
// is about. `data-text` and `data-label` in page.html name the texts of what stands there from the beginning.
const Texts = (() => {
  "use strict";
  const languages = {}; // { en, ja, kana }, of the same shape
  let chosen = "en";

  // How many moves of the winner a distance in plies is: the winner makes the last ply, of an odd number the first one too.
  const winnersMoves = (plies) => Math.ceil(plies / 2);

  // The text of that name in the chosen language.
  const text = (name, ...about) => {
    const found = languages[chosen][name];
    return typeof found === "function" ? found(...about) : found;
  };
  const language = () => chosen;
  const choose = (name) => { chosen = name in languages ? name : "en"; };

  // What is wrong, in words: of a fault of the core its own, of anything else the message.
  const wrong = (fault) => {
    if (!fault.fault) return text("unreadable", fault.message);
    if (fault.fault === "lost") return text("lostFile");
    const name = fault.fault.split(" ")[0];
    return text("fault", name, text("faults")[name] || fault.fault);
  };

  // A value in words, and the same in few letters for a square.
  const value = ({ kind, plies, isWithin }, inMoves) => (kind === "draw" ? text("draw") : text(kind === "win" ? "wins" : "loses", plies, inMoves, isWithin));
  const tag = ({ kind, plies, isWithin }, inMoves) => {
    const number = inMoves ? winnersMoves(plies) : plies;
    return kind === "draw" ? text("tagDraw") : text(kind === "win" ? "tagWin" : "tagLoss", isWithin ? `≤${number}` : number);
  };

  // Writes the texts that stand in the page from the beginning.
  function writeAll() {
    document.documentElement.lang = chosen === "en" ? "en" : "ja";
    document.documentElement.dataset.language = chosen;
    document.title = text("title");
    for (const element of document.querySelectorAll("[data-text]")) element.textContent = text(element.dataset.text);
    for (const element of document.querySelectorAll("[data-label]")) element.setAttribute("aria-label", text(element.dataset.label));
  }

  return { languages, winnersMoves, text, language, choose, wrong, value, tag, writeAll };
})();
