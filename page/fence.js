// A fence around each card and each button: what goes wrong in one is told in a line of the page, and the others go on.
const Fence = (() => {
  "use strict";
  const wrong = new Map(); // what went wrong last, by the name of the card's heading or the button's text
  const element = (id) => document.getElementById(id);

  // The name of a card or a button as it is read: that of a text of the page.
  function named(name) {
    const found = Texts.text(name);
    return typeof found === "string" ? found : name;
  }
  function draw() {
    element("broken").textContent = [...wrong].map(([name, fault]) => Texts.text("brokenCard", named(name), fault.message || String(fault))).join(" ");
  }
  function note(name, fault) {
    console.error(fault);
    wrong.set(name, fault);
    draw();
    return null;
  }
  function clear(name) {
    if (wrong.delete(name)) draw();
  }

  // Does that and gives what it gives: null where it goes wrong, at once or later. Where it goes well the next time its line goes.
  function keep(name, act) {
    try {
      const given = act();
      if (given instanceof Promise) return given.then((it) => { clear(name); return it; }, (fault) => note(name, fault));
      clear(name);
      return given;
    } catch (fault) { return note(name, fault); }
  }
  // The same as a function of what the act is about.
  const around = (name, act) => (...about) => keep(name, () => act(...about));

  // What no fence stands around is told too.
  function make() {
    addEventListener("error", (event) => note("page", event.error || event.message));
    addEventListener("unhandledrejection", (event) => note("page", event.reason));
  }

  return { make, keep, around, draw };
})();
