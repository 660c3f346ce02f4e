// Pieces as SVG: a tile that points forward, an animal, dots for the steps, and the letter.
const Pieces = (() => {
  "use strict";
  const eye = (x, y, r = 2.6) => `<circle class="k" cx="${x}" cy="${y}" r="${r}"/><circle class="w" cx="${x + r * 0.35}" cy="${y - r * 0.35}" r="${r * 0.35}"/>`;
  const ring = (n, cx, cy, at, r, c) => Array.from({ length: n }, (_, i) => {
    const a = (2 * Math.PI * i) / n;
    return `<circle class="${c}" cx="${(cx + at * Math.cos(a)).toFixed(1)}" cy="${(cy + at * Math.sin(a)).toFixed(1)}" r="${r}"/>`;
  }).join("");
  const ANIMALS = {
    L: ring(11, 50, 50, 19, 8.5, "mane") + `<circle class="mane" cx="50" cy="50" r="19"/>`
      + `<circle class="lion" cx="36" cy="36" r="5"/><circle class="lion" cx="64" cy="36" r="5"/><circle class="lion" cx="50" cy="51" r="17"/>`
      + eye(43.5, 47) + eye(56.5, 47) + `<path class="k" d="M46.5 53h7l-3.5 4z"/><path class="l" d="M50 57v2.5m0 0q-4 4-7 .5m7-.5q4 4 7 .5"/>`
      + `<path class="l thin" d="M40 55l-7-1.500M40 57.500l-7 1M60 55l7-1.500M60 57.500l7 1"/>`,
    E: `<ellipse class="ear" cx="29" cy="45" rx="13.500" ry="16"/><ellipse class="ear" cx="71" cy="45" rx="13.500" ry="16"/>`
      + `<ellipse class="pink" cx="29" cy="46" rx="7.500" ry="10"/><ellipse class="pink" cx="71" cy="46" rx="7.500" ry="10"/>`
      + `<path class="ele" d="M32 46a18 18 0 0 1 36 0q0 10-9 14 0 11 5 12.500 3 .500 3-3 4.500-1 5 2-.500 8.500-9 8-10-.500-11-14h-1q-19 0-19-19.500z"/>`
      + `<path class="w" d="M40 60q-.500 7 4 9 2-5 1-9z"/>` + eye(42, 45) + eye(58, 45) + `<path class="l thin" d="M53 58h6M53.500 63h5.500"/>`,
    G: `<path class="gir" d="M37 78l5-32h16l5 32z"/><path class="spot" d="M44 57l6-1 1 6-6 2zM53 66l6-2 1 7-6 1zM43 68l5 0 0 6-6 1z"/>`
      + `<path class="l horn" d="M44.500 30l-2.500-9M55.500 30l2.500-9"/><circle class="spot" cx="42" cy="20.500" r="3"/><circle class="spot" cx="58" cy="20.500" r="3"/>`
      + `<path class="gir" d="M37 34q-9-6-10-1 2 6 10 6zM63 34q9-6 10-1-2 6-10 6z"/>`
      + `<path class="gir" d="M36.500 36q1-9 13.500-9t13.500 9q0 7-3 13-2 7-10.500 7t-10.500-7q-3-6-3-13z"/><ellipse class="muz" cx="50" cy="49" rx="9.500" ry="7"/>`
      + `<circle class="k" cx="46.500" cy="47.500" r="1.200"/><circle class="k" cx="53.500" cy="47.500" r="1.200"/><path class="l thin" d="M46 52q4 2.500 8 0"/>` + eye(43, 38) + eye(57, 38),
    C: `<path class="l foot" d="M44 73v6m-4 0h7M56 73v6m-3 0h7"/><circle class="chick" cx="50" cy="53" r="21"/><path class="l tuft" d="M50 33q-1-6-6-7M50 33q1-7 6-8"/>`
      + `<path class="wing" d="M30 54q-6 8 1 13 7-2 8-9zM70 54q6 8-1 13-7-2-8-9z"/><path class="beak" d="M43.500 54h13l-6.500 7z"/>` + eye(42, 47) + eye(58, 47)
      + `<circle class="pink" cx="37" cy="54" r="3"/><circle class="pink" cx="63" cy="54" r="3"/>`,
    H: `<path class="comb" d="M38 33q-3-10 5-9 1-6 7-5 6-1 7 5 8-1 5 9z"/><path class="l foot" d="M44 74v6m-4 0h7M56 74v6m-3 0h7"/><path class="hen" d="M27 53q0-22 23-22t23 22q0 23-23 23t-23-23z"/>`
      + `<path class="henwing" d="M29 54q-7 9 2 15 8-3 9-11zM71 54q7 9-2 15-8-3-9-11z"/><path class="beak" d="M43.500 51h13l-6.500 7z"/><path class="comb" d="M46.500 58.500q-1 7 3.500 7t3.500-7l-3.500 1.500z"/>` + eye(42, 45) + eye(58, 45),
  };
  const TILE = "M46 5q4-2.500 8 0l27 14q4 2 4.500 6l5 62q.500 7-6 7.500-34.500 2.500-69 0-6.500-.500-6-7.500l5-62q.500-4 4.500-6z";
  const dots = (kind) => DobutsuCore.STEPS[kind].map(([c, r]) => {
    // where the piece goes, at the edge of the tile
    const x = 50 + c * (r > 0 ? 27 : r < 0 ? 34 : 34.5), y = r > 0 ? (c ? 25 : 13) : r < 0 ? 87 : 54;
    return `<circle class="dot" cx="${x}" cy="${y}" r="3.4"/>`;
  }).join("");

  // The drawing of a letter; `atBottom`: whether its side plays upwards on the screen.
  function drawing(letter, atBottom) {
    const kind = letter.toUpperCase(), side = letter === kind ? "forest" : "sky";
    const turn = atBottom ? "" : ' transform="rotate(180 50 50)"', shift = atBottom ? 2 : -2;
    return `<svg class="piece ${side}" viewBox="0 0 100 100" aria-hidden="true" focusable="false"><g${turn}><path class="tile" d="${TILE}"/>${dots(kind)}</g>`
      + `<g transform="translate(0 ${shift})">${ANIMALS[kind]}</g><text class="letter" x="${atBottom ? 21 : 79}" y="${atBottom ? 83 : 26}">${letter}</text></svg>`;
  }
  return { drawing };
})();
