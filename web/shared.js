const SHAPES = {
  p: '<circle cx="20" cy="13" r="5.2"/><path d="M12 34h16l-3.4-8.6c-1-2.9-.7-5 .7-6.6H14.700c1.400 1.600 1.700 3.700.7 6.600z"/>',
  r: '<path d="M10 34h20v-4h-3V18h3V9h-4.500v3.200H22V9h-4v3.200h-3.500V9H10v9h3v12h-3z"/>',
  n: '<path d="M12 34h18c.4-10-.6-20-11-23.500L17.400 7l-1.600 4.600c-3.800 2.200-6 7.600-8 11.800l3.400 4.200 6.200-3.800c-.8 4.200-4.400 5.200-5.400 10.200z"/>',
  b: '<circle cx="20" cy="7.500" r="2.300"/><path d="M11 34h18v-3c-3-.8-4.300-1.800-4.400-3.200 4.600-4 5.400-9.300-4.600-17.800-10 8.500-9.200 13.800-4.600 17.800-.1 1.400-1.400 2.400-4.400 3.200z"/>',
  q: '<path d="M10 34h20l-1-5c2.400-5.600 4.200-10.800 5-16l-6 6-2.200-9.500L20 18l-5.800-8.500L12 19l-6-6c.8 5.200 2.600 10.400 5 16z"/>',
  k: '<path d="M18.500 4.500h3v2.800h2.800v3h-2.800v3.200c8.600-.4 11.300 6 6.800 13.500l.9 7H10.800l.9-7C7.200 19.500 9.900 13.100 18.500 13.500v-3.200h-2.800v-3h2.800z"/>'
};
const NAMES = { p: "pawn", n: "knight", b: "bishop", r: "rook", q: "queen", k: "king" };
const WORDS = { win: "wins", loss: "loses", draw: "draw", "cursed-win": "wins, but for the fifty-move rule", "blessed-loss": "loses, but for the fifty-move rule", "maybe-win": "wins, perhaps too late", "maybe-loss": "loses, perhaps too late", unknown: "not in the tables" };
const KIND = c => /win$/.test(c) && c !== "cursed-win" ? "win" : /loss$/.test(c) && c !== "blessed-loss" ? "loss" : "draw";
const by = id => document.getElementById(id);
const cells = f => [...f.split(" ")[0].replace(/\d/g, n => ".".repeat(n)).replace(/\//g, "").replace(/[^pnbrqkPNBRQK.]/g, ".")].concat(Array(64).fill(".")).slice(0, 64);
const square = i => "abcdefgh"[i % 8] + (8 - (i >> 3));
const drawn = man => man === "." ? "" : `<svg viewBox="0 0 40 40" class="${man < "a" ? "white" : "black"}" aria-hidden="true">${SHAPES[man.toLowerCase()]}</svg>`;
const named = man => man === "." ? "empty" : (man < "a" ? "white " : "black ") + NAMES[man.toLowerCase()];
