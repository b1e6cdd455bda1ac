// Light and dark, and the colours of the elements: from orange (bottom) to blue (top) by level; for a panel a stripe for each
// instructor. Every cell also has its name.

const STOPS = {
  light: [[163, 64, 13], [246, 232, 190], [13, 84, 134]],
  dark: [[205, 108, 56], [168, 158, 122], [98, 174, 230]],
};
const highest = Math.max(...lattice.height);
const systemDark = window.matchMedia("(prefers-color-scheme: dark)");
let chosenTheme = null;

// The colour at a place from 0 (bottom) to 1 (top).
function between(stops, place) {
  const [from, to, part] = place < 0.5 ? [stops[0], stops[1], 2 * place] : [stops[1], stops[2], 2 * place - 1];
  return from.map((value, i) => Math.round(value + (to[i] - value) * part));
}

// The relative luminance of a colour (WCAG 2).
function luminance(colour) {
  const linear = colour.map((value) => {
    const part = value / 255;
    return part <= 0.03928 ? part / 12.92 : ((part + 0.055) / 1.055) ** 2.4;
  });
  return 0.2126 * linear[0] + 0.7152 * linear[1] + 0.0722 * linear[2];
}

// Sets the theme and the colours of all levels; text on them is black or white, whichever stands out more.
function showTheme() {
  const theme = chosenTheme ?? (systemDark.matches ? "dark" : "light");
  const root = document.documentElement;
  root.dataset.theme = theme;
  for (let h = 0; h <= highest; h += 1) {
    const colour = between(STOPS[theme], highest === 0 ? 1 : h / highest);
    const light = luminance(colour);
    root.style.setProperty(`--h${h}`, `rgb(${colour.join(",")})`);
    root.style.setProperty(`--t${h}`, (light + 0.05) / 0.05 > 1.05 / (light + 0.05) ? "#000" : "#fff");
  }
  showOverview();
  at("theme").textContent = theme === "dark" ? "Light colours" : "Dark colours";
}

// The class that colours an element: by its level, and for a panel by its letters besides.
function coloured(element) {
  const letters = lattice.letters.length > 0 ? ` panel p${lattice.letters[element].join("")}` : "";
  return `h${lattice.height[element]}${letters}`;
}

// For a panel a stripe for each instructor at the foot of a cell or chip, in the colours of no, unsure and yes.
function panelRules() {
  const colour = (letter) => `var(--h${(letter * highest) / 2})`;
  return [...new Map(lattice.letters.map((letters) => [letters.join(""), letters]))].map(([name, letters]) => {
    const stops = letters.map((letter, i) => `${colour(letter)} ${(i * 100) / 3}% ${((i + 1) * 100) / 3}%`);
    return `.p${name}::after{background:linear-gradient(90deg,${stops.join(",")})}`;
  });
}

function startTheme() {
  const rules = [];
  for (let h = 0; h <= highest; h += 1) {
    rules.push(`.h${h}{background:var(--h${h});color:var(--t${h})}`);
    rules.push(`.drawing .h${h} rect{fill:var(--h${h})}.drawing .h${h} text{fill:var(--t${h})}`);
  }
  document.head.append(make("style", {}, [...rules, ...panelRules()].join("\n")));
  systemDark.addEventListener("change", showTheme);
  at("theme").addEventListener("click", () => {
    chosenTheme = document.documentElement.dataset.theme === "dark" ? "light" : "dark";
    showTheme();
    writeAddress();
  });
  showTheme();
}

// What the colours mean: the elements themselves, or the levels where there are many.
function showLegend() {
  const colours = [];
  const byHeight = (h) => lattice.names.filter((_, element) => lattice.height[element] === h);
  for (let h = 0; h <= highest && highest < 12; h += 1) {
    const names = byHeight(h);
    colours.push(make("span", { class: `chip h${h}` }, names.length === 1 ? names[0] : `level ${h}`), " ");
  }
  if (highest >= 12) {
    for (const h of [0, highest >> 2, highest >> 1, highest - (highest >> 2), highest]) {
      colours.push(make("span", { class: `chip h${h}` }, byHeight(h).length === 1 ? byHeight(h)[0] : `level ${h}`), " ");
    }
  }
  at("legend").append("Colours, from bottom to top: ", ...colours, "\u25BE lower than in the round before.",
    lattice.letters.length > 0 ? " The stripes below an entry are the three instructors' views." : "");
}
