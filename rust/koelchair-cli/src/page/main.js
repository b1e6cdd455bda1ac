// Puts the page together. The part of the address after # says what is shown, as #round=2&pair=old,half&theme=dark.

function showHead() {
  const [one, other] = data.owners;
  at("title").textContent = (data.title || "Latticed simulation") + (exchanged ? ", exchanged" : "");
  at("direction").replaceChildren(
    "How far can the ", person(1), " follow the ", person(0), `? Rows are the ${one}'s states, columns the ${other}'s. ` +
    `What is true of all ways on in the ${other}'s model carries over to the ${one}'s: from state to state as far as the entry says, and of the whole models as far as the score says, ` +
    "in the settled table, and before it for the formulas that the shown round covers. Nothing is said the other way round.",
  );
  at("about").textContent = data.about;
  at("exchange").textContent = exchanged ? "Student against course" : "Exchange";
  at("exchange").title = `How far can the ${one} follow the ${other}?`;
  at("exchange").hidden = at("exchanged").textContent === "null";
  at("exchange").addEventListener("click", () => {
    const theme = chosenTheme === null ? "" : `&theme=${chosenTheme}`;
    location.hash = exchanged ? theme.slice(1) : `exchanged${theme}`;
    location.reload();
  });
}

// What an address asks for that the case does not have, part by part.
const unread = [];

// The pair that an address names, each state in its own encoding.
function pairOf(text) {
  const names = text.split(",").map(decoded);
  const pair = [rows.indexOf(names[0]), columns.indexOf(names[1])];
  if (names.length !== 2) unread.push(`pair=${text} has to name two states, as pair=${rows[0]},${columns[0]}`);
  else pair.forEach((q, m) => q === -1 && unread.push(`pair=${text}: the ${data.owners[m]}'s model has no state ${names[m]}`));
  return names.length !== 2 || pair.includes(-1) ? null : pair;
}

function decoded(text) {
  try {
    return decodeURIComponent(text);
  } catch {
    return text;
  }
}

function roundOf(text) {
  const round = /^\d+$/.test(text) ? Number(text) : NaN;
  if (round <= T) return round;
  unread.push(`round=${text}: the rounds are 0 to ${T}`);
  return T;
}

function readAddress() {
  unread.length = 0;
  const parts = location.hash.slice(1).split("&").filter((part) => part !== "").map((part) => part.split("="));
  const said = new Map(parts.map(([name, ...rest]) => [name, rest.join("=")]));
  const known = ["round", "pair", "theme", "exchanged"];
  for (const name of said.keys()) if (!known.includes(name)) unread.push(`${name} is none of ${known.join(", ")}`);
  if (said.has("exchanged") && other === null) unread.push("exchanged: a case of this size is not exchanged");
  if (["light", "dark"].includes(said.get("theme"))) {
    chosenTheme = said.get("theme");
    showTheme();
  } else if (said.has("theme")) unread.push(`theme=${said.get("theme")} is neither light nor dark`);
  const pair = said.has("pair") ? pairOf(said.get("pair")) : null;
  choose(...(pair ?? chosen ?? firstPair()));
  goTo(said.has("round") ? roundOf(said.get("round")) : T);
  at("notice").hidden = unread.length === 0;
  at("notice").textContent = `Not all of this page's address could be read: ${unread.join("; ")}.`;
  if (pair !== null) toCell();
}

// The pair that the settled score is held down by, else that of the first states with the highest initial values.
function firstPair() {
  const held = data.why.score.find(([, [, cause]]) => cause !== null);
  if (held) return causeOf(held[1][1]).pair;
  return data.models.map((model) => {
    const heights = model.initial.map((value) => lattice.height[value]);
    return heights.indexOf(Math.max(...heights));
  });
}

// Keeps the address in step, so that it can be passed on.
let reading = true;
function writeAddress() {
  if (reading || chosen === null) return;
  const pair = [rows[chosen[0]], columns[chosen[1]]].map(encodeURIComponent).join(",");
  const theme = chosenTheme === null ? "" : `&theme=${chosenTheme}`;
  history.replaceState(null, "", `#${exchanged ? "exchanged&" : ""}round=${shownRound}&pair=${pair}${theme}`);
}

function start() {
  startTheme();
  showHead();
  buildTable();
  showLegend();
  showModels();
  showLattice();
  showFormulas();
  startLowerings();
  startControls();
  fitStage();
  readAddress();
  fitStage();
  toCell();
  reading = false;
  window.addEventListener("hashchange", () => {
    reading = true;
    readAddress();
    reading = false;
  });
  window.addEventListener("resize", fitStage);
  startPrinting();
  document.documentElement.dataset.ready = "true";
}

// On paper: light colours, everything unfolded.
function startPrinting() {
  const paper = window.matchMedia("print");
  let folded = [];
  let theme = null;
  paper.addEventListener("change", () => {
    if (paper.matches) {
      folded = [...document.querySelectorAll("details:not([open])")];
      folded.forEach((node) => { node.open = true; });
      theme = chosenTheme;
      chosenTheme = "light";
    } else {
      folded.forEach((node) => { node.open = false; });
      chosenTheme = theme;
    }
    showTheme();
  });
}

start();
