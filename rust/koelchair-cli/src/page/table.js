// The table of a round: rows are states of who is followed, columns states of who follows.

const [rows, columns] = data.models.map((model) => model.states);
const entries = Uint8Array.from(data.first);
const changes = withFormer();
const cells = [];
let shownRound = 0;
let player = null;

// For each round its changes as [place, element before, element], so that rounds can be gone through both ways.
function withFormer() {
  const table = Uint8Array.from(data.first);
  return data.rounds.map((round) => {
    const list = [];
    for (let i = 1; i < round.length; i += 2) {
      list.push([round[i], table[round[i]], round[i + 1]]);
      table[round[i]] = round[i + 1];
    }
    return list;
  });
}

function buildTable() {
  const heading = make("th", { scope: "col", class: "corner" }, make("div", {}, person(1), " \u2192"), make("div", {}, person(0), " \u2193"));
  heading.title = `rows: the ${data.owners[0]}'s states, columns: the ${data.owners[1]}'s states`;
  const head = make("tr", {}, heading, ...columns.map((name) => make("th", { scope: "col" }, name)));
  const body = rows.map((name, q1) => {
    const line = columns.map((_, q2) => make("td", {}, cell(q1, q2)));
    return make("tr", {}, make("th", { scope: "row" }, name), ...line);
  });
  at("table").append(make("caption", {}, make("span", { id: "table-caption" })), make("thead", {}, head), make("tbody", {}, ...body));
  if (columns.length * longestName() > 90 || rows.length > 12) startOverview();
  cells[0].setAttribute("tabindex", "0");
  roving(at("table"), ".cell", nextCell);
  cells.forEach((_, place) => showCell(place));
}

function longestName() {
  return 2 + Math.max(...lattice.names.map((name) => [...name].length));
}

function cell(q1, q2) {
  const button = make("button", { type: "button", class: "cell", tabindex: "-1", "data-row": q1, "data-column": q2 });
  button.addEventListener("click", () => choose(q1, q2));
  cells.push(button);
  return button;
}

// The cell that a key leads to.
function nextCell(from, key) {
  const [q1, q2] = [Number(from.dataset.row), Number(from.dataset.column)];
  const steps = {
    ArrowUp: [q1 - 1, q2], ArrowDown: [q1 + 1, q2], ArrowLeft: [q1, q2 - 1], ArrowRight: [q1, q2 + 1],
    Home: [q1, 0], End: [q1, columns.length - 1],
  };
  const [row, column] = steps[key] ?? [-1, -1];
  return rows[row] !== undefined && columns[column] !== undefined ? cells[row * columns.length + column] : undefined;
}

function showCell(place) {
  const [element, button] = [entries[place], cells[place]];
  const lower = shownRound > 0 && lowered.has(place);
  const pair = `${rows[button.dataset.row]}, ${columns[button.dataset.column]}`;
  button.className = `cell ${coloured(element)}${lower ? " lower" : ""}`;
  button.textContent = lattice.names[element];
  button.setAttribute("aria-label", `${pair}: ${lattice.names[element]}${lower ? ", lower than before" : ""}`);
}

// The whole of a large table at once, a point for each entry; a click chooses the pair.
function startOverview() {
  const canvas = at("overview").querySelector("canvas");
  at("overview").hidden = false;
  [canvas.width, canvas.height] = [columns.length, rows.length];
  canvas.addEventListener("click", (event) => {
    const box = canvas.getBoundingClientRect();
    const part = (place, from, length, number) => Math.max(0, Math.min(number - 1, Math.floor(((place - from) / length) * number)));
    const q1 = part(event.clientY, box.top, box.height, rows.length);
    const q2 = part(event.clientX, box.left, box.width, columns.length);
    choose(q1, q2);
    toCell();
  });
}

// A frame around the chosen pair on the overview.
function markOverview() {
  if (at("overview").hidden || chosen === null) return;
  const part = (number, of) => `${(100 * (number + 0.5)) / of}%`;
  Object.assign(at("overview").querySelector("i").style, { left: part(chosen[1], columns.length), top: part(chosen[0], rows.length) });
}

function showOverview() {
  if (at("overview").hidden) return;
  const canvas = at("overview").querySelector("canvas");
  const context = canvas.getContext("2d");
  const style = getComputedStyle(document.documentElement);
  const colours = Array.from({ length: highest + 1 }, (_, h) => style.getPropertyValue(`--h${h}`));
  entries.forEach((element, place) => {
    context.fillStyle = colours[lattice.height[element]];
    context.fillRect(place % columns.length, Math.floor(place / columns.length), 1, 1);
  });
  canvas.dataset.settled = shownRound === T;
}

// The places that the shown round lowered.
let lowered = new Set();

// Goes to a round, one round after another, and shows what differs.
function goTo(round) {
  const touched = new Set(lowered);
  for (; shownRound < round; shownRound += 1) {
    for (const [place, , after] of changes[shownRound + 1]) {
      entries[place] = after;
      touched.add(place);
    }
  }
  for (; shownRound > round; shownRound -= 1) {
    for (const [place, before] of changes[shownRound]) {
      entries[place] = before;
      touched.add(place);
    }
  }
  lowered = new Set(changes[round].map(([place]) => place));
  lowered.forEach((place) => touched.add(place));
  touched.forEach(showCell);
  showStanding();
  showLowerings();
  showOverview();
  showWhole();
  showPair();
  writeAddress();
}

// The reasons of the settled score that lie in the initial values alone, so that no pair shows them.
const initialReasons = data.why.score.filter(([, [, cause]]) => cause === null).map(([sentence]) => sentence);

// The banner, the score and the controls.
function showStanding() {
  const settled = shownRound === T;
  const score = lattice.names[data.rounds[shownRound][0]];
  at("banner").dataset.settled = at("table-box").dataset.settled = settled;
  at("banner-text").textContent = settled
    ? `Settled at round ${T}: this is the greatest simulation.`
    : `Round ${shownRound} of ${T}: in the middle of the calculation, not a result.`;
  at("score").replaceChildren(settled ? "Score: " : "Score, not a result: ", chip(data.rounds[shownRound][0]));
  at("score").dataset.score = score;
  at("ceiling").replaceChildren(...(data.ceiling === null ? [] : [" Ceiling: ", chip(data.ceiling)]));
  at("why-score").hidden = !settled || data.why.score.length === initialReasons.length;
  at("score-reason").hidden = !settled || initialReasons.length === 0;
  at("score-reason").textContent = initialReasons.join(" ");
  at("ceiling").title = "what the course's model scores against itself";
  at("banner").querySelector("svg").replaceChildren(...shape(settled));
  at("table-caption").textContent = settled ? `Round ${T}, settled` : `Round ${shownRound} of ${T}, not a result`;
  at("round").value = shownRound;
  at("round").setAttribute("aria-valuetext", settled ? `round ${T}, settled` : `round ${shownRound} of ${T}, not a result`);
  at("round-number").textContent = `${shownRound} of ${T}`;
  at("previous").disabled = at("start").disabled = shownRound === 0;
  at("next").disabled = at("settled").disabled = settled;
}

// A ring with a bar, as nothing moves any more, or a triangle with an exclamation mark. Settled is not passed: no tick.
function shape(settled) {
  if (settled) return [draw("path", { d: "M20 4 A16 16 0 1 1 19.9 4 Z M12 16 L28 16 M12 24 L28 24" })];
  return [draw("path", { d: "M20 4 L37 35 L3 35 Z" }), draw("text", { x: 20, y: 31 }, "!")];
}

function stopPlaying() {
  clearInterval(player);
  player = null;
  at("play").textContent = "Play";
}

// Plays from the shown round on, or from round 0 if the settled one is shown.
function playOrPause() {
  if (player !== null) return stopPlaying();
  if (shownRound === T) goTo(0);
  at("play").textContent = "Pause";
  player = setInterval(() => {
    goTo(shownRound + 1);
    if (shownRound === T) stopPlaying();
  }, T > 20 ? 400 : 1200);
}

function startControls() {
  const control = (id, round) => at(id).addEventListener("click", () => {
    stopPlaying();
    goTo(Math.max(0, Math.min(T, round())));
  });
  control("start", () => 0);
  control("previous", () => shownRound - 1);
  control("next", () => shownRound + 1);
  control("settled", () => T);
  at("play").addEventListener("click", playOrPause);
  window.addEventListener("keydown", pageKey);
  at("why-score").addEventListener("click", () => {
    choose(...firstPair());
    toCell();
  });
  at("round").max = T;
  at("round").addEventListener("input", () => {
    stopPlaying();
    goTo(Number(at("round").value));
  });
}

// Space, PageDown and PageUp, which a presenter's remote sends, go from round to round, Space not where it presses something.
function pageKey(event) {
  if (event.altKey || event.ctrlKey || event.metaKey) return;
  const presses = event.target.closest?.("button, input, summary, a, [role=button]");
  const space = event.key === " " && !presses;
  const step = space ? (event.shiftKey ? -1 : 1) : { PageDown: 1, PageUp: -1 }[event.key];
  if (!step) return;
  event.preventDefault();
  stopPlaying();
  goTo(Math.max(0, Math.min(T, shownRound + step)));
}
