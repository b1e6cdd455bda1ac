// The chosen pair: its entry, why it is what it is, the way to the cause, and for each formula the bound that its values give.

let chosen = null;
// The cause that is shown where the way to it was gone along, with what stood before; else the reasons of the chosen pair.
let trail = [];
let shownReason = 0;

// A cause by its number.
function causeOf(number) {
  if (number === null) return null;
  const [q1, q2, round, to, answer, next, propositions, text] = data.why.causes[number];
  return { number, pair: [q1, q2], round, to, answer, next, propositions, text };
}

// The reasons of the shown entry, each whose view it is and its cause; on the way to a cause that cause alone.
function reasons() {
  if (trail.length > 0) {
    const { label, cause } = trail[trail.length - 1];
    return [{ label, cause: causeOf(cause) }];
  }
  const place = chosen[0] * columns.length + chosen[1];
  const found = data.why.entries[place].find(([element]) => element === entries[place]);
  return (found?.[1] ?? []).map(([label, cause]) => ({ label, cause: causeOf(cause) }));
}

function markChosen() {
  cells.forEach((button) => {
    const pressed = Number(button.dataset.row) === chosen[0] && Number(button.dataset.column) === chosen[1];
    button.setAttribute("aria-pressed", pressed);
  });
  document.querySelectorAll(".node").forEach((node) => {
    node.classList.toggle("chosen", chosen[node.dataset.model] === Number(node.dataset.state));
  });
}

function choose(q1, q2) {
  chosen = [q1, q2];
  trail = [];
  shownReason = 0;
  chosenArrow = null;
  markChosen();
  showPair();
  writeAddress();
}

// Goes on to the pair that the best answer leads to, in the same view.
function nextCause() {
  const { label, cause } = reasons()[shownReason];
  trail.push({ label, cause: cause.next, from: chosen, reason: shownReason });
  goAlong(causeOf(cause.next).pair, 0);
}

function formerCause() {
  const { from, reason } = trail.pop();
  goAlong(from, reason);
}

function goAlong(pair, reason) {
  chosen = pair;
  shownReason = reason;
  chosenArrow = null;
  markChosen();
  showPair();
  writeAddress();
  toCell();
}

// Brings the cell of the chosen pair into sight without moving the page.
function toCell() {
  const cell = cells[chosen[0] * columns.length + chosen[1]];
  const [box, own] = [at("table-box").getBoundingClientRect(), cell.getBoundingClientRect()];
  const head = at("table").querySelector("thead").offsetHeight;
  const side = at("table").querySelector("tbody th").offsetWidth;
  const over = (from, to, low, high) => (from < low ? from - low : to > high ? to - high : 0);
  at("table-box").scrollBy(over(own.left, own.right, box.left + side, box.right - 8), over(own.top, own.bottom, box.top + head, box.bottom - 8));
}

// A formula's line: values of both, the bound, whether the entry keeps it, whether it must.
function pairLine(formula, entry) {
  const values = [formula.values[0][chosen[0]], formula.values[1][chosen[1]]];
  const { bound, said, isCovered, mark, why } = bounded(formula, values, "entry", entry);
  return [formula.name, ...values.map(chip), chip(bound), said, coveredMark(isCovered, `${mark}: ${why}`)];
}

// A text in which what stands between backquotes is code.
function withCode(text) {
  return text.split("`").map((part, i) => (i % 2 === 1 ? make("code", {}, part) : part));
}

// The sentence of a reason; where there are several, one of them is lit and the others can be chosen.
function reasonLine({ label, cause }, i, several) {
  const inside = [...(label ? [make("strong", {}, `${label}. `)] : []), ...withCode(capital(cause?.text ?? ""))];
  if (!several) return make("p", { class: "reason" }, ...inside);
  const button = make("button", { type: "button", class: "reason", "aria-pressed": String(i === shownReason) }, ...inside);
  button.addEventListener("click", () => {
    shownReason = i;
    showPair();
    at("pair").querySelectorAll("button.reason")[i]?.focus();
  });
  return button;
}

// The two arrows that are lit, in words, and the round in which the entry fell.
function litWords(cause) {
  const [q1, q2] = cause.pair;
  const fell = `Fell in round ${cause.round}.`;
  if (cause.to === null) return [fell];
  const answer = cause.answer === null ? ` has no arrow from ${columns[q2]}. ` : ` at best ${columns[q2]} \u2192 ${columns[cause.answer]}. `;
  return [person(0), ` ${rows[q1]} \u2192 ${rows[cause.to]}, `, person(1), answer, fell];
}

function stepButtons(cause) {
  const next = make("button", { type: "button", id: "next-cause", onclick: nextCause }, "Next cause");
  const back = make("button", { type: "button", id: "back", onclick: formerCause }, "Back");
  next.disabled = cause.next === null;
  back.disabled = trail.length === 0;
  const keep = document.activeElement?.id;
  if (["next-cause", "back"].includes(keep)) queueMicrotask(() => (at(keep).disabled ? at(keep === "back" ? "next-cause" : "back") : at(keep)).focus());
  const after = cause.next !== null ? causeOf(cause.next).pair : null;
  if (after) next.title = `the student's arrow and the best answer lead to (${rows[after[0]]}, ${columns[after[1]]})`.replace("student", data.owners[0]);
  return make("div", { class: "line steps" }, back, next, make("span", {}, after ? "" : "This is the cause."));
}

// What is said of the chosen pair in words, and lit in the drawings.
function showWhy(entry) {
  const list = reasons();
  const { cause } = list[shownReason] ?? { cause: null };
  light(cause);
  if (entry === lattice.top) return [make("p", { class: "reason" }, "The entry is top in every round so far: nothing holds it down.")];
  return [
    ...(cause === null || (cause.next === null && trail.length === 0) ? [] : [stepButtons(cause)]),
    ...list.map((reason, i) => reasonLine(reason, i, list.length > 1)),
    ...(cause === null ? [] : [make("p", { id: "lit" }, ...litWords(cause))]),
  ];
}

function showPair() {
  if (chosen === null) return;
  if (trail.length > 0 && causeOf(trail[trail.length - 1].cause).round > shownRound) trail = [];
  const [q1, q2] = chosen;
  const entry = entries[q1 * columns.length + q2];
  if (shownReason >= reasons().length) shownReason = 0;
  const heading = make("h3", { id: "pair-heading" }, person(0), ` ${rows[q1]}, `, person(1), ` ${columns[q2]}: `, chip(entry));
  at("pair").replaceChildren(
    heading,
    ...(shownRound === T ? [] : [make("p", { class: "middle" }, `Round ${shownRound} of ${T}, not a result`)]),
    ...(chosenArrow === null ? showWhy(entry) : showArrow()),
  );
  showBounds(entry);
  markOverview();
}

// The table of bounds, folded away below.
function showBounds(entry) {
  const [q1, q2] = chosen;
  const lines = data.formulas.map((formula) => pairLine(formula, entry));
  const head = boundHead(`${data.owners[0]}, at ${rows[q1]}`, `${data.owners[1]}, at ${columns[q2]}`, "The entry is");
  const table = tableOf("", [head, ...lines]);
  at("bounds").querySelector("div").replaceChildren(...(lines.length === 0 ? [make("p", {}, "The case has no formulas.")] : [
    make("p", {}, ...boundWords("value", "entry"), ` The pair is (${rows[q1]}, ${columns[q2]}).`),
    scrolling("formulas at the chosen pair", table),
  ]));
}
