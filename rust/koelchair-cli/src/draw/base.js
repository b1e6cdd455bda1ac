// Small helpers, and what is drawn with its past.

// An error is said on the page: a page that broke must not be taken for a whole one.
function failed(message) {
  at("errors").hidden = false;
  at("errors").textContent += `This page is broken: ${message}. `;
}
window.addEventListener("error", (event) => failed(event.message));

const SVG = document.querySelector("svg").namespaceURI;
const MOST_STATES = 64;
const MOST_PROPOSITIONS = 16;
const MOST_ELEMENTS = 64;

function at(id) {
  return document.getElementById(id);
}

// Sets attributes (handlers by `onclick` and the like) and puts nodes or text inside.
function fill(node, attributes, inside) {
  for (const [name, value] of Object.entries(attributes)) {
    if (typeof value === "function") node.addEventListener(name.slice(2), value);
    else if (value !== false) node.setAttribute(name, value === true ? "" : value);
  }
  node.append(...inside);
  return node;
}

function make(tag, attributes = {}, ...inside) {
  return fill(document.createElement(tag), attributes, inside);
}

function draw(tag, attributes = {}, ...inside) {
  return fill(document.createElementNS(SVG, tag), attributes, inside);
}

// A text in which what stands between backquotes is code.
function withCode(text) {
  return text.split("`").map((part, i) => (i % 2 ? make("code", {}, part) : part));
}

function say(text) {
  at("said").replaceChildren(...withCode(text));
}

// What the tool wrote into this page: a text, and whether lattice and propositions are the course's.
const given = JSON.parse(at("case").textContent);

// `which` model is drawn, what is `chosen` (a state or an arrow of it by number), and the state that an arrow begins at by keys.
const now = { drawing: null, which: 0, chosen: null, linking: null, zoom: 1, past: [], future: [], kept: "" };

function model() {
  return now.drawing.models[now.which];
}

// Whether the model that is shown can be altered; the course's cannot where the tool fixed it.
function editable() {
  return !(given.fixed && now.which === 1);
}

function bottom() {
  return leftOut(now.drawing.lattice);
}

function top() {
  return extreme(now.drawing.lattice, true) ?? size(now.drawing.lattice) - 1;
}

function chosenState() {
  return now.chosen && now.chosen.sort === "state" ? model().states[now.chosen.number] : undefined;
}

function chosenArrow() {
  return now.chosen && now.chosen.sort === "arrow" ? model().arrows[now.chosen.number] : undefined;
}

function choose(sort, number) {
  now.chosen = sort ? { sort, number } : null;
}

// Alters what is drawn, so that it can be undone, and shows it.
function alter(change) {
  now.past.push(structuredClone(now.drawing));
  now.future = [];
  change(now.drawing);
  show();
}

// Goes back (or forth again) by one alteration.
function travel(from, to) {
  if (from.length === 0) return;
  to.push(now.drawing);
  now.drawing = from.pop();
  const list = now.chosen && model()[now.chosen.sort === "state" ? "states" : "arrows"];
  if (!list || now.chosen.number >= list.length) choose(null);
  now.linking = null;
  show();
}
