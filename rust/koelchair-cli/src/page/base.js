// What the case is, and small helpers.

// An error is said on the page: a page that broke must not be taken for a whole one.
function failed(message) {
  const place = document.getElementById("errors");
  const said = `This page is broken: ${message}. `;
  place.hidden = false;
  if (!place.textContent.includes(said)) place.textContent += said;
}
window.addEventListener("error", (event) => failed(event.message));
window.addEventListener("unhandledrejection", (event) => failed(String(event.reason)));

// The case as the tool wrote it, or exchanged where the address says so. All that the page says of it stands there; the script
// looks it up.
const other = JSON.parse(document.getElementById("exchanged").textContent);
const exchanged = other !== null && location.hash.slice(1).split("&").includes("exchanged");
const data = exchanged ? other : JSON.parse(document.getElementById("case").textContent);
const lattice = data.lattice;
const T = data.rounds.length - 1;
const SVG = document.querySelector("svg").namespaceURI;

// The element of the page with this id.
function at(id) {
  return document.getElementById(id);
}

// Sets attributes (handlers by `onclick` and the like) and puts nodes or text inside.
function fill(node, attributes, inside) {
  for (const [name, value] of Object.entries(attributes)) {
    if (typeof value === "function") node.addEventListener(name.slice(2), value);
    else if (value !== false) node.setAttribute(name, value === true ? "" : value);
  }
  node.append(...inside);
  return node;
}

function make(tag, attributes = {}, ...inside) {
  return fill(document.createElement(tag), attributes, inside);
}

function draw(tag, attributes = {}, ...inside) {
  return fill(document.createElementNS(SVG, tag), attributes, inside);
}

// What people call a model: `student's model`, with its title where that says more.
function modelName(m) {
  const [owner, title] = [data.owners[m], data.models[m].title];
  return title && title !== owner ? `${owner}'s model (${title})` : `${owner}'s model`;
}

// `student` or `course` in its colour.
function person(m) {
  return make("span", { class: `person ${data.owners[m]}` }, data.owners[m]);
}

function capital(text) {
  return text === "" ? "" : text[0].toUpperCase() + text.slice(1);
}

function count(number, what) {
  return `${number} ${what}${number === 1 ? "" : "s"}`;
}

// An element's name in its colour.
function chip(element) {
  return make("span", { class: `chip ${coloured(element)}` }, lattice.names[element]);
}

// A table of nodes or text: the first row and the first cell of each other row are headings.
function tableOf(caption, rows) {
  const [head, ...body] = rows;
  const cells = (row) => row.slice(1).map((cell) => make("td", {}, cell));
  return make(
    "table",
    {},
    ...(caption ? [make("caption", {}, caption)] : []),
    make("thead", {}, make("tr", {}, ...head.map((cell) => make("th", { scope: "col" }, cell)))),
    make("tbody", {}, ...body.map((row) => make("tr", {}, make("th", { scope: "row" }, row[0]), ...cells(row)))),
  );
}

// A box in which a wide or long table scrolls; it takes the focus so that keys can scroll it.
function scrolling(label, table) {
  return make("div", { class: "scroll", tabindex: "0", role: "region", "aria-label": label }, table);
}

// How wide a text of 18 units is in a drawing.
const ruler = document.createElement("canvas").getContext("2d");
function textWidth(text, bold = false) {
  ruler.font = `${bold ? "bold " : ""}18px ${getComputedStyle(document.body).fontFamily}`;
  return ruler.measureText(text).width;
}

// A text cut to so many characters.
function short(text, most) {
  const letters = [...text];
  return letters.length > most ? `${letters.slice(0, most - 1).join("")}\u2026` : text;
}

// Names cut so that no two are the same: at the end, else in the middle, else not at all.
function shortNames(names, most) {
  const inside = (name) => {
    const letters = [...name];
    const half = Math.floor((most - 1) / 2);
    return letters.length > most ? `${letters.slice(0, most - 1 - half).join("")}\u2026${letters.slice(-half).join("")}` : name;
  };
  const alone = (cut, name) => names.filter((other) => cut(other) === cut(name)).length === 1;
  const cuts = [(name) => short(name, most), inside];
  return names.map((name) => cuts.find((cut) => alone(cut, name))?.(name) ?? name);
}

// Arrow keys, Home and End over a list with one place in the order of Tab; `move` gives the next place or undefined.
function roving(box, selector, move) {
  box.addEventListener("keydown", (event) => {
    const from = event.target.closest(selector);
    const to = from && !event.altKey && !event.ctrlKey && !event.metaKey && move(from, event.key);
    if (!to) return;
    event.preventDefault();
    to.focus();
  });
  box.addEventListener("focusin", (event) => {
    const now = event.target.closest(selector);
    if (!now) return;
    box.querySelectorAll(`${selector}[tabindex="0"]`).forEach((node) => node.setAttribute("tabindex", "-1"));
    now.setAttribute("tabindex", "0");
  });
}
