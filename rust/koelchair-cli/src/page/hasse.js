// The lattice as a Hasse diagram: a line goes up from an element to each that covers it. Elements of one height stand in one
// band, in more than one line where they are many.

const ROOM = 1120;

// Elements by height, each band in an order that keeps lines short.
function bands() {
  const list = Array.from({ length: highest + 1 }, () => []);
  lattice.height.forEach((height, element) => list[height].push(element));
  const place = new Map();
  const note = (band) => band.forEach((element, i) => place.set(element, (i + 0.5) / band.length));
  list.forEach(note);
  const beside = (element, up) => lattice.covers.filter((pair) => pair[up ? 0 : 1] === element).map((pair) => pair[up ? 1 : 0]);
  const middle = (element, up) => {
    const others = beside(element, up).map((other) => place.get(other));
    return others.length === 0 ? place.get(element) : others.reduce((a, b) => a + b, 0) / others.length;
  };
  for (let sweep = 0; sweep < 8; sweep += 1) {
    const up = sweep % 2 === 1;
    for (const band of up ? [...list].reverse() : list) {
      const by = new Map(band.map((element) => [element, middle(element, up)]));
      band.sort((a, b) => by.get(a) - by.get(b) || a - b);
      note(band);
    }
  }
  return list;
}

// The place of each element, and the bands, from bottom upwards.
function hassePlaces() {
  const width = lattice.names.map((name) => textWidth(short(name, 24)) + 20);
  const gap = highest > 14 ? 16 : lattice.covers.length > 60 ? 62 : 46;
  const places = [];
  const stripes = [];
  let y = 0;
  for (const band of bands()) {
    const wide = Math.max(...band.map((element) => width[element])) + 12;
    const lines = Math.min(4, Math.max(1, Math.ceil((band.length * wide) / ROOM)));
    const step = wide / lines;
    band.forEach((element, i) => {
      const line = lines === 1 ? 0 : i % lines;
      places[element] = { x: (i - (band.length - 1) / 2) * step, y: y - line * 40, width: width[element] };
    });
    stripes.push({ lines, y: y - (lines - 1) * 40 - 22, height: (lines - 1) * 40 + 44, half: ((band.length - 1) / 2) * step + wide / 2 });
    y -= (lines - 1) * 40 + 34 + gap;
  }
  return { places, stripes };
}

function elementMark(element, place) {
  return draw(
    "g",
    {
      class: `element h${lattice.height[element]}`, "data-element": element, tabindex: "-1", role: "button",
      "aria-label": `${lattice.names[element]}, complement ${lattice.names[lattice.complement[element]]}`,
    },
    draw("title", {}, `${lattice.names[element]}, complement ${lattice.names[lattice.complement[element]]}`),
    draw("rect", { x: place.x - place.width / 2, y: place.y - 16, width: place.width, height: 32, rx: 8 }),
    draw("text", { x: place.x, y: place.y }, short(lattice.names[element], 24)),
  );
}

// Marks an element, its complement and the lines to and from it, and says them in words.
function showElement(svg, element) {
  const not = lattice.complement[element];
  const names = (list) => list.map((e) => lattice.names[e]).join(" ") || "none";
  const above = lattice.covers.filter(([low]) => low === element).map(([, high]) => high);
  const below = lattice.covers.filter(([, high]) => high === element).map(([low]) => low);
  svg.querySelectorAll(".element").forEach((mark) => {
    const other = Number(mark.dataset.element);
    mark.classList.toggle("marked", other === element);
    mark.classList.toggle("complement", other === not && not !== element);
  });
  svg.querySelectorAll(".cover").forEach((line) => {
    const mine = Number(line.dataset.low) === element || Number(line.dataset.high) === element;
    line.classList.toggle("marked", mine);
    line.classList.toggle("faint", !mine && lattice.covers.length > 60);
  });
  at("element").replaceChildren(chip(element), " has the complement ", chip(not), `. Next above: ${names(above)}. Next below: ${names(below)}.`);
}

// The element that a key leads to: left and right through the list, up and down to a next element above or below.
function nextElement(svg, from, key) {
  const element = Number(from.dataset.element);
  const marks = [...svg.querySelectorAll(".element")];
  const i = marks.indexOf(from);
  const mark = (number) => marks.find((other) => Number(other.dataset.element) === number);
  const steps = {
    ArrowLeft: () => marks[i - 1],
    ArrowRight: () => marks[i + 1],
    ArrowUp: () => mark(lattice.covers.find(([low]) => low === element)?.[1]),
    ArrowDown: () => mark(lattice.covers.find(([, high]) => high === element)?.[0]),
    Home: () => marks[0],
    End: () => marks[marks.length - 1],
  };
  return steps[key]?.();
}

function hasse() {
  const { places, stripes } = hassePlaces();
  const half = Math.max(...stripes.map((stripe) => stripe.half)) + 6;
  const crowded = stripes.some((stripe) => stripe.lines > 1);
  const order = places.map((_, element) => element).sort((a, b) => lattice.height[a] - lattice.height[b] || places[a].x - places[b].x);
  const svg = draw(
    "svg",
    { role: "group", "aria-label": `Hasse diagram of ${count(places.length, "element")}` },
    ...stripes.filter(() => crowded).map((stripe) => draw("rect", { class: "band", x: -half, y: stripe.y, width: 2 * half, height: stripe.height, rx: 6 })),
    ...lattice.covers.map(([low, high]) => draw("line", {
      class: "cover", "data-low": low, "data-high": high,
      x1: places[low].x, y1: places[low].y - 16, x2: places[high].x, y2: places[high].y + 16,
    })),
    ...order.map((element) => elementMark(element, places[element])),
  );
  const last = stripes[stripes.length - 1];
  svg.querySelector(".element").setAttribute("tabindex", "0");
  roving(svg, ".element", (from, key) => nextElement(svg, from, key));
  for (const event of ["focusin", "mouseover", "click"]) {
    svg.addEventListener(event, (e) => {
      const mark = e.target.closest(".element");
      if (mark) showElement(svg, Number(mark.dataset.element));
    });
  }
  return sized(svg, [-half - 4, last.y - 6, 2 * half + 8, stripes[0].y + stripes[0].height - last.y + 12]);
}

function showLattice() {
  const svg = hasse();
  const complements = lattice.names.map((name, element) => [chip(element), chip(lattice.complement[element])]);
  const words = make("p", { id: "element" }, "Point at an element, or go to it with Tab and the arrow keys, to see its complement.");
  const wide = svg.viewBox.baseVal.width > 700;
  at("lattice").classList.toggle("wide", wide);
  const box = make("div", { class: `drawing${highest > 14 ? " tall" : ""}`, "data-hasse": "" }, svg);
  const table = scrolling("complements", tableOf("", [["Element", "Complement"], ...complements]));
  at("lattice").append(
    make("div", {}, words, box),
    wide ? make("details", {}, make("summary", {}, "Complements as a table"), table) : table,
  );
  if (highest > 14) box.scrollTop = box.scrollHeight;
}
