// The drawing: states as boxes with their propositions, arrows with values where these are not top.

const ruler = document.createElement("canvas").getContext("2d");
function textWidth(text, bold) {
  ruler.font = `${bold ? "bold " : ""}18px ${getComputedStyle(document.body).fontFamily}`;
  return ruler.measureText(text).width;
}

// A value behind a word, unless it is top.
function said(word, value) {
  return value === top() ? word : `${word} = ${elementName(now.drawing.lattice, value)}`;
}

// What stands in a state's box, and the box around its place.
function box(state) {
  const lines = now.drawing.propositions.flatMap((p, i) => (state.values[i] === bottom() ? [] : [said(p, state.values[i])]));
  const width = Math.max(64, textWidth(state.name, true), ...lines.map((l) => textWidth(l, false))) + 32;
  return { lines, w: Math.round(width / 2), h: 22 + 11 * lines.length };
}

// Where the line from a box's middle to a point leaves the box, a little outside.
function border(state, { w, h }, x, y, gap) {
  const [dx, dy] = [x - state.x, y - state.y];
  const scale = Math.min((w + gap) / Math.max(Math.abs(dx), 0.01), (h + gap) / Math.max(Math.abs(dy), 0.01));
  return { x: state.x + dx * scale, y: state.y + dy * scale };
}

// The way of an arrow, and where its value stands. Two arrows between the same states bend away from each other.
function way({ from, to }, boxes) {
  const { states, arrows } = model();
  const [a, b] = [states[from], states[to]];
  if (from === to) {
    const y = a.y - boxes[from].h;
    return { d: `M${a.x - 16} ${y - 2} C${a.x - 46} ${y - 62} ${a.x + 46} ${y - 62} ${a.x + 16} ${y - 8}`, x: a.x, y: y - 52 };
  }
  const bend = arrows.some((o) => o.from === to && o.to === from) ? 46 : 0;
  const length = Math.hypot(b.x - a.x, b.y - a.y) || 1;
  const [nx, ny] = [-(b.y - a.y) / length, (b.x - a.x) / length];
  const middle = { x: (a.x + b.x) / 2 - nx * bend, y: (a.y + b.y) / 2 - ny * bend };
  const start = border(a, boxes[from], middle.x, middle.y, 2);
  const end = border(b, boxes[to], middle.x, middle.y, 9);
  return {
    d: `M${start.x.toFixed(1)} ${start.y.toFixed(1)} Q${middle.x.toFixed(1)} ${middle.y.toFixed(1)} ${end.x.toFixed(1)} ${end.y.toFixed(1)}`,
    x: (start.x + end.x) / 4 + middle.x / 2,
    y: (start.y + end.y) / 4 + middle.y / 2 - 13,
  };
}

function arrowNode(arrow, number, boxes) {
  const { states } = model();
  const { d, x, y } = way(arrow, boxes);
  const [plain, marked] = [arrow.value === top(), chosenArrow() === arrow];
  const value = elementName(now.drawing.lattice, arrow.value);
  return draw(
    "g",
    { class: `arrow${marked ? " chosen" : ""}`, "data-arrow": number, "data-key": `arrow ${number}`, tabindex: "0", role: "button",
      "aria-pressed": String(marked), "aria-label": `arrow from ${states[arrow.from].name} to ${states[arrow.to].name}: ${value}` },
    draw("path", { class: "near", d }),
    draw("path", { class: `edge${plain ? "" : " dashed"}`, d, "marker-end": marked ? "url(#tip-chosen)" : "url(#tip)" }),
    ...(plain ? [] : [draw("text", { x, y, class: "value" }, value)]),
  );
}

function initialNode(state, { w }) {
  const x = state.x - w;
  const value = state.initial === top() ? [] : [draw("text", { x: x - 22, y: state.y - 16, class: "value" }, elementName(now.drawing.lattice, state.initial))];
  return draw(
    "g",
    { class: "initial" },
    draw("circle", { cx: x - 36, cy: state.y, r: 6 }),
    draw("path", { class: `edge${value.length ? " dashed" : ""}`, d: `M${x - 32} ${state.y} L${x - 9} ${state.y}`, "marker-end": "url(#tip)" }),
    ...value,
  );
}

function stateNode(state, number, { lines, w, h }, warned) {
  const marked = chosenState() === state || now.linking === number;
  const text = (line, i) => draw("text", { x: state.x, y: state.y - h + 22 + 22 * (i + 1) }, line);
  const handle = draw(
    "g",
    { class: "handle", "data-handle": number },
    draw("circle", { cx: state.x + w, cy: state.y + h, r: 15 }),
    draw("path", { d: `M${state.x + w - 7} ${state.y + h} h12 m-5 -5 l5 5 l-5 5` }),
    draw("title", {}, "drag from here to a state: an arrow"),
  );
  return draw(
    "g",
    { class: `state${marked ? " chosen" : ""}${warned ? " warned" : ""}`, "data-state": number, "data-key": `state ${number}`, tabindex: "0",
      role: "button", "aria-pressed": String(marked), "aria-label": ["state", state.name, ...lines].join(" ") },
    draw("rect", { x: state.x - w, y: state.y - h, width: 2 * w, height: 2 * h, rx: 16 }),
    draw("text", { x: state.x, y: state.y - h + 22, class: "name" }, state.name),
    ...lines.map(text),
    ...(editable() ? [handle] : []),
  );
}

// The state that a point is in.
function stateAt(x, y) {
  const inside = (s) => Math.abs(x - s.x) <= box(s).w + 8 && Math.abs(y - s.y) <= box(s).h + 8;
  return model().states.findLastIndex(inside);
}

// Draws the model that is shown; a line to the pointer where an arrow is being dragged.
function showGraph(warnings) {
  const { states, arrows } = model();
  const boxes = states.map(box);
  const warned = new Set(warnings.map((w) => w.state));
  at("arrows").replaceChildren(...arrows.map((a, i) => arrowNode(a, i, boxes)));
  at("initials").replaceChildren(...states.flatMap((s, i) => (s.initial === bottom() ? [] : [initialNode(s, boxes[i])])));
  at("states").replaceChildren(...states.map((s, i) => stateNode(s, i, boxes[i], warned.has(i))));
  const room = at("room");
  const width = Math.max(room.clientWidth / now.zoom - 4, ...states.map((s, i) => s.x + boxes[i].w + 60));
  const height = Math.max(room.clientHeight / now.zoom - 4, ...states.map((s, i) => s.y + boxes[i].h + 60));
  const canvas = at("canvas");
  canvas.setAttribute("viewBox", `0 0 ${width} ${height}`);
  canvas.style.width = `${width * now.zoom}px`;
  canvas.style.height = `${height * now.zoom}px`;
  at("empty").hidden = states.length > 0;
}

// Gives places to states of a text that has none: columns by the number of arrows from an initial state.
function layOut(drawn) {
  const depth = drawn.states.map((s) => (s.initial === bottom() ? Infinity : 0));
  for (let i = 0; i < depth.length; i += 1) for (const a of drawn.arrows) depth[a.to] = Math.min(depth[a.to], depth[a.from] + 1);
  const deepest = Math.max(-1, ...depth.filter((d) => d !== Infinity));
  const rows = new Map();
  drawn.states.forEach((state, q) => {
    const column = depth[q] === Infinity ? deepest + 1 : depth[q];
    const row = rows.get(column) || 0;
    rows.set(column, row + 1);
    if (state.x === null) Object.assign(state, { x: 140 + 220 * column, y: 120 + 150 * row + 40 * (column % 2) });
  });
}
