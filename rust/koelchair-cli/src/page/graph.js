// The models as graphs, each fitted into its part of the first screen; states and arrows can be chosen. What a chosen pair's
// reason names is lit: the arrow of who is followed, the best answer of who follows, or the propositions that differ.

// The arrow that is chosen, as [model, from, to].
let chosenArrow = null;
// For each model its drawings, the shown one, and what of it is seen.
const drawn = [{}, {}];

// A drawing in which 18 units are the size of the page's text; where there is less room, down to 18 pixels, then it scrolls.
function sized(svg, box) {
  svg.setAttribute("viewBox", box.join(" "));
  svg.style.width = `${box[2] / 18}rem`;
  svg.style.maxWidth = "100%";
  svg.style.minWidth = `${box[2]}px`;
  return svg;
}

// The name of a value on an arrow; where there are many arrows none for top.
function arrowValue(model) {
  const dense = model.transitions.length > 2.5 * model.states.length + 4;
  return (value) => (dense && value === lattice.top ? "" : short(lattice.names[value], 22));
}

// The drawing of a model that is largest in a box: with propositions in the circles unless only names can be read.
function bestDrawing(m, width, height) {
  const model = data.models[m];
  const layered = model.states.length > MOST_STATES;
  const forms = layered ? [true, false] : model.transitions.length > 60 ? RINGS.slice(1, 4) : RINGS;
  const scale = ({ box }) => Math.min(width / box[2], height / box[3]);
  const made = (bare) => {
    drawn[m][bare] ??= forms.map((form) => layOut(model, arrowValue(model), bare, form));
    return drawn[m][bare].reduce((a, b) => (scale(b) > scale(a) * 1.05 ? b : a));
  };
  const full = made(false);
  return layered || scale(full) * 18 >= 13 ? full : made(true);
}

function valueLabel(label, m) {
  return draw(
    "g",
    { class: `value h${lattice.height[label.element]}`, "data-from": label.arrow.from, "data-to": label.arrow.to, "data-model": m },
    draw("rect", { x: label.x, y: label.y, width: label.width, height: label.height, rx: 7 }),
    draw("text", { x: label.x + label.width / 2, y: label.y + 14 }, label.text),
  );
}

// A state in full: its name and its propositions.
function stateWords(m, q) {
  const model = data.models[m];
  const all = valued(model, q, data.propositions, data.propositions);
  return `${model.states[q]}${all.length > 0 ? `: ${all.join(", ")}` : ""}`;
}

// An arrow in full: where it goes, and its value.
function arrowWords(m, from, to) {
  const model = data.models[m];
  const value = model.transitions.find(([a, b]) => a === from && b === to)?.[2] ?? lattice.bottom;
  return `${model.states[from]} \u2192 ${model.states[to]}: ${lattice.names[value]}`;
}

function stateCircle(node, m) {
  const line = (text, i) => {
    const y = node.y + (i - (node.lines.length - 1) / 2) * LINE;
    return draw("text", { x: node.x, y, class: i === 0 ? "name" : "" }, text);
  };
  const circle = draw("circle", { class: "state", cx: node.x, cy: node.y, r: node.radius });
  const said = stateWords(m, node.q);
  const attributes = { class: "node", role: "button", tabindex: "-1", "aria-label": `state ${said}`, "data-model": m, "data-state": node.q };
  return draw("g", attributes, draw("title", {}, said), circle, ...node.lines.map(line));
}

function arrowPath({ path, from, to }, m) {
  if (from < 0) return draw("path", { class: "edge", d: path, "marker-end": `url(#tip${m})` });
  const said = arrowWords(m, from, to);
  const attributes = { class: "arrow", role: "button", tabindex: "-1", "aria-label": `arrow ${said}`, "data-model": m, "data-from": from, "data-to": to };
  return draw(
    "g", attributes, draw("title", {}, said), draw("path", { class: "hit", d: path }),
    draw("path", { class: "edge", d: path, "marker-end": `url(#tip${m})` }),
  );
}

// A tip for arrows, and one for arrows that are lit.
function tips(m) {
  const tip = (id, name) => draw(
    "marker",
    { id, viewBox: "0 0 12 10", refX: 1, refY: 5, markerWidth: 12, markerHeight: 10, markerUnits: "userSpaceOnUse", orient: "auto" },
    draw("path", { class: name, d: "M0 0 L12 5 L0 10 Z" }),
  );
  return draw("defs", {}, tip(`tip${m}`, "tip"), tip(`lit${m}`, `tip lit ${data.owners[m]}`));
}

function drawGraph(m) {
  const box = at(`model${m + 1}`).querySelector(".drawing");
  const form = bestDrawing(m, box.clientWidth, box.clientHeight);
  if (drawn[m].shown === form) return fitPart(m);
  const svg = draw(
    "svg",
    { role: "group", class: form.nodes.length > MOST_STATES ? "layered" : "", "aria-label": `Graph of the ${modelName(m)}: ${count(form.nodes.length, "state")}; the same as a table below` },
    tips(m),
    ...form.arrows.map((arrow) => arrowPath(arrow, m)),
    ...form.nodes.map((node) => stateCircle(node, m)),
    ...form.labels.map((label) => valueLabel(label, m)),
  );
  box.replaceChildren(svg);
  drawn[m].shown = form;
  svg.querySelector(".node").setAttribute("tabindex", "0");
  roving(svg, ".node, .arrow", (from, key) => beside(svg, from, key));
  fitPart(m);
  if (chosen !== null) markChosen();
}

// The state or arrow that a key leads to.
function beside(svg, from, key) {
  const all = [...svg.querySelectorAll(".node"), ...svg.querySelectorAll(".arrow")];
  const i = all.indexOf(from);
  const steps = { ArrowRight: i + 1, ArrowDown: i + 1, ArrowLeft: i - 1, ArrowUp: i - 1, Home: 0, End: all.length - 1 };
  return all[steps[key]];
}

// Shows the part of a drawing that is to be seen.
function showPart(m) {
  at(`model${m + 1}`).querySelector(".drawing svg").setAttribute("viewBox", drawn[m].part.join(" "));
}

// Makes a drawing larger or smaller around a point from 0 to 1 of its box.
function zoom(m, by, [px, py] = [0.5, 0.5]) {
  const [x, y, width, height] = drawn[m].part;
  const whole = drawn[m].shown.box;
  const factor = Math.max(0.05, Math.min(1.5, (width / whole[2]) * by)) / (width / whole[2]);
  drawn[m].part = [x + width * px * (1 - factor), y + height * py * (1 - factor), width * factor, height * factor];
  showPart(m);
}

// Shows all of a drawing, in letters not much larger than the page's.
function fitPart(m) {
  const { clientWidth, clientHeight } = at(`model${m + 1}`).querySelector(".drawing");
  const [x, y, width, height] = drawn[m].shown.box;
  const most = (1.25 * parseFloat(getComputedStyle(document.documentElement).fontSize)) / 18;
  const [wide, high] = [Math.max(width, clientWidth / most), Math.max(height, clientHeight / most)];
  const small = width < wide && height < high;
  drawn[m].part = small ? [x - (wide - width) / 2, y - (high - height) / 2, wide, high] : [x, y, width, height];
  showPart(m);
}

// One drawing over the whole stage, or both.
function alone(m) {
  const stage = at("stage");
  const now = stage.dataset.alone === String(m + 1);
  if (now) delete stage.dataset.alone;
  else stage.dataset.alone = m + 1;
  document.querySelectorAll(".model .large").forEach((button, i) => {
    const large = stage.dataset.alone === String(i + 1);
    button.textContent = large ? "Both" : "Large";
    button.setAttribute("aria-pressed", large);
  });
  fitStage();
}

// Dragging moves a drawing; Ctrl and the wheel, or two fingers, make it larger or smaller.
function startMoving(m, box) {
  let last = null;
  box.addEventListener("pointerdown", (event) => { last = [event.clientX, event.clientY, false]; });
  box.addEventListener("pointermove", (event) => {
    if (last === null || event.buttons === 0) return;
    const [dx, dy] = [event.clientX - last[0], event.clientY - last[1]];
    if (!last[2] && Math.hypot(dx, dy) < 6) return;
    const scale = box.querySelector("svg").getScreenCTM().a;
    drawn[m].part[0] -= dx / scale;
    drawn[m].part[1] -= dy / scale;
    last = [event.clientX, event.clientY, true];
    box.setPointerCapture(event.pointerId);
    showPart(m);
  });
  box.addEventListener("click", (event) => {
    if (last?.[2]) event.stopPropagation();
    last = null;
  }, true);
  box.addEventListener("wheel", (event) => {
    if (!event.ctrlKey) return;
    event.preventDefault();
    const own = box.getBoundingClientRect();
    zoom(m, event.deltaY > 0 ? 1.15 : 1 / 1.15, [(event.clientX - own.left) / own.width, (event.clientY - own.top) / own.height]);
  }, { passive: false });
}

// A click, or Enter or Space, chooses a state or an arrow; pointing at it or going to it says it in full.
function startChoosing(box, said) {
  const pick = (event) => {
    const mark = event.target.closest("[data-state], [data-from]");
    if (!mark || mark.dataset.from === "-1") return;
    const m = Number(mark.dataset.model);
    if (mark.dataset.state !== undefined) chooseState(m, Number(mark.dataset.state));
    else chooseArrow(m, Number(mark.dataset.from), Number(mark.dataset.to));
  };
  box.addEventListener("click", pick);
  box.addEventListener("keydown", (event) => {
    if (!["Enter", " "].includes(event.key)) return;
    event.preventDefault();
    pick(event);
  });
  const say = (event) => {
    const mark = event.target.closest?.("[data-state], [data-from]");
    const { model, state, from, to } = mark?.dataset ?? {};
    said.textContent = state !== undefined ? stateWords(Number(model), Number(state))
      : from !== undefined && from !== "-1" ? arrowWords(Number(model), Number(from), Number(to)) : "";
  };
  for (const name of ["mouseover", "focusin"]) box.addEventListener(name, say);
  for (const name of ["mouseleave", "focusout"]) box.addEventListener(name, () => { said.textContent = ""; });
}

// A state of one model is chosen with the other's of the pair before.
function chooseState(m, q) {
  choose(...(m === 0 ? [q, chosen[1]] : [chosen[0], q]));
  toCell();
}

// An arrow is chosen with the pair that it goes from.
function chooseArrow(m, from, to) {
  chooseState(m, from);
  chosenArrow = [m, from, to];
  showPair();
}

// What is said of a chosen arrow: its value, and for each arrow of the other's the entry of the pair that both lead to.
function showArrow() {
  const [m, from, to] = chosenArrow;
  const o = 1 - m;
  const here = chosen[o];
  const others = data.models[o].transitions.filter(([q]) => q === here);
  const pair = (q) => (m === 0 ? [to, q] : [q, to]);
  const line = ([q, r, value]) => {
    const [q1, q2] = pair(r);
    return make("li", {}, `${data.models[o].states[q]} \u2192 ${data.models[o].states[r]} (`, chip(value), `) leads to (${rows[q1]}, ${columns[q2]}): `, chip(entries[q1 * columns.length + q2]));
  };
  light(null);
  lightArrow(m, from, to);
  return [
    make("p", { class: "reason" }, "The ", person(m), `'s ${arrowWords(m, from, to)}. With it, each arrow of the `, person(o), `'s from ${data.models[o].states[here]}:`),
    others.length > 0 ? make("ul", {}, ...others.map(line)) : make("p", {}, "There is none."),
  ];
}

function lightArrow(m, from, to) {
  at(`model${m + 1}`).querySelectorAll(`[data-from="${from}"][data-to="${to}"]`).forEach((node) => {
    node.classList.add("lit");
    node.querySelector(".edge")?.setAttribute("marker-end", `url(#lit${m})`);
    // Over the other arrows, and under the states.
    if (node.matches(".arrow") && node !== document.activeElement) node.parentNode.insertBefore(node, node.parentNode.querySelector(".node"));
  });
}

// Lights what a cause names; nothing for none.
function light(cause) {
  document.querySelectorAll(".model .lit:not(.tip)").forEach((node) => {
    node.classList.remove("lit");
    const m = node.closest(".model").id.slice(-1) - 1;
    node.querySelector(".edge")?.setAttribute("marker-end", `url(#tip${m})`);
  });
  if (cause === null) return;
  if (cause.to !== null) lightArrow(0, cause.pair[0], cause.to);
  if (cause.answer !== null) lightArrow(1, cause.pair[1], cause.answer);
  if (cause.propositions.length > 0) {
    cause.pair.forEach((q, m) => at(`model${m + 1}`).querySelector(`[data-state="${q}"]`)?.classList.add("lit"));
  }
}

// States, initial values, propositions and transitions as a table; equal values stand together.
function modelTable(m) {
  const model = data.models[m];
  const k = data.propositions.length;
  const grouped = (list) => {
    const groups = new Map();
    for (const [name, value] of list) {
      if (value !== lattice.bottom) groups.set(value, [...(groups.get(value) ?? []), name]);
    }
    const parts = [...groups].map(([value, names]) => make("span", {}, `${names.join(", ")}: `, chip(value), " "));
    return make("span", {}, ...parts);
  };
  const line = (name, q) => [
    name,
    chip(model.initial[q]),
    grouped(data.propositions.map((p, i) => [p, model.propositions[q * k + i]])),
    grouped(model.transitions.filter(([from]) => from === q).map(([, to, value]) => [model.states[to], value])),
  ];
  const head = ["State", "Initial", "Propositions", "Transitions to"];
  return scrolling(`states of ${modelName(m)}`, tableOf("", [head, ...model.states.map(line)]));
}

// The captions, buttons and boxes of both drawings.
function showModels() {
  data.models.forEach((model, m) => {
    const button = (words, label, work) => make("button", { type: "button", "aria-label": `${label} the ${data.owners[m]}'s drawing`, onclick: work }, words);
    const large = button("Large", "show large", () => alone(m));
    large.classList.add("large");
    const title = model.title && model.title !== data.owners[m] ? ` ${model.title}` : "";
    const box = make("div", { class: "drawing", "data-graph": m + 1 });
    const said = make("p", { class: "said", "aria-hidden": "true" });
    at(`model${m + 1}`).classList.add(data.owners[m]);
    at(`model${m + 1}`).append(
      make("div", { class: "line" }, make("h3", {}, person(m), title),
        button("+", "enlarge", () => zoom(m, 1 / 1.3)), button("\u2212", "shrink", () => zoom(m, 1.3)), button("Fit", "fit", () => fitPart(m)), large),
      box, said,
    );
    startMoving(m, box);
    startChoosing(box, said);
    at("models").append(make("details", {}, make("summary", {}, capital(modelName(m))), modelTable(m)));
  });
  const left = `Left out of the drawings are transitions, initial values and propositions that are ${lattice.names[lattice.bottom]}. `;
  const bare = data.propositions.length > 0 ? `A proposition without a value is ${lattice.names[lattice.top]}. ` : "";
  const dense = data.models.some((model) => arrowValue(model)(lattice.top) === "") ? `An arrow without a value is ${lattice.names[lattice.top]}. ` : "";
  const many = data.models.some((model) => model.states.length > MOST_STATES) ? "Where a drawing has more than 12 states, an arrow's value is said when it is pointed at." : "";
  at("left-out").textContent = left + bare + dense + many;
}

// Table, words and drawings on one screen: the table beside the drawings, or above them where it is wide.
function fitStage() {
  const stage = at("stage");
  const part = (at("table").offsetWidth + 12 + (at("overview").hidden ? 0 : at("overview").offsetWidth + 10)) / stage.clientWidth;
  const wide = window.innerWidth >= 900 && part > 0.35;
  stage.classList.toggle("wide", wide);
  stage.style.setProperty("--left", wide ? Math.max(10, Math.min(16, Math.ceil(part * 24))) : `${Math.max(33, part * 100)}%`);
  const top = Math.max(at("table").offsetHeight + 9, stage.clientHeight * 0.34);
  stage.style.setProperty("--top", `${Math.min(top, stage.clientHeight * 0.46)}px`);
  [0, 1].filter((m) => at(`model${m + 1}`).checkVisibility()).forEach(drawGraph);
  if (chosen !== null) showPair();
}
