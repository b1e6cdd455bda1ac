// Where the states and arrows of a model's graph stand. Up to 12 states stand on a ring, with transitions as curved arrows; of
// several curves for an arrow the one is taken that comes nearest to touching no other state and no other value. More states
// stand in layers, by how many transitions lead to them from an initial state.

const MOST_STATES = 12;
const LINE = 23;

// The rings that are tried: how flat, and where the first state stands.
const RINGS = [[1, Math.PI], [0.6, Math.PI], [0.38, Math.PI], [1.6, -Math.PI / 2], [1, -Math.PI / 2]];

// A graph's states: the lines in each circle (the name alone where room is scarce) and one radius for all.
function circles(model, bare) {
  const names = shortNames(model.states, bare ? 10 : 14);
  const nodes = model.states.map((name, q) => ({ q, name, lines: bare ? [names[q]] : [names[q], ...stateLines(model, q)] }));
  const radius = Math.max(bare ? 28 : 36, ...nodes.map((node) => radiusOf(node.lines)));
  nodes.forEach((node) => { node.radius = radius; });
  return nodes;
}

// A state's propositions that are not bottom; at most four lines of them.
function stateLines(model, q) {
  const all = valued(model, q, shortNames(data.propositions, 15), shortNames(data.propositions, 9));
  return all.length > 4 ? [...all.slice(0, 3), `and ${all.length - 3} more`] : all;
}

// The propositions of a state that are not bottom, by these names where they are top and by those where not.
function valued(model, q, names, namesWithValue) {
  const k = data.propositions.length;
  return data.propositions
    .map((_, p) => [p, model.propositions[q * k + p]])
    .filter(([, value]) => value !== lattice.bottom)
    .map(([p, value]) => (value === lattice.top ? names[p] : `${namesWithValue[p]}: ${short(lattice.names[value], 14)}`));
}

function radiusOf(lines) {
  const reach = lines.map((line, i) => {
    const y = Math.abs(i - (lines.length - 1) / 2) * LINE + 9;
    return Math.hypot(textWidth(line, i === 0) / 2, y);
  });
  return Math.max(...reach) + 6;
}

// Puts the states on a ring, clockwise, as far apart as `apart`; `out` is the direction away from the ring.
function place(nodes, apart, [flat, begin]) {
  const n = nodes.length;
  if (n === 1) return Object.assign(nodes[0], { x: 0, y: 0, out: -Math.PI / 2 });
  const steps = 3600;
  const point = (i) => {
    const angle = begin + (2 * Math.PI * i) / steps;
    return [Math.cos(angle), flat * Math.sin(angle), angle];
  };
  const lengths = [0];
  for (let i = 1; i <= steps; i += 1) {
    const [a, b] = [point(i - 1), point(i)];
    lengths.push(lengths[i - 1] + Math.hypot(b[0] - a[0], b[1] - a[1]));
  }
  const spread = nodes.map((_, q) => point(lengths.findIndex((length) => length >= (lengths[steps] * q) / n - 1e-9)));
  const near = Math.min(...spread.map((a, q) => {
    const b = spread[(q + 1) % n];
    return Math.hypot(a[0] - b[0], a[1] - b[1]);
  }));
  nodes.forEach((node, q) => {
    const [x, y, angle] = spread[q];
    Object.assign(node, { x: (x * apart) / near, y: (y * apart) / near, out: Math.atan2(Math.sin(angle), flat * Math.cos(angle)) });
  });
}

// The layers of a model: states by their distance from the initial ones, those that no way leads to last, each layer in an
// order that keeps arrows short.
function layers(model) {
  const depth = model.initial.map((value) => (value === lattice.bottom ? -1 : 0));
  if (!depth.includes(0)) depth[0] = 0;
  let wave = depth.flatMap((d, q) => (d === 0 ? [q] : []));
  for (let d = 1; wave.length > 0; d += 1) {
    const from = new Set(wave);
    wave = [...new Set(model.transitions.filter(([q, to]) => from.has(q) && depth[to] < 0).map(([, to]) => to))];
    wave.forEach((to) => { depth[to] = d; });
  }
  const last = Math.max(...depth) + 1;
  const list = Array.from({ length: last + 1 }, () => []);
  depth.forEach((d, q) => list[d < 0 ? last : d].push(q));
  const spot = new Map();
  const note = (layer) => layer.forEach((q, i) => spot.set(q, (i + 0.5) / layer.length));
  list.forEach(note);
  for (let sweep = 0; sweep < 6; sweep += 1) {
    for (const layer of sweep % 2 === 1 ? [...list].reverse() : list) {
      const beside = (q) => model.transitions.flatMap(([a, b]) => (a === q && b !== q ? [spot.get(b)] : b === q && a !== q ? [spot.get(a)] : []));
      const by = new Map(layer.map((q) => [q, beside(q)]).map(([q, all]) => [q, all.length ? all.reduce((x, y) => x + y, 0) / all.length : spot.get(q)]));
      layer.sort((a, b) => by.get(a) - by.get(b) || a - b);
      note(layer);
    }
  }
  return list.filter((layer) => layer.length > 0);
}

// Puts the states in layers, across or down; a layer of many takes several lines.
function placeInLayers(model, nodes, across) {
  const most = Math.max(4, Math.ceil(Math.sqrt(nodes.length)));
  const lines = layers(model).flatMap((layer) => {
    const parts = Math.ceil(layer.length / most);
    return Array.from({ length: parts }, (_, i) => layer.filter((_, j) => j % parts === i));
  });
  const [step, gap] = [3.6 * nodes[0].radius, 3 * nodes[0].radius];
  lines.forEach((line, i) => line.forEach((q, j) => {
    const aside = (j - (line.length - 1) / 2) * gap + (i % 2) * gap * 0.3;
    Object.assign(nodes[q], { x: across ? i * step : aside, y: across ? aside : i * step, out: across ? Math.PI : -Math.PI / 2 });
  }));
}

// An arrow between states that stand in layers.
function plainArrow(from, to) {
  const curve = [from, { x: (from.x + to.x) / 2 + (to.y - from.y) * 0.14, y: (from.y + to.y) / 2 - (to.x - from.x) * 0.14 }, to];
  const fine = Array.from({ length: 41 }, (_, i) => i / 40);
  const outside = (node, margin) => (t) => Math.hypot(onCurve(curve, t).x - node.x, onCurve(curve, t).y - node.y) > node.radius + margin;
  const start = fine.find(outside(from, 1)) ?? 0;
  const [a, c, b] = piece(curve, start, Math.max(start, fine.findLast(outside(to, 11)) ?? 1));
  return { path: `M${a.x} ${a.y} Q${c.x} ${c.y} ${b.x} ${b.y}`, middle: onCurve(curve, 0.5) };
}

// The rectangle of a text around a point.
function rectangle(text, x, y) {
  const width = textWidth(text) + 14;
  return { text, x: x - width / 2, y: y - 14, width, height: 28 };
}

function overlap(a, b, margin = 3) {
  return a.x < b.x + b.width + margin && b.x < a.x + a.width + margin && a.y < b.y + b.height + margin && b.y < a.y + a.height + margin;
}

// How far a point is from a rectangle.
function distance(x, y, r) {
  const dx = Math.max(r.x - x, 0, x - r.x - r.width);
  const dy = Math.max(r.y - y, 0, y - r.y - r.height);
  return Math.hypot(dx, dy);
}

// The point of a curve with one control point at a part from 0 to 1.
function onCurve([a, c, b], t) {
  const mix = (key) => (1 - t) ** 2 * a[key] + 2 * t * (1 - t) * c[key] + t ** 2 * b[key];
  return { x: mix("x"), y: mix("y") };
}

// The piece of a curve between two parts of it.
function piece([a, c, b], s, t) {
  const curve = [a, c, b];
  const control = (key) => (1 - s) * (1 - t) * a[key] + (s * (1 - t) + t * (1 - s)) * c[key] + s * t * b[key];
  return [onCurve(curve, s), { x: control("x"), y: control("y") }, onCurve(curve, t)];
}

// An arrow from one state to another with a bend, its value at a part of it, and how much it is in the way of others.
function candidate(drawing, from, to, text, bend, part) {
  const [dx, dy] = [to.x - from.x, to.y - from.y];
  const control = { x: (from.x + to.x) / 2 + dy * bend, y: (from.y + to.y) / 2 - dx * bend };
  const curve = [from, control, to];
  const points = Array.from({ length: 31 }, (_, i) => onCurve(curve, i / 30));
  const middle = onCurve(curve, part);
  const label = rectangle(text, middle.x, middle.y);
  const others = drawing.nodes.filter((node) => node !== from && node !== to);
  let cost = Math.abs(Math.abs(bend) - 0.18) * 60 + (bend < 0 ? 4 : 0) + Math.abs(part - 0.5) * 40;
  for (const node of others) {
    if (points.some((p) => Math.hypot(p.x - node.x, p.y - node.y) < node.radius + 10)) cost += 1000;
  }
  if (drawing.bends.get(`${to.q},${from.q}`) === -bend) cost += 1000;
  if (text) {
    for (const node of drawing.nodes) if (distance(node.x, node.y, label) < node.radius + 6) cost += 400;
    for (const other of drawing.labels) if (overlap(label, other)) cost += 600;
    for (const other of drawing.curves) if (other.some((p) => distance(p.x, p.y, label) < 5)) cost += 60;
  }
  for (const other of drawing.labels) if (points.some((p) => distance(p.x, p.y, other) < 5)) cost += 60;
  return { curve, points, label, bend, cost };
}

function arrow(drawing, from, to, text) {
  const bends = [0.18, -0.18, 0.08, -0.08, 0.32, -0.32, 0.45, -0.45, 0.62, -0.62, 0.85, -0.85];
  const parts = [0.5, 0.4, 0.6, 0.3, 0.7];
  const all = bends.flatMap((bend) => parts.map((part) => candidate(drawing, from, to, text, bend, part)));
  const best = all.reduce((a, b) => (b.cost < a.cost ? b : a));
  const outside = (node, margin) => (p) => Math.hypot(p.x - node.x, p.y - node.y) > node.radius + margin;
  const fine = Array.from({ length: 201 }, (_, i) => i / 200);
  const start = fine.find((t) => outside(from, 1)(onCurve(best.curve, t))) ?? 0;
  const end = fine.findLast((t) => outside(to, 11)(onCurve(best.curve, t))) ?? 1;
  const [a, c, b] = piece(best.curve, start, Math.max(start, end));
  drawing.curves.push(best.points);
  drawing.bends.set(`${from.q},${to.q}`, best.bend);
  if (text) drawing.labels.push(best.label);
  return { path: `M${a.x} ${a.y} Q${c.x} ${c.y} ${b.x} ${b.y}` };
}

// Where a text stands beyond a point in a direction.
function beyond(node, reach, angle, text) {
  const width = textWidth(text) + 14;
  const [c, s] = [Math.cos(angle), Math.sin(angle)];
  const side = (part) => Math.max(-1, Math.min(1, 1.8 * part));
  return rectangle(text, node.x + c * reach + (side(c) * width) / 2, node.y + s * reach + side(s) * 14);
}

// A transition from a state to itself: a loop away from the ring.
function loop(drawing, node, text, angle) {
  const far = node.radius + 62;
  const corner = (turn, reach) => `${node.x + Math.cos(angle + turn) * reach} ${node.y + Math.sin(angle + turn) * reach}`;
  const wide = 24 / node.radius;
  drawing.curves.push([{ x: node.x + Math.cos(angle) * (far - 10), y: node.y + Math.sin(angle) * (far - 10) }]);
  if (text) drawing.labels.push(beyond(node, node.radius + 50, angle, text));
  return { path: `M${corner(-wide, node.radius + 1)} C${corner(-0.45, far)} ${corner(0.45, far)} ${corner(wide, node.radius + 11)}` };
}

// The mark of a state whose initial value is not bottom: an arrow from nowhere.
function initial(drawing, node, text, angle) {
  const point = (reach) => `${node.x + Math.cos(angle) * reach} ${node.y + Math.sin(angle) * reach}`;
  if (text) drawing.labels.push(beyond(node, node.radius + 46, angle, text));
  return { path: `M${point(node.radius + 44)} L${point(node.radius + 11)}` };
}

// All of a drawing: states, arrows, and values at their places. `ring` is one of the rings, or whether layers go across.
function layOut(model, values, bare, ring) {
  const layered = model.states.length > MOST_STATES;
  const drawing = { nodes: circles(model, bare || layered), labels: [], curves: [], bends: new Map(), arrows: [] };
  const widest = Math.max(40, ...model.transitions.map(([, , value]) => textWidth(values(value)) + 14));
  const gap = model.states.length > 6 ? 48 : Math.min(widest, 190) + 34;
  if (layered) placeInLayers(model, drawing.nodes, ring);
  else place(drawing.nodes, 2 * drawing.nodes[0].radius + gap, ring);
  const put = (made, from, to, element) => {
    const arrow = { path: made.path, from, to };
    drawing.arrows.push(arrow);
    drawing.labels.filter((label) => label.arrow === undefined).forEach((label) => Object.assign(label, { arrow, element }));
  };
  for (const node of drawing.nodes) {
    const own = model.transitions.find(([from, to]) => from === node.q && to === node.q);
    const value = model.initial[node.q];
    const both = own && value !== lattice.bottom ? 0.62 : 0;
    if (own) put(loop(drawing, node, layered ? "" : values(own[2]), node.out + both), node.q, node.q, own[2]);
    if (value !== lattice.bottom) put(initial(drawing, node, layered ? "" : `initial: ${lattice.names[value]}`, node.out - both), -1, node.q, value);
  }
  for (const [from, to, value] of model.transitions.filter(([a, b]) => a !== b)) {
    const ends = [drawing.nodes[from], drawing.nodes[to]];
    put(layered ? plainArrow(...ends) : arrow(drawing, ...ends, values(value)), from, to, value);
  }
  return { ...drawing, box: extent(drawing) };
}

// What a drawing takes up.
function extent({ nodes, labels, curves }) {
  const boxes = [
    ...nodes.map((n) => [n.x - n.radius, n.y - n.radius, n.x + n.radius, n.y + n.radius]),
    ...labels.map((l) => [l.x, l.y, l.x + l.width, l.y + l.height]),
    ...curves.flat().map((p) => [p.x, p.y, p.x, p.y]),
  ];
  const side = (i, pick) => pick(...boxes.map((box) => box[i]));
  const [left, top, right, bottom] = [side(0, Math.min), side(1, Math.min), side(2, Math.max), side(3, Math.max)];
  return [left - 12, top - 12, right - left + 24, bottom - top + 24];
}
