// Drawing by mouse, pen, finger and keys.

const SLIP = 5;
const TWICE = 400;
let drag = null;
let tapped = { time: 0, x: 0, y: 0 };

// The place in the drawing that the pointer is at.
function point(event) {
  const frame = at("canvas").getBoundingClientRect();
  return { x: (event.clientX - frame.left) / now.zoom, y: (event.clientY - frame.top) / now.zoom };
}

function numberAt(event, sort) {
  const node = event.target.closest(`[data-${sort}]`);
  return node ? Number(node.dataset[sort]) : undefined;
}

// Begins an arrow at a state; the next state that is chosen ends it.
function link(number) {
  now.linking = number;
  say(`An arrow begins at \`${model().states[number].name}\`: choose the state that it leads to, or press Escape.`);
  show();
  at("states").children[number].focus();
}

function unlink() {
  if (now.linking === null) return;
  now.linking = null;
  say("");
}

function press(event) {
  if (event.button !== 0 || drag) return;
  event.preventDefault();
  document.activeElement.blur();
  const [handle, state, arrow] = ["handle", "state", "arrow"].map((sort) => numberAt(event, sort));
  const { x, y } = point(event);
  drag = { pointer: event.pointerId, x, y, clientX: event.clientX, clientY: event.clientY, moved: false, handle, state, arrow };
  const room = at("room");
  Object.assign(drag, { left: room.scrollLeft, top: room.scrollTop, before: structuredClone(now.drawing) });
  at("canvas").setPointerCapture(event.pointerId);
  if (handle === undefined && state !== undefined) {
    const { x: sx, y: sy } = model().states[state];
    Object.assign(drag, { dx: sx - x, dy: sy - y });
  }
}

function move(event) {
  if (!drag || event.pointerId !== drag.pointer) return;
  drag.moved ||= Math.hypot(event.clientX - drag.clientX, event.clientY - drag.clientY) > SLIP;
  if (!drag.moved) return;
  const { x, y } = point(event);
  if (drag.handle !== undefined) {
    const from = model().states[drag.handle];
    at("rubber").setAttribute("d", `M${from.x} ${from.y} L${x} ${y}`);
  } else if (drag.state !== undefined) {
    if (!editable()) return;
    Object.assign(model().states[drag.state], { x: snapped(x + drag.dx), y: snapped(y + drag.dy) });
    choose("state", drag.state);
    show();
  } else if (drag.arrow === undefined) {
    at("room").scrollTo(drag.left - (event.clientX - drag.clientX), drag.top - (event.clientY - drag.clientY));
  }
}

function release(event) {
  if (!drag || event.pointerId !== drag.pointer) return;
  const done = drag;
  drag = null;
  at("rubber").removeAttribute("d");
  const { x, y } = point(event);
  if (!done.moved) return tap(done, x, y);
  if (done.handle !== undefined) {
    const to = stateAt(x, y);
    if (to >= 0) addArrow(done.handle, to);
    else addState(x, y, done.handle);
  } else if (done.state !== undefined && editable()) {
    now.past.push(done.before);
    now.future = [];
    show();
  }
}

// What is let go without having been dragged: one tap chooses, two draw a state or ask for its name.
function tap({ handle, state, arrow }, x, y) {
  const twice = performance.now() - tapped.time < TWICE && Math.hypot(x - tapped.x, y - tapped.y) < 24;
  tapped = { time: twice ? 0 : performance.now(), x, y };
  if (now.linking !== null && state !== undefined) {
    say("");
    return addArrow(now.linking, state);
  }
  if (handle !== undefined) return link(handle);
  unlink();
  if (state !== undefined) choose("state", state);
  else if (arrow !== undefined) choose("arrow", arrow);
  else if (twice) return addState(x, y);
  else choose(null);
  show();
  if (twice && state !== undefined && at("state-name")) at("state-name").select();
  else document.querySelector(`[data-key="${now.chosen?.sort} ${now.chosen?.number}"]`)?.focus();
}

function cancel() {
  if (drag?.moved && drag.state !== undefined) now.drawing = drag.before;
  drag = null;
  at("rubber").removeAttribute("d");
  show();
}

// Moves the chosen state by keys; moves in a row are undone together.
function nudge(dx, dy) {
  const number = now.chosen.number;
  const moved = () => {
    const state = model().states[number];
    Object.assign(state, { x: snapped(state.x + dx), y: snapped(state.y + dy) });
  };
  if (now.nudged !== number || now.past.length !== now.nudgedAt) alter(moved);
  else {
    moved();
    show();
  }
  Object.assign(now, { nudged: number, nudgedAt: now.past.length });
}

const MOVES = { ArrowLeft: [-STEP, 0], ArrowRight: [STEP, 0], ArrowUp: [0, -STEP], ArrowDown: [0, STEP] };

// Keys that work wherever the focus is.
function command(event) {
  if (!(event.ctrlKey || event.metaKey) || event.altKey) return false;
  const key = event.key.toLowerCase();
  const inText = event.target.matches("input, textarea");
  if (key === "s") save();
  else if (key === "o") at("file").click();
  else if (key === "z" && !inText) event.shiftKey ? travel(now.future, now.past) : travel(now.past, now.future);
  else if (key === "y" && !inText) travel(now.future, now.past);
  else return false;
  return true;
}

// Keys in the drawing.
function keyed(event) {
  const node = event.target.closest?.("[data-state], [data-arrow]");
  const number = node && Number(node.dataset.state ?? node.dataset.arrow);
  const sort = node && (node.dataset.state !== undefined ? "state" : "arrow");
  if (event.key === "Escape") {
    unlink();
    choose(null);
    show();
  } else if (node && (event.key === "Enter" || event.key === " ")) {
    if (now.linking !== null && sort === "state") {
      say("");
      addArrow(now.linking, number);
    } else {
      const again = now.chosen?.sort === sort && now.chosen.number === number;
      choose(sort, number);
      show();
      if (again && sort === "state" && editable()) at("state-name").select();
    }
  } else if (!editable()) return false;
  else if (event.key === "n") {
    const near = chosenState() || model().states.at(-1);
    addState(near ? near.x + 220 : 160, near ? near.y : 140);
  } else if ((event.key === "Delete" || event.key === "Backspace") && now.chosen) removeChosen();
  else if (sort === "state" && event.key === "a") link(number);
  else if (sort === "state" && event.key === "i") {
    choose("state", number);
    alter(() => {
      const state = model().states[number];
      state.initial = state.initial === bottom() ? top() : bottom();
    });
  } else if (sort === "state" && MOVES[event.key]) {
    choose("state", number);
    nudge(...MOVES[event.key]);
  } else return false;
  return true;
}

function listenToHands() {
  const canvas = at("canvas");
  canvas.addEventListener("pointerdown", press);
  canvas.addEventListener("pointermove", move);
  canvas.addEventListener("pointerup", release);
  canvas.addEventListener("pointercancel", cancel);
  document.addEventListener("keydown", (event) => {
    const inDrawing = at("room").contains(event.target) || event.target === document.body;
    if (command(event) || (inDrawing && !event.ctrlKey && !event.metaKey && !event.altKey && keyed(event))) event.preventDefault();
  });
}
