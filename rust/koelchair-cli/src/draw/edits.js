// The alterations that drawing makes.

const STEP = 10;

function snapped(number) {
  return Math.min(9990, Math.max(40, Math.round(number / STEP) * STEP));
}

function freeName(prefix, taken) {
  let number = 0;
  while (taken.includes(`${prefix}${number}`)) number += 1;
  return `${prefix}${number}`;
}

// A state at a place; the first is initial.
function newState(states, x, y) {
  return {
    name: freeName("s", states.map((s) => s.name)),
    initial: states.length === 0 ? top() : bottom(),
    values: now.drawing.propositions.map(bottom),
    x: snapped(x),
    y: snapped(y),
  };
}

// Draws a state, and an arrow to it if one was dragged there from another.
function addState(x, y, from) {
  if (!editable()) return;
  if (model().states.length === MOST_STATES) return void say(`A model has at most ${MOST_STATES} states.`);
  alter(() => {
    const { states, arrows } = model();
    states.push(newState(states, x, y));
    if (from !== undefined) arrows.push({ from, to: states.length - 1, value: top() });
    choose("state", states.length - 1);
  });
  at("state-name").focus();
  at("state-name").select();
}

// Draws an arrow, or chooses the one that is there.
function addArrow(from, to) {
  if (!editable()) return;
  const there = model().arrows.findIndex((a) => a.from === from && a.to === to);
  now.linking = null;
  if (there >= 0) {
    choose("arrow", there);
    return void show();
  }
  alter(() => {
    model().arrows.push({ from, to, value: top() });
    choose("arrow", model().arrows.length - 1);
  });
}

// Takes away what is chosen; a state with its arrows.
function removeChosen() {
  if (!now.chosen || !editable()) return;
  const { sort, number } = now.chosen;
  alter(() => {
    const drawn = model();
    choose(null);
    if (sort === "arrow") return void drawn.arrows.splice(number, 1);
    drawn.states.splice(number, 1);
    drawn.arrows = drawn.arrows.filter((a) => a.from !== number && a.to !== number);
    for (const arrow of drawn.arrows) {
      arrow.from -= arrow.from > number ? 1 : 0;
      arrow.to -= arrow.to > number ? 1 : 0;
    }
  });
}

// Gives the chosen arrow a value; at bottom it is gone.
function setArrow(value) {
  if (value === bottom()) return removeChosen();
  const { number } = now.chosen;
  alter(() => {
    model().arrows[number].value = value;
  });
}

function renameState(number, name) {
  const others = model().states.filter((_, i) => i !== number).map((s) => s.name);
  const fault = nameFault(name, others, "state");
  if (fault) {
    say(`The name stays \`${model().states[number].name}\`: ${fault}.`);
    return void show();
  }
  if (name === model().states[number].name) return;
  say("");
  alter(() => {
    model().states[number].name = name;
  });
}

// The words that stand in the formulas: no proposition is taken away that one of them names, and none is named as a variable.
function formulaWords() {
  return now.drawing.formulas.flatMap((f) => lineTokens(f, 0).slice(3).filter((t) => t.kind === "word").map((t) => t.text));
}

function addProposition(name) {
  const all = now.drawing.propositions;
  const fault = formulaWords().includes(name) ? `\`${name}\` is a word of a formula` : nameFault(name, all, "proposition");
  if (fault) return void say(`No proposition was added: ${fault}.`);
  if (all.length === MOST_PROPOSITIONS) return void say(`There are at most ${MOST_PROPOSITIONS} propositions.`);
  say("");
  alter((drawing) => {
    drawing.propositions.push(name);
    for (const m of drawing.models) m?.states.forEach((s) => s.values.push(bottom()));
  });
}

function removeProposition(p) {
  const name = now.drawing.propositions[p];
  if (formulaWords().includes(name)) return void say(`A formula speaks of \`${name}\`, so it stays.`);
  alter((drawing) => {
    drawing.propositions.splice(p, 1);
    for (const m of drawing.models) m?.states.forEach((s) => s.values.splice(p, 1));
  });
}

// Another lattice: top stays top and bottom bottom, other values stay where an element has their name, and else become top.
function setLattice(text) {
  let lattice;
  try {
    lattice = readLattice(statements([`lattice ${text}`]));
    if (size(lattice) > MOST_ELEMENTS) throw new Wrong(0, `the desk takes at most ${MOST_ELEMENTS} elements`);
  } catch (error) {
    if (!(error instanceof Wrong)) throw error;
    say(`The lattice stays as it is: ${error.message}.`);
    return void show();
  }
  const old = now.drawing.lattice;
  const [low, high, names] = [bottom(), top(), Array.from({ length: size(lattice) }, (_, a) => elementName(lattice, a))];
  let raised = 0;
  const moved = (value) => {
    if (value === low) return leftOut(lattice);
    const named = value === high ? -1 : names.indexOf(elementName(old, value));
    raised += value !== high && named < 0 ? 1 : 0;
    return named < 0 ? extreme(lattice, true) : named;
  };
  alter((drawing) => {
    for (const m of drawing.models) {
      m?.states.forEach((s) => Object.assign(s, { initial: moved(s.initial), values: s.values.map(moved) }));
      m?.arrows.forEach((a) => Object.assign(a, { value: moved(a.value) }));
    }
    drawing.lattice = lattice;
  });
  say(raised > 0 ? `${raised} values had no name in this lattice and are top now.` : "");
}
