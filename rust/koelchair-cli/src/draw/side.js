// Beside the drawing: what is chosen with its values, the case, the warnings and the text.

// Up to so many elements are picked by a button each.
const MOST_BUTTONS = 8;

function button(label, pressed, onclick, key, more = {}) {
  return make("button", { type: "button", "aria-pressed": pressed === undefined ? false : String(pressed), "data-key": key, onclick, ...more }, label);
}

// A value to be picked: letter by letter in a panel, member by member in a set, place by place in a product, else by its name.
function picker(lattice, value, set, label, key) {
  const group = (inside) => make("span", { class: "picker", role: "group", "aria-label": label }, ...inside);
  const placed = (place, chosen) => set(fromPlaces(lattice, places(lattice, value).with(place, chosen)));
  switch (lattice.form) {
    case "panel":
      return group(places(lattice, value).map((letter, i) => make(
        "span",
        { class: "letters", role: "group", "aria-label": `${label}, instructor ${i + 1}` },
        ...[2, 1, 0].map((l) => button(PANEL_LETTERS[l], letter === l, () => placed(i, l), `${key} ${i} ${l}`)),
      )));
    case "power":
      return group(places(lattice, value).map((bit, i) => button(lattice.names[i], bit === 1, () => placed(i, 1 - bit), `${key} ${i}`)));
    case "product":
      return group(places(lattice, value).map((part, i) =>
        picker(lattice.factors[i], part, (chosen) => placed(i, chosen), `${label}, place ${i + 1}`, `${key} ${i}`)));
    default:
      if (lattice.names.length > MOST_BUTTONS) {
        const option = (name, i) => make("option", { value: i, selected: i === value }, name);
        return make("select", { "aria-label": label, "data-key": key, onchange: (event) => set(Number(event.target.value)) }, ...lattice.names.map(option));
      }
      return group(lattice.names.map((name, i) => button(name, i === value, () => set(i), `${key} ${i}`)));
  }
}

function field(label, id, value, onchange, more = {}) {
  const input = make("input", { id, "data-key": id, value, autocomplete: "off", spellcheck: "false", onchange: (event) => onchange(event.target.value.trim()), ...more });
  input.addEventListener("keydown", (event) => {
    if (event.key === "Enter") input.blur();
  });
  return make("p", { class: "field" }, make("label", { for: id }, label), input);
}

// A proposition of a state: a chip that sets it to top or bottom, and its value.
function proposition(state, number, p) {
  const { lattice, propositions } = now.drawing;
  const [name, value] = [propositions[p], state.values[p]];
  const set = (chosen) => alter(() => {
    model().states[number].values[p] = chosen;
  });
  const chip = button(name, value !== bottom(), () => set(value === bottom() ? top() : bottom()), `chip ${p}`, { class: "chip" });
  return make("div", { class: "row" }, chip, picker(lattice, value, set, `value of ${name}`, `value ${p}`));
}

function stateSide(state, number) {
  const { lattice, propositions } = now.drawing;
  const set = (value) => alter(() => {
    model().states[number].initial = value;
  });
  const initial = button("initial", state.initial !== bottom(), () => set(state.initial === bottom() ? top() : bottom()), "initial", { class: "chip" });
  return [
    make("h2", {}, "State"),
    field("Name", "state-name", state.name, (name) => renameState(number, name)),
    make("div", { class: "row" }, initial, picker(lattice, state.initial, set, "initial value", "initial value")),
    ...propositions.map((_, p) => proposition(state, number, p)),
    make("p", {}, button("Arrow from here", undefined, () => link(number), "link"), " ", button("Remove state", undefined, removeChosen, "remove")),
  ];
}

function arrowSide(arrow) {
  const { states } = model();
  return [
    make("h2", {}, "Arrow"),
    make("p", {}, `${states[arrow.from].name} \u2192 ${states[arrow.to].name}`),
    make("div", { class: "row" }, picker(now.drawing.lattice, arrow.value, setArrow, "value of the arrow", "arrow value")),
    make("p", {}, button("Remove arrow", undefined, removeChosen, "remove")),
  ];
}

// Lattice and propositions, where they are not the course's.
function caseSide() {
  const { drawing } = now;
  const forms = ["chain no unsure yes", "chain no yes", "panel"];
  const own = drawing.lattice.form === "order" ? "order" : writeForm(drawing.lattice);
  const option = (form) => make("option", { value: form, selected: form === own }, form);
  const select = make("select", { id: "lattice", "data-key": "lattice", onchange: (event) => setLattice(event.target.value) },
    ...[...new Set([...forms, own])].map(option));
  const chips = drawing.propositions.map((name, p) =>
    make("span", { class: "held" }, name, button("\u00d7", undefined, () => removeProposition(p), `without ${p}`, { "aria-label": `remove ${name}` })));
  return [
    make("h2", {}, "Case"),
    field("Title", "case-title", drawing.title, (title) => alter((d) => {
      d.title = unquoted(title);
    })),
    make("p", { class: "field" }, make("label", { for: "lattice" }, "Lattice"), select),
    ...(drawing.lattice.form === "order" ? [] : [field("or its form", "lattice-form", own, setLattice)]),
    make("p", { class: "chips" }, "Propositions ", ...chips),
    field("Add", "new-proposition", "", (name) => name && addProposition(name), { placeholder: "name of a proposition" }),
  ];
}

// A title cannot hold the sign that ends it.
function unquoted(title) {
  return title.replace(/["\r\n]/g, "'");
}

function chosenSide() {
  if (!editable()) return [make("p", {}, "This is the course's model; it cannot be altered here.")];
  if (chosenState()) return stateSide(chosenState(), now.chosen.number);
  if (chosenArrow()) return arrowSide(chosenArrow());
  return [make("p", {}, "Choose a state or an arrow to set its values.")];
}

function showSide(warnings) {
  const title = field(now.which === 0 ? "Student" : "Course", "model-title", model().title, (text) => alter(() => {
    model().title = unquoted(text);
  }), { disabled: !editable(), placeholder: now.which === 0 ? "name" : "title" });
  at("chosen").replaceChildren(...chosenSide());
  at("whole").replaceChildren(title, ...(given.fixed ? [] : caseSide()));
  const item = (w) => make("li", { "data-kind": w.kind }, "Warning: ", ...withCode(`${w.message}.`));
  at("warnings").replaceChildren(...warnings.map(item));
  at("unknown").hidden = now.drawing.models[1] !== null || !warnings.some((w) => w.kind === "leads-nowhere");
}
