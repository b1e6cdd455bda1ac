// What is seldom meant, in the words of `koelchair check`. The course's model is null where this page does not have it.

const OWNERS = ["student", "course"];

// The warnings about the model `m` that is drawn.
function warningsOf(drawing, m) {
  const model = drawing.models[m];
  if (!model || model.states.length === 0 || size(drawing.lattice) === 1) return [];
  const bottom = leftOut(drawing.lattice);
  const arrows = model.arrows.filter((a) => a.value !== bottom);
  const initial = model.states.some((s) => s.initial !== bottom);
  const list = [];
  const warn = (kind, message, state) => list.push({ kind, message, state });
  if (!initial) {
    const means = ["so the score compares nothing and is top, whatever is drawn", "so nothing can follow a student's initial state"][m];
    warn("no-initial-state", `the ${OWNERS[m]}'s model has no initial state, ${means}`);
  }
  if (arrows.length === 0) {
    warn("no-transition", `the ${OWNERS[m]}'s model has no transition, so nothing is said of what it does next`);
  } else if (m === 0) {
    model.states.forEach((s, q) => {
      if (arrows.some((a) => a.from === q) || courseEnds(drawing, s.values, bottom)) return;
      warn("leads-nowhere", `the student's state \`${s.name}\` leads nowhere, so everything is true of all its next states`, q);
    });
  }
  if (initial) {
    const there = reached(model, arrows, bottom);
    model.states.forEach((s, q) => {
      if (!there[q]) warn("unreachable", `the ${OWNERS[m]}'s state \`${s.name}\` cannot be reached`, q);
    });
  }
  drawing.propositions.forEach((name, p) => {
    const said = neverSet(drawing, m, p, bottom);
    if (said) warn("never-set", `the proposition \`${name}\` is never set ${said}`);
  });
  return list;
}

// Whether the course draws an end with the same propositions.
function courseEnds(drawing, values, bottom) {
  const course = drawing.models[1];
  if (!course) return false;
  const ends = (q) => !course.arrows.some((a) => a.from === q && a.value !== bottom);
  return course.states.some((s, q) => ends(q) && s.values.join(" ") === values.join(" "));
}

// In which models a proposition is never set; null if nothing is to be said of it.
function neverSet(drawing, m, p, bottom) {
  const has = (model) => model !== null && model.states.length > 0;
  const set = (model) => model.states.some((s) => s.values[p] !== bottom);
  const [student, course] = drawing.models;
  if (!has(course)) return set(student) ? null : "in the student's model";
  if (!has(student)) return set(course) ? null : "in the course's model";
  if (set(student)) return null;
  if (!set(course)) return "in either model";
  return m === 0 ? "in the student's model" : null;
}

// Which states a way leads to from a state with an initial value above bottom.
function reached(model, arrows, bottom) {
  const there = model.states.map((s) => s.initial !== bottom);
  for (let again = true; again; ) {
    const next = arrows.filter((a) => there[a.from] && !there[a.to]);
    for (const a of next) there[a.to] = true;
    again = next.length > 0;
  }
  return there;
}
