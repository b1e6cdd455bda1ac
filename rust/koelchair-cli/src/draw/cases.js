// A text as what is drawn, and what is drawn as a text that the tool reads.
//
// A drawing has `head` (comment lines), `title`, `lattice`, `propositions`, `models` (the student's and the course's) and `formulas`
// (as they are written). A model has `title`, and for each state a name, an initial value, values of propositions and a place; its
// arrows have `from`, `to` and `value`. The places stand in the text as comments, `# at NAME X Y, NAME X Y`.

const PLACES_IN_A_LINE = 6;

function emptyModel(title) {
  return { title, states: [], arrows: [] };
}

// Reads a text. What it does not say of lattice and propositions is that of `known`; where `fixed`, it may not say otherwise.
function readCase(text, known, fixed) {
  const lines = text.split(/\r?\n/);
  const sections = sort(statements(lines));
  const drawing = { ...known, head: headOf(lines), models: [null, null], formulas: [] };
  if (sections.title !== null) drawing.title = sections.title;
  if (sections.lattice.length > 0) drawing.lattice = readLattice(sections.lattice);
  if (sections.lattice.length > 0 || sections.propositions.length > 0) drawing.propositions = readPropositions(sections.propositions);
  if (!drawing.lattice) throw new Wrong(0, "`lattice` is missing");
  if (fixed) sameAs(known, drawing);
  sections.models.forEach((list, m) => {
    if (list.length > 0) drawing.models[m] = readModel(list, drawing, placesOf(lines, list));
  });
  drawing.formulas = sections.formulas.map((s) => s.source);
  return { drawing, included: sections.included };
}

// The lines of comment before anything else.
function headOf(lines) {
  const end = lines.findIndex((line) => !/^\s*#/.test(line));
  const head = end < 0 ? lines : lines.slice(0, end);
  return head.map((line) => line.replace(/^\s*# ?/, "").trimEnd());
}

// The statements by the part that they belong to.
function sort(list) {
  const sections = { title: null, lattice: [], propositions: [], models: [[], []], formulas: [], included: [] };
  let current = null;
  for (const statement of list) {
    const cursor = new Cursor(statement);
    const word = cursor.take("word");
    const line = statement.tokens[0].line;
    if (word === "bytes") throw new Wrong(line, "a text of `bytes` cannot be drawn: `koelchair decode` gives it names");
    if (word === "include") sections.included.push(cursor.expect("quoted", undefined, "a file's name in double quotes"));
    else if (word === "title") {
      if (sections.title !== null) throw new Wrong(line, "the title is given twice");
      sections.title = cursor.expect("quoted", undefined, "a title in double quotes");
      current = null;
    } else if (word === "lattice" || word === "model") {
      current = word === "lattice" ? sections.lattice : sections.models[["1", "2"].indexOf(cursor.take("word"))];
      if (!current) throw new Wrong(line, "expected `1` (the student's model) or `2` (the course's)");
      if (current.length > 0) throw new Wrong(line, `the ${word} is given twice`);
      current.push(statement);
    } else if (word === "propositions" || word === "formula") {
      sections[word === "formula" ? "formulas" : word].push(statement);
      current = null;
    } else if (current) current.push(statement);
    else throw new Wrong(line, "expected `title`, `lattice`, `propositions`, `model 1`, `model 2` or `formula`");
  }
  return sections;
}

function readPropositions(list) {
  const all = [];
  for (const statement of list) {
    const cursor = new Cursor(statement);
    cursor.take("word");
    declare(names(cursor, "the names of the propositions"), all, "proposition", cursor.line);
    cursor.end();
  }
  return all;
}

// A text with a lattice or propositions of its own must have those that are known.
function sameAs(known, drawing) {
  const elements = ({ lattice }) => Array.from({ length: size(lattice) }, (_, a) => elementName(lattice, a)).join(" ");
  if (elements(known) !== elements(drawing)) throw new Wrong(0, "this text has another lattice than the course");
  if (known.propositions.join(" ") !== drawing.propositions.join(" ")) throw new Wrong(0, "this text has other propositions than the course");
}

// The places that the comments of a model give: those from its first line to the next part.
function placesOf(lines, list) {
  const found = new Map();
  for (let i = list[0].tokens[0].line; i < lines.length; i += 1) {
    if (/^\s*(title|lattice|propositions|model|formula)(\s|$)/.test(lines[i])) break;
    const comment = /^\s*#\s*at\s(.*)$/.exec(lines[i]);
    for (const part of comment ? comment[1].split(",") : []) {
      const [name, x, y] = part.trim().split(/\s+/);
      if (/^\d{1,5}$/.test(x) && /^\d{1,5}$/.test(y)) found.set(name, { x: Number(x), y: Number(y) });
    }
  }
  return found;
}

// Reads a model from its statements.
function readModel(list, { lattice, propositions }, at) {
  const head = new Cursor(list[0]);
  head.at = 2;
  const model = emptyModel(head.take("quoted") ?? "");
  head.end();
  const all = [];
  const declares = (s) => s.tokens[0].kind === "word" && s.tokens[0].text === "states";
  for (const statement of list.slice(1).filter(declares)) {
    const cursor = new Cursor(statement);
    cursor.take("word");
    declare(names(cursor, "the names of the states"), all, "state", cursor.line);
    cursor.end();
  }
  if (all.length === 0) throw new Wrong(list[0].tokens[0].line, "this model has no states");
  const given = readValues(list.slice(1).filter((s) => !declares(s)), all, { lattice, propositions });
  const value = (key) => given.get(key) ?? leftOut(lattice);
  model.states = all.map((name, q) => ({
    name,
    initial: value(`initial ${q}`),
    values: propositions.map((_, p) => value(`${q}: ${p}`)),
    ...(at.get(name) || { x: null, y: null }),
  }));
  all.forEach((_, from) => {
    all.forEach((_, to) => {
      if (value(`${from} -> ${to}`) !== leftOut(lattice)) model.arrows.push({ from, to, value: value(`${from} -> ${to}`) });
    });
  });
  return model;
}

// The values that the lines of a model give, each once.
function readValues(list, all, { lattice, propositions }) {
  const given = new Map();
  for (const statement of list) {
    const cursor = new Cursor(statement);
    const numbers = (of, sort) => names(cursor, `a ${sort}`).map((name) => lookup(name, of, sort, cursor.line));
    const valueAfter = (sign) => {
      if (cursor.take("sign", sign)) return readElement(cursor, lattice);
      return extreme(lattice, true) ?? cursor.fail(`\`${sign}\` and a value, since this order has no top`);
    };
    const give = (key, value, what) => {
      if (given.has(key)) throw new Wrong(cursor.line, `the ${what} is given twice`);
      given.set(key, value);
    };
    const listed = (one) => {
      do one();
      while (cursor.take("sign", ","));
      cursor.end();
    };
    if (cursor.take("word", "initial")) {
      listed(() => {
        const states = numbers(all, "state");
        const value = valueAfter(":");
        for (const q of states) give(`initial ${q}`, value, "initial value");
      });
      continue;
    }
    const states = numbers(all, "state");
    if (cursor.take("sign", "->")) {
      const to = numbers(all, "state");
      const value = valueAfter(":");
      cursor.end();
      for (const q of states) for (const r of to) give(`${q} -> ${r}`, value, "transition");
    } else {
      cursor.expect("sign", ":", "`->` and a state, or `:` and propositions");
      listed(() => {
        const list = numbers(propositions, "proposition");
        const value = valueAfter("=");
        for (const q of states) for (const p of list) give(`${q}: ${p}`, value, "value of this proposition");
      });
    }
  }
  return given;
}

// A model as its statements; what is left out is bottom.
function writeModel(model, number, { lattice, propositions }) {
  const bottom = leftOut(lattice);
  const name = (element) => elementName(lattice, element);
  const state = (q) => model.states[q].name;
  const lines = [`model ${number}${model.title ? ` "${model.title}"` : ""}`, `  states ${written(model.states.map((s) => s.name))}`];
  const placed = model.states.filter((s) => s.x !== null).map((s) => `${s.name} ${s.x} ${s.y}`);
  for (let i = 0; i < placed.length; i += PLACES_IN_A_LINE) lines.push(`  # at ${placed.slice(i, i + PLACES_IN_A_LINE).join(", ")}`);
  for (const s of model.states) if (s.initial !== bottom) lines.push(`  initial ${s.name}: ${name(s.initial)}`);
  for (const s of model.states) {
    const given = propositions.flatMap((p, i) => (s.values[i] === bottom ? [] : [`${p} = ${name(s.values[i])}`]));
    if (given.length > 0) lines.push(`  ${s.name}: ${given.join(", ")}`);
  }
  const arrows = model.arrows.filter((a) => a.value !== bottom).sort((a, b) => a.from - b.from || a.to - b.to);
  for (const a of arrows) lines.push(`  ${state(a.from)} -> ${state(a.to)}: ${name(a.value)}`);
  return `${lines.join("\n")}\n`;
}

// What is drawn as a text: a `student`'s file, a `course`'s, or a `case` of both.
function writeCase(drawing, sort) {
  const head = drawing.head.map((line) => `${`# ${line}`.trimEnd()}\n`).join("");
  const [student, course] = drawing.models.map((model, m) => model && writeModel(model, m + 1, drawing));
  if (sort === "student") return head + student;
  const title = drawing.title ? `title "${drawing.title}"\n` : "";
  const propositions = drawing.propositions.length > 0 ? `propositions ${written(drawing.propositions)}\n` : "";
  const models = sort === "case" ? `\n${student}\n${course}` : `\n${course}`;
  const formulas = drawing.formulas.map((f) => `${f}\n`).join("");
  return `${head}${title}${writeLattice(drawing.lattice)}${propositions}${models}${formulas ? `\n${formulas}` : ""}`;
}
