// Lattices by their form: how many elements, their names, the order, and an element as it is read.

const PANEL_LETTERS = "n?y";

function size(lattice) {
  switch (lattice.form) {
    case "chain":
    case "order":
      return lattice.names.length;
    case "power":
      return 2 ** lattice.names.length;
    case "product":
      return lattice.factors.reduce((n, factor) => n * size(factor), 1);
    default:
      return 27;
  }
}

// The places of an element: letters of a panel, members of a set, places of a product.
function places(lattice, element) {
  if (lattice.form === "panel") return [9, 3, 1].map((weight) => Math.floor(element / weight) % 3);
  if (lattice.form === "power") return lattice.names.map((_, i) => Math.floor(element / 2 ** i) % 2);
  const list = [];
  for (const factor of [...lattice.factors].reverse()) {
    list.unshift(element % size(factor));
    element = Math.floor(element / size(factor));
  }
  return list;
}

// The element with these places.
function fromPlaces(lattice, list) {
  if (lattice.form === "panel") return 9 * list[0] + 3 * list[1] + list[2];
  if (lattice.form === "power") return list.reduce((sum, bit, i) => sum + bit * 2 ** i, 0);
  return lattice.factors.reduce((number, factor, i) => number * size(factor) + list[i], 0);
}

function atMost(lattice, a, b) {
  if (lattice.form === "chain") return a <= b;
  if (lattice.form === "order") return lattice.order[a * size(lattice) + b];
  const [low, high] = [places(lattice, a), places(lattice, b)];
  if (lattice.form !== "product") return low.every((place, i) => place <= high[i]);
  return lattice.factors.every((factor, i) => atMost(factor, low[i], high[i]));
}

function elementName(lattice, element) {
  switch (lattice.form) {
    case "chain":
    case "order":
      return lattice.names[element];
    case "power":
      return `{${lattice.names.filter((_, i) => places(lattice, element)[i]).join(", ")}}`;
    case "product":
      return `(${lattice.factors.map((factor, i) => elementName(factor, places(lattice, element)[i])).join(", ")})`;
    default:
      return places(lattice, element).map((place) => PANEL_LETTERS[place]).join("");
  }
}

// The element above (or below) all others; undefined where an order has none.
function extreme(lattice, top) {
  if (lattice.form !== "order") {
    if (lattice.form !== "product") return top ? size(lattice) - 1 : 0;
    return fromPlaces(lattice, lattice.factors.map((factor) => extreme(factor, top)));
  }
  const all = lattice.names.map((_, i) => i);
  return all.find((t) => all.every((a) => (top ? atMost(lattice, a, t) : atMost(lattice, t, a))));
}

// The value of what a text leaves out: bottom, or element 0 if an order has none.
function leftOut(lattice) {
  return extreme(lattice, false) ?? 0;
}

// Reads a form: `chain a b`, `power a b`, `product (FORM) (FORM)` or `panel`.
function readForm(cursor) {
  const form = cursor.take("word");
  if (form === "panel") return { form };
  if (form === "chain" || form === "power") {
    const list = [];
    declare(names(cursor, "the names of the elements"), list, "element", cursor.line);
    if (form === "power" && list.length > 7) throw new Wrong(cursor.line, "this lattice has too many elements to be written");
    return { form, names: list };
  }
  if (form !== "product") throw new Wrong(cursor.line, "expected `chain`, `power`, `product`, `panel`, `order` or `order exactly`");
  const factors = [];
  while (factors.length === 0 || cursor.is("sign", "(")) {
    cursor.expect("sign", "(");
    factors.push(readForm(cursor));
    cursor.expect("sign", ")");
  }
  const lattice = { form, factors };
  if (size(lattice) > MOST_NAMES) throw new Wrong(cursor.line, "this lattice has too many elements to be written");
  return lattice;
}

// Reads a lattice from its statements. An order keeps its lines, in which it is written again.
function readLattice(list) {
  const cursor = new Cursor(list[0]);
  cursor.take("word", "lattice");
  if (!cursor.take("word", "order")) {
    const lattice = readForm(cursor);
    cursor.end();
    if (list.length > 1) throw new Wrong(list[1].tokens[0].line, "expected `title`, `lattice`, `propositions`, `model 1`, `model 2` or `formula`");
    return lattice;
  }
  const exactly = cursor.take("word", "exactly") !== null;
  cursor.end();
  return readOrder(list.slice(1), exactly, [list[0].source, ...list.slice(1).map((s) => `  ${s.source}`)]);
}

function readOrder(list, exactly, lines) {
  const all = [];
  const declares = (s) => s.tokens[0].text === "elements";
  for (const statement of list.filter(declares)) {
    const cursor = new Cursor(statement);
    cursor.take("word");
    declare(names(cursor, "the names of the elements"), all, "element", cursor.line);
    cursor.end();
  }
  const n = all.length;
  if (n === 0) throw new Wrong(0, "the order has no elements");
  const table = { names: all, order: Array(n * n).fill(false), not: Array(n).fill(null) };
  for (const statement of list.filter((s) => !declares(s))) (exactly ? exactLine : orderLine)(new Cursor(statement), table);
  const missing = table.not.indexOf(null);
  if (missing >= 0) throw new Wrong(0, `the ${exactly ? "row" : "complement"} of \`${all[missing]}\` is missing`);
  if (!exactly) close(table.order, n);
  return { form: "order", names: all, order: table.order, lines };
}

function orderElement(cursor, { names: all }) {
  return lookup(cursor.expect("word", undefined, "an element"), all, "element", cursor.line);
}

// `a <= b <= c`, or `not a = b`.
function orderLine(cursor, table) {
  if (cursor.take("word", "not")) {
    const a = orderElement(cursor, table);
    cursor.expect("sign", "=");
    const b = orderElement(cursor, table);
    cursor.end();
    for (const [x, y] of [[a, b], [b, a]]) {
      if (table.not[x] !== null && table.not[x] !== y) throw new Wrong(cursor.line, `the complement of \`${table.names[x]}\` is given twice`);
      table.not[x] = y;
    }
    return;
  }
  let low = orderElement(cursor, table);
  do {
    cursor.expect("sign", "<=");
    const high = orderElement(cursor, table);
    table.order[low * table.names.length + high] = true;
    low = high;
  } while (!cursor.ended);
}

// `row a: 1 0 1 not b`.
function exactLine(cursor, table) {
  cursor.expect("word", "row", "`elements` or `row`");
  const [a, n] = [orderElement(cursor, table), table.names.length];
  cursor.expect("sign", ":");
  if (table.not[a] !== null) throw new Wrong(cursor.line, `the row of \`${table.names[a]}\` is given twice`);
  for (let b = 0; b < n; b += 1) {
    if (!cursor.is("word", "0") && !cursor.is("word", "1")) cursor.fail(`0 or 1: is \`${table.names[a]}\` at or below \`${table.names[b]}\`?`);
    table.order[a * n + b] = cursor.take("word") === "1";
  }
  cursor.expect("word", "not", "`not` and the complement");
  table.not[a] = orderElement(cursor, table);
  cursor.end();
}

// Closes a relation so that it is reflexive and transitive.
function close(order, n) {
  for (let i = 0; i < n; i += 1) order[i * n + i] = true;
  for (let through = 0; through < n; through += 1) {
    for (let i = 0; i < n; i += 1) {
      for (let j = 0; j < n; j += 1) order[i * n + j] ||= order[i * n + through] && order[through * n + j];
    }
  }
}

function writeForm(lattice) {
  if (lattice.form === "panel") return "panel";
  if (lattice.form !== "product") return `${lattice.form} ${written(lattice.names)}`;
  return `product ${lattice.factors.map((factor) => `(${writeForm(factor)})`).join(" ")}`;
}

// A lattice as its statements.
function writeLattice(lattice) {
  return lattice.form === "order" ? `${lattice.lines.join("\n")}\n` : `lattice ${writeForm(lattice)}\n`;
}

// Reads an element of a lattice.
function readElement(cursor, lattice) {
  const own = (word) => lattice.names && lattice.form !== "power" && lattice.names.includes(word);
  for (const word of ["top", "bottom"]) {
    if (own(word) || !cursor.take("word", word)) continue;
    const found = extreme(lattice, word === "top");
    if (found === undefined) throw new Wrong(cursor.line, `this order has no ${word}`);
    return found;
  }
  switch (lattice.form) {
    case "chain":
    case "order":
      return lookup(cursor.expect("word", undefined, "an element of the lattice"), lattice.names, "element", cursor.line);
    case "power":
      return readSet(cursor, lattice);
    case "product":
      return readTuple(cursor, lattice);
    default: {
      const letters = [...(cursor.take("word") || "")].map((letter) => PANEL_LETTERS.indexOf(letter));
      if (letters.length !== 3 || letters.includes(-1)) {
        throw new Wrong(cursor.line, "expected three letters of `y` (yes), `?` (unsure), `n` (no), such as `y?n`, `top` or `bottom`");
      }
      return fromPlaces(lattice, letters);
    }
  }
}

function readSet(cursor, lattice) {
  const bits = lattice.names.map(() => 0);
  cursor.expect("sign", "{", "a set such as `{}` or `{a, b}`, `top` or `bottom`");
  while (!cursor.is("sign", "}")) {
    const member = cursor.expect("word", undefined, "a member of the set or `}`");
    bits[lookup(member, lattice.names, "member of the power set's base", cursor.line)] = 1;
    if (!cursor.is("sign", "}")) cursor.expect("sign", ",");
  }
  cursor.expect("sign", "}");
  return fromPlaces(lattice, bits);
}

function readTuple(cursor, lattice) {
  cursor.expect("sign", "(", `\`(\` and an element with ${lattice.factors.length} places, \`top\` or \`bottom\``);
  const list = lattice.factors.map((factor, i) => {
    if (i > 0) cursor.expect("sign", ",");
    return readElement(cursor, factor);
  });
  cursor.expect("sign", ")");
  return fromPlaces(lattice, list);
}
