// What the tables of bounds have in common: the bound 'not the value of who follows, joined with the value of who is followed', and
// whether the shown round covers a formula, so that an entry or the score has to be at or below it.

// (not a) joined with b, as the tool worked it out.
function implies(a, b) {
  return lattice.implies[a * lattice.names.length + b];
}

function atMost(a, b) {
  return lattice.atMost[a * lattice.names.length + b] === 1;
}

// Whether the shown round covers a formula: yes or no, a word for it, and why.
function covered(formula) {
  const from = formula.coveredFrom;
  if (from === null) return [false, "never", "has EX"];
  if (shownRound === T) return [true, "covered", "settled, no EX"];
  if (from === "settled") return [false, "not yet", "has a fixpoint, only once settled"];
  const nested = `${formula.nestedAx} nested AX`;
  if (from <= shownRound) return [true, "covered", `${nested}, fewer than ${shownRound}`];
  return [false, "not yet", `${nested}, from round ${from} on`];
}

// What stands above a table of bounds: what the bound is, and what it says of the entry or the score.
function boundWords(value, what) {
  const [one, other] = data.owners;
  return [
    `Bound: not the ${other}'s ${value}, joined with the ${one}'s. Where the shown round covers the formula, the ${what} is at or below it. A bound of `,
    chip(lattice.top), ` says nothing: any ${what} is at or below it.`,
  ];
}

// Of a formula's two values and an entry or the score: the bound, words for whether the element is at or below it, and whether the shown
// round covers the formula, so that it has to be.
function bounded(formula, [value1, value2], what, element) {
  const bound = implies(value2, value1);
  const below = atMost(element, bound);
  const [isCovered, mark, why] = covered(formula);
  if (isCovered && !below) failed(`${formula.name} is covered, and the ${what} is not at or below the bound`);
  const said = below ? "at or below" : make("span", { class: mark === "not yet" ? "over" : "" }, "not at or below");
  return { bound, said, isCovered, mark, why };
}

// The headings of a table of bounds: of the two values, of what is compared with their bound, and of whether the shown round covers the
// formula.
function boundHead(value1, value2, element) {
  return ["Formula", capital(value1), capital(value2), "Bound", element, `Covered by round ${shownRound}?`];
}

// A word in bold where the shown round covers the formula.
function coveredMark(isCovered, words) {
  return make("span", { class: isCovered ? "covered" : "" }, words);
}
