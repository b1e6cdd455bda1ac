// The formulas with their values on both whole models and at each state, the bound that the values on the whole models give the score,
// and whether the shown round covers them.

// A formula with its name, as it is written, and below it its facts and from when on a table covers it.
function formulaText(formula) {
  const written = make("div", {}, make("strong", {}, formula.name), ": ", make("code", {}, formula.text));
  return make("div", {}, written, make("div", { class: "facts" }, formula.facts), make("div", {}, coveredFrom(formula)));
}

function coveredFrom(formula) {
  const from = formula.coveredFrom;
  if (from === null) return "never covered";
  return from === "settled" ? "covered once settled" : `covered from round ${from} on, or once settled`;
}

// A formula's line on the whole models.
function wholeLine(formula, score) {
  const { bound, said, isCovered, mark } = bounded(formula, formula.whole, "score", score);
  return [formulaText(formula), ...formula.whole.map(chip), chip(bound), said, coveredMark(isCovered, mark)];
}

// The table of values on the whole models for the shown round and its score.
function showWhole() {
  if (data.formulas.length === 0) return;
  const score = data.rounds[shownRound][0];
  const scoreHead = make("span", {}, "The score ", chip(score), " is");
  const head = boundHead(modelName(0), modelName(1), scoreHead);
  const lines = data.formulas.map((formula) => wholeLine(formula, score));
  at("whole").replaceChildren(tableOf("On the whole models", [head, ...lines]));
}

function showFormulas() {
  if (data.formulas.length === 0) {
    at("formulas").append(make("p", {}, "The case has no formulas."));
    return;
  }
  const whole = scrolling("formulas on the whole models", "");
  whole.id = "whole";
  at("formulas").append(make("p", {}, ...boundWords("value on the whole model", "score")), whole);
  const tables = data.models.map((model, m) => {
    const lines = data.formulas.map((formula) => [formula.name, ...formula.values[m].map(chip)]);
    const caption = `At each state of ${modelName(m)}`;
    const table = scrolling(caption, tableOf(caption, [["Formula", ...model.states], ...lines]));
    table.id = `values${m + 1}`;
    return table;
  });
  at("formulas").append(make("div", { class: "beside" }, ...tables));
}
