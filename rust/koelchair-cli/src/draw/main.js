// Opening, saving, and the page as a whole.

const SORTS = { student: "student's file", case: "whole case", course: "course's file" };

// Which files can be saved: a model without states cannot be read again.
function savable() {
  const [student, course] = now.drawing.models.map((m) => m !== null && m.states.length > 0);
  return { student, case: student && course, course: course && !given.fixed };
}

function fileName(sort) {
  const named = sort === "student" ? now.drawing.models[0].title : now.drawing.title;
  const plain = [...(named || "")].map((c) => (/[\p{L}\p{N}._-]/u.test(c) ? c : "-")).join("").toLowerCase();
  return `${plain.replace(/^[.-]+/, "") || "drawing"}.case`;
}

// What is saved. The comment at the head of the text in this page is the course's, and no student's file has it.
function textOf(sort) {
  const head = sort === "student" || now.drawing.head.length > 0 ? now.drawing.head : now.courseHead;
  return writeCase({ ...now.drawing, head }, sort);
}

function save() {
  const sort = at("sort").value;
  if (!savable()[sort]) return void say(`There is no ${SORTS[sort]} to save yet: a model needs a state.`);
  const link = make("a", { download: fileName(sort), href: URL.createObjectURL(new Blob([textOf(sort)], { type: "text/plain" })) });
  link.click();
  setTimeout(() => URL.revokeObjectURL(link.href), 1000);
  now.kept = JSON.stringify(now.drawing);
  guard();
  say(`Saved the ${SORTS[sort]} as \`${fileName(sort)}\`.`);
}

// Takes a text in place of what is drawn; what is wrong with it is said and nothing is altered.
function take(text, name) {
  let read;
  try {
    read = readCase(text, now.drawing, given.fixed);
    if (given.fixed && !read.drawing.models[0]) throw new Wrong(0, "`model 1` is missing");
    if (!read.drawing.models[0] && !read.drawing.models[1]) throw new Wrong(0, "`model 1` and `model 2` are missing");
  } catch (error) {
    if (!(error instanceof Wrong)) throw error;
    say(`Nothing was altered, since ${name} cannot be read: ${error.message}.`);
    return false;
  }
  const { drawing, included } = read;
  const models = now.drawing.models;
  // A student's file leaves the rest as it is; so does any file where the rest is the course's.
  if (given.fixed) Object.assign(drawing, { title: now.drawing.title, lattice: now.drawing.lattice, formulas: now.drawing.formulas, models: [drawing.models[0], models[1]] });
  else if (!drawing.models[1] && !/^\s*lattice\b/m.test(text)) Object.assign(drawing, { formulas: now.drawing.formulas, models: [drawing.models[0], models[1]] });
  choose(null);
  now.linking = null;
  now.past.push(now.drawing);
  now.future = [];
  now.drawing = whole(drawing);
  if (now.drawing.models[now.which].states.length === 0) now.which = 1 - now.which;
  now.kept = JSON.stringify(now.drawing);
  const left = included.map((file) => ` Its line \`include "${file}"\` is left out.`).join("");
  say(`Opened ${name}.${left}`);
  show();
  return true;
}

// A drawing in which both models are there to be drawn; the course's stays absent where it is not in this page.
function whole(drawing) {
  drawing.models = drawing.models.map((m, i) => m || (given.fixed && i === 1 ? null : emptyModel("")));
  const before = now.drawing;
  now.drawing = drawing;
  for (const m of drawing.models) if (m) layOut(m);
  now.drawing = before;
  return drawing;
}

async function openFile(file) {
  if (file) take(await file.text(), `\`${file.name}\``);
}

function ask(event) {
  event.preventDefault();
}

// The browser asks before a drawing is lost that is not saved.
function guard() {
  const unsaved = JSON.stringify(now.drawing) !== now.kept;
  window[unsaved ? "addEventListener" : "removeEventListener"]("beforeunload", ask);
}

// Shows what is drawn; the focus stays at what it was at.
function show() {
  const key = document.activeElement?.dataset?.key;
  const warnings = warningsOf(now.drawing, now.which);
  showGraph(warnings);
  showSide(warnings);
  const tabs = now.drawing.models[1] ? ["Student's model", "Course's model"] : [];
  at("tabs").replaceChildren(...tabs.map((name, m) => button(name, now.which === m, () => {
    now.which = m;
    choose(null);
    unlink();
    show();
  }, `tab ${m}`)));
  at("undo").disabled = now.past.length === 0;
  at("redo").disabled = now.future.length === 0;
  showSorts();
  guard();
  if (key) document.querySelector(`[data-key="${CSS.escape(key)}"]`)?.focus();
}

// What can be saved, and its text.
function showSorts() {
  const can = savable();
  const before = at("sort").value || "student";
  const offered = given.fixed ? (now.drawing.models[1] ? ["student", "case"] : ["student"]) : ["student", "case", "course"];
  at("sort").replaceChildren(...offered.map((sort) => make("option", { value: sort, selected: sort === before, disabled: !can[sort] }, SORTS[sort])));
  at("sort").hidden = offered.length === 1;
  if (!can[at("sort").value]) at("sort").value = offered.find((sort) => can[sort]) || "student";
  at("save").disabled = !can[at("sort").value];
  if (document.activeElement !== at("text")) at("text").value = can[at("sort").value] ? textOf(at("sort").value) : "";
}

function setTheme(theme) {
  document.documentElement.dataset.theme = theme;
  at("theme").textContent = theme === "dark" ? "Light" : "Dark";
}

function zoom(by) {
  now.zoom = Math.min(2, Math.max(0.4, Math.round((now.zoom + by) * 10) / 10));
  at("zoom").textContent = `${Math.round(now.zoom * 100)} %`;
  show();
}

function start() {
  now.drawing = { head: [], title: "", lattice: null, propositions: [], models: [null, null], formulas: [] };
  now.drawing = whole(readCase(given.text, now.drawing, false).drawing);
  now.courseHead = now.drawing.head;
  now.drawing.head = [];
  now.kept = JSON.stringify(now.drawing);
  at("title").textContent = given.fixed ? now.drawing.title || "Drawing" : "Drawing";
  const click = { undo: () => travel(now.past, now.future), redo: () => travel(now.future, now.past), open: () => at("file").click(), save,
    "zoom-in": () => zoom(0.2), "zoom-out": () => zoom(-0.2), read: () => take(at("text").value, "the text"),
    theme: () => setTheme(document.documentElement.dataset.theme === "dark" ? "light" : "dark") };
  for (const [id, handler] of Object.entries(click)) at(id).addEventListener("click", handler);
  at("sort").addEventListener("change", showSorts);
  at("file").addEventListener("change", (event) => {
    openFile(event.target.files[0]);
    event.target.value = "";
  });
  document.addEventListener("dragover", (event) => event.preventDefault());
  document.addEventListener("drop", (event) => {
    event.preventDefault();
    openFile(event.dataTransfer.files[0]);
  });
  window.addEventListener("resize", show);
  setTheme(window.matchMedia("(prefers-color-scheme: dark)").matches ? "dark" : "light");
  listenToHands();
  show();
  document.documentElement.dataset.ready = "true";
}

start();
