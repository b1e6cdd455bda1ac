// Words and signs of the text form, and lists of names, as the tool reads and writes them (docs/TEXT-FORM.md).

// A text that cannot be read; `line` counts from 1, 0 is no line.
class Wrong extends Error {
  constructor(line, message) {
    super(line ? `line ${line}: ${message}` : message);
  }
}

const SIGNS = ["->", "<=", "..", ":", ",", "=", "|", "&", "!", ".", "(", ")", "{", "}"];
const WORD = /[\p{Alphabetic}\p{N}_?'](?:[\p{Alphabetic}\p{N}_?']|-(?=[\p{Alphabetic}\p{N}]))*/uy;
const RESERVED = "title lattice propositions model formula bytes include states initial elements not row".split(" ");
const FORMULA_WORDS = "top bottom AX EX AG EF AF EG mu nu".split(" ");
const MOST_NAMES = 255;

// The tokens of a line: `word`, `quoted` or `sign`, with the text and where it stands.
function lineTokens(text, line) {
  const tokens = [];
  for (let at = 0; at < text.length; ) {
    WORD.lastIndex = at;
    const word = WORD.exec(text);
    const sign = SIGNS.find((s) => text.startsWith(s, at));
    const start = at;
    if (/[\p{White_Space}\ufeff]/u.test(text[at])) at += 1;
    else if (text[at] === "#") break;
    else if (text[at] === '"') {
      at = text.indexOf('"', at + 1) + 1;
      if (at === 0) throw new Wrong(line, "this quoted text is never closed");
      tokens.push({ kind: "quoted", text: text.slice(start + 1, at - 1), line, start, end: at });
    } else if (word || sign) {
      at += (word ? word[0] : sign).length;
      tokens.push({ kind: word ? "word" : "sign", text: text.slice(start, at), line, start, end: at });
    } else throw new Wrong(line, `the character \`${String.fromCodePoint(text.codePointAt(at))}\` has no meaning here`);
  }
  return tokens;
}

// The statements of a text; a line break ends one, except inside parentheses or braces. A statement keeps its source.
function statements(lines) {
  const list = [];
  let now = { tokens: [], source: [] };
  let open = [];
  lines.forEach((text, i) => {
    const tokens = lineTokens(text, i + 1);
    for (const token of tokens) {
      if (token.kind !== "sign") continue;
      if ("({".includes(token.text)) open.push(token.text === "(" ? ")" : "}");
      else if (")}".includes(token.text) && open.pop() !== token.text) throw new Wrong(i + 1, `\`${token.text}\` closes nothing`);
    }
    if (tokens.length > 0) now.source.push(text.slice(tokens[0].start, tokens[tokens.length - 1].end));
    now.tokens.push(...tokens);
    if (open.length > 0 || now.tokens.length === 0) return;
    list.push({ tokens: now.tokens, source: now.source.join(" ") });
    now = { tokens: [], source: [] };
  });
  if (open.length > 0) throw new Wrong(lines.length, `a bracket is never closed: \`${open.pop()}\` is missing`);
  return list;
}

// Goes through the tokens of a statement.
class Cursor {
  constructor(statement) {
    this.tokens = statement.tokens;
    this.at = 0;
  }
  get line() {
    return this.tokens[Math.min(this.at, this.tokens.length - 1)].line;
  }
  get ended() {
    return this.at === this.tokens.length;
  }
  is(kind, text) {
    const token = this.tokens[this.at];
    return token !== undefined && token.kind === kind && (text === undefined || token.text === text);
  }
  take(kind, text) {
    return this.is(kind, text) ? this.tokens[this.at++].text : null;
  }
  expect(kind, text, expected) {
    const taken = this.take(kind, text);
    if (taken === null) this.fail(expected || `\`${text}\``);
    return taken;
  }
  fail(expected) {
    const found = this.ended ? "the line ends here" : `found \`${this.tokens[this.at].text}\``;
    throw new Wrong(this.line, `${found}, expected ${expected}`);
  }
  end() {
    if (!this.ended) this.fail("the end of the line");
  }
}

// A name as what stands before the number at its end, and that number; null if the number has a needless zero.
function splitNumber(name) {
  const found = /^(.*?)(0|[1-9][0-9]*)$/su.exec(name);
  return found && !/[0-9]$/.test(found[1]) ? [found[1], Number(found[2])] : null;
}

// One or more names; `q0..q63` stands for all from `q0` to `q63`.
function names(cursor, expected) {
  const list = [];
  do {
    const first = cursor.expect("word", undefined, expected);
    if (!cursor.take("sign", "..")) list.push(first);
    else {
      const from = splitNumber(first);
      const to = splitNumber(cursor.expect("word", undefined, "the last name of the range"));
      if (!from || !to || from[0] !== to[0] || from[1] > to[1] || to[1] - from[1] > MOST_NAMES) {
        throw new Wrong(cursor.line, "this is no range of names, as `q0..q7`");
      }
      for (let i = from[1]; i <= to[1]; i += 1) list.push(from[0] + i);
    }
    if (list.length > MOST_NAMES) throw new Wrong(cursor.line, "the list is too long");
  } while (cursor.is("word"));
  return list;
}

// A list of names as it is written, with ranges for three or more in a row.
function written(list) {
  const words = [];
  for (let at = 0; at < list.length; ) {
    const number = splitNumber(list[at]);
    let run = 1;
    while (number && number[1] + run < 2 ** 32 && list[at + run] === `${number[0]}${number[1] + run}`) run += 1;
    if (run < 3) run = 1;
    words.push(run === 1 ? list[at] : `${list[at]}..${list[at + run - 1]}`);
    at += run;
  }
  return words.join(" ");
}

// What is wrong with a new name of some sort among those that there are; an empty text if nothing is.
function nameFault(name, others, sort) {
  WORD.lastIndex = 0;
  const word = WORD.exec(name);
  if (!word || word[0] !== name) return "a name is made of letters, digits, _, ?, ', and - inside it";
  if (RESERVED.includes(name)) return `\`${name}\` is a word of the text form`;
  if (others.includes(name)) return `the ${sort} \`${name}\` is named twice`;
  if (sort === "proposition" && (!/^[\p{Alphabetic}_]/u.test(name) || FORMULA_WORDS.includes(name))) return `\`${name}\` cannot name a proposition`;
  return "";
}

// Adds new names to those of some sort.
function declare(list, all, sort, line) {
  for (const name of list) {
    const fault = nameFault(name, all, sort);
    if (fault) throw new Wrong(line, fault);
    all.push(name);
  }
}

function lookup(word, all, sort, line) {
  const number = all.indexOf(word);
  if (number < 0) throw new Wrong(line, `\`${word}\` is no ${sort}`);
  return number;
}
