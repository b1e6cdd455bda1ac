// What the test asks of a page. Only the page's own elements are read; the script of the page is not touched.
window.probe = {
  standing() {
    const rows = [...document.querySelectorAll("#table tbody tr")];
    return {
      entries: rows.map((row) => [...row.querySelectorAll(".cell")].map((cell) => cell.textContent)),
      score: document.querySelector("#score .chip").textContent,
      scoreText: document.getElementById("score").textContent,
      banner: document.getElementById("banner-text").textContent,
      caption: document.getElementById("table-caption").textContent,
      settled: ["banner", "table-box"].map((id) => document.getElementById(id).dataset.settled),
      round: document.getElementById("round").value,
    };
  },

  // The lowerings: what stands below the round's number, the sentences further down, how many entries are marked as lower, for each bar
  // its round and its height, up to which round the bars are full, and where the line stands, in per cent (null where there is none).
  lowered() {
    const box = document.getElementById("lowered-bars");
    const [later, full] = [...box.querySelectorAll("path")].map((path) => path.getAttribute("d"));
    const line = box.querySelector("i");
    return {
      beside: document.getElementById("lowered").textContent,
      words: document.getElementById("lowered-words").textContent,
      marked: document.querySelectorAll(".cell.lower").length,
      bars: [...(later ?? "").matchAll(/M([\d.]+) 100v-([\d.]+)/g)].map(([, left, height]) => [Math.floor(left) + 1, Number(height)]),
      same: later === full,
      shown: box.checkVisibility(),
      full: line && Number(box.querySelector("rect").getAttribute("width")) - 1,
      line: line?.checkVisibility() ? parseFloat(line.style.left) : null,
    };
  },

  // Of a table whose rows begin with a formula's name: the elements in each row.
  chips(box) {
    const rows = [...document.querySelectorAll(`#${box} tbody tr`)];
    const name = (row) => (row.querySelector("th strong") ?? row.querySelector("th")).textContent;
    return Object.fromEntries(rows.map((row) => [name(row), [...row.querySelectorAll(".chip")].map((c) => c.textContent)]));
  },

  formulas() {
    return { whole: this.chips("whole"), values: { 1: this.chips("values1"), 2: this.chips("values2") } };
  },

  // The table of values on the whole models as it is read: the headings, then a row for each formula.
  whole() {
    const rows = [...document.querySelectorAll("#whole tr")];
    return rows.map((row) => [...row.querySelectorAll("th, td")].map((cell) => cell.innerText.trim()));
  },

  pair() {
    const cells = [...document.querySelectorAll('.cell[aria-pressed="true"]')];
    return cells.flatMap((cell) => [cell.dataset.row, cell.dataset.column]);
  },

  pairLines() {
    const rows = [...document.querySelectorAll("#bounds tbody tr")];
    return {
      heading: document.getElementById("pair-heading").textContent,
      lines: rows.map((row) => [...row.querySelectorAll("td")].map((cell) => cell.textContent)),
    };
  },

  // Chooses every pair in turn and reads its formulas.
  bounds() {
    const found = [];
    for (const cell of document.querySelectorAll(".cell")) {
      cell.click();
      const element = document.querySelector("#pair-heading .chip").textContent;
      for (const row of document.querySelectorAll("#bounds tbody tr")) {
        const [value1, value2, bound, below, covered] = [...row.querySelectorAll("td")].map((td) => td.textContent);
        found.push({ value1, value2, bound, element, below: below === "at or below", covered: covered.startsWith("covered") });
      }
    }
    return found;
  },

  // The same of the values on the whole models, with whose bound the score is compared.
  wholeBounds() {
    const element = document.querySelector("#score .chip").textContent;
    const line = ([, value1, value2, bound, below, covered]) => ({ value1, value2, bound, element, below: below === "at or below", covered: covered === "covered" });
    return this.whole().slice(1).map(line);
  },

  drawings() {
    const graphs = [...document.querySelectorAll("[data-graph]")];
    const texts = (node, selector) => [...node.querySelectorAll(selector)].map((text) => text.textContent);
    return {
      states: graphs.map((graph) => texts(graph, "text.name")),
      arrows: graphs.map((graph) => graph.querySelectorAll(".edge").length),
      values: graphs.map((graph) => texts(graph, ".value text").sort()),
      elements: texts(document.querySelector("[data-hasse]"), ".element text"),
      covers: document.querySelectorAll(".cover").length,
    };
  },

  // The focused element; a place in a list where there are many of its sort, "" at the page's end.
  focused() {
    const node = document.activeElement;
    if (node === document.body || node === null) return "";
    const all = [...document.querySelectorAll("*")].indexOf(node);
    return `${node.id ? `#${node.id}` : `.${(node.getAttribute("class") ?? node.tagName).split(" ")[0]}`} ${all}`;
  },

  seen(node) {
    return node.checkVisibility() && node.getBoundingClientRect().width > 0;
  },

  // Nodes that hold text themselves.
  texts() {
    const nodes = [...document.querySelectorAll("body *")].filter((node) => !["SCRIPT", "NOSCRIPT", "title", "STYLE"].includes(node.tagName));
    const own = (node) => [...node.childNodes].some((child) => child.nodeType === 3 && child.textContent.trim() !== "");
    return nodes.filter((node) => own(node) && this.seen(node) && node.closest("noscript") === null);
  },

  // What is said of the chosen pair, and what is lit: for each drawing its arrows and its states.
  why() {
    const lit = (model, selector, ...names) => [...document.querySelectorAll(`#model${model} ${selector}.lit`)].map((node) => names.map((name) => Number(node.dataset[name])));
    return {
      heading: document.getElementById("pair-heading").textContent,
      sentences: [...document.querySelectorAll("#pair .reason")].map((node) => node.textContent),
      said: document.getElementById("pair").textContent,
      arrows: [1, 2].map((model) => lit(model, ".arrow", "from", "to")),
      states: [1, 2].map((model) => lit(model, ".node", "state").flat()),
      pair: this.pair().map(Number),
    };
  },

  // Of what the first screen has to hold: what reaches over the window's edge, and what of the words is cut off.
  outside() {
    const parts = ["title", "controls", "banner", "table-box", "pair", "model1", "model2"].map((id) => document.getElementById(id));
    const over = (node) => {
      const box = node.getBoundingClientRect();
      return box.left < -1 || box.top < -1 || box.right > window.innerWidth + 1 || box.bottom > window.innerHeight + 1;
    };
    const inner = [...document.querySelectorAll(".model svg text")].filter(over);
    const words = document.getElementById("pair");
    return [...(words.scrollHeight > words.clientHeight + 1 ? ["a part of the words"] : []), ...parts.filter((node) => over(node) || node.getBoundingClientRect().height < 20).map((node) => node.id), ...inner.map((node) => node.textContent)];
  },

  // The least text in both drawings, in pixels.
  leastInDrawings() {
    return Math.min(...[...document.querySelectorAll(".model svg text")].map((node) => parseFloat(getComputedStyle(node).fontSize) * node.getScreenCTM().a));
  },

  // On paper: buttons that are no entries, and boxes that hide a part of what they hold.
  paper() {
    const buttons = [...document.querySelectorAll("button:not(.cell):not(.reason), input, summary")].filter((node) => node.checkVisibility());
    const low = (text) => text.getBoundingClientRect().bottom > text.closest(".model").getBoundingClientRect().bottom;
    const cut = [
      ...[...document.querySelectorAll(".scroll")].filter((node) => node.checkVisibility() && getComputedStyle(node).overflowY !== "visible"),
      ...[...document.querySelectorAll(".model svg text")].filter(low),
    ];
    return { buttons: buttons.map((node) => node.id || node.textContent), cut: cut.length, folded: document.querySelectorAll("details:not([open])").length, theme: document.documentElement.dataset.theme };
  },

  // Text under 18px; the size of text in the models' drawings, which are fitted into the screen, is asked for by itself, and the
  // mark in the banner's triangle does not count.
  smallText() {
    const small = (node) => {
      const scale = node.ownerSVGElement ? node.getScreenCTM().a : 1;
      return parseFloat(getComputedStyle(node).fontSize) * scale < 17.9 && !node.closest(".shape, .model svg");
    };
    return [...new Set(this.texts().filter(small).map((node) => `${node.tagName} ${node.textContent.slice(0, 20)}`))].slice(0, 5);
  },

  // Texts of one drawing that lie on each other.
  overlaps() {
    const found = [];
    for (const svg of document.querySelectorAll(".drawing svg:not(.layered)")) {
      const boxes = [...svg.querySelectorAll("text")].map((text) => [text.textContent, text.getBoundingClientRect()]);
      boxes.forEach(([name, a], i) => {
        for (const [other, b] of boxes.slice(i + 1)) {
          const apart = a.right <= b.left + 1 || b.right <= a.left + 1 || a.bottom <= b.top + 6 || b.bottom <= a.top + 6;
          if (!apart) found.push(`${name} / ${other}`);
        }
      });
    }
    return found.slice(0, 5);
  },

  // Texts on a colour of their own with a contrast under 4.5.
  faint() {
    const numbers = (colour) => colour.match(/[\d.]+/g).map(Number);
    const light = (colour) => {
      const [r, g, b] = numbers(colour).slice(0, 3).map((value) => {
        const part = value / 255;
        return part <= 0.03928 ? part / 12.92 : ((part + 0.055) / 1.055) ** 2.4;
      });
      return 0.2126 * r + 0.7152 * g + 0.0722 * b;
    };
    const ground = (node) => {
      for (let up = node; up; up = up.parentElement) {
        const colour = getComputedStyle(up).backgroundColor;
        if (numbers(colour)[3] !== 0) return colour;
      }
      return "rgb(255,255,255)";
    };
    const nodes = this.texts().filter((node) => !node.ownerSVGElement && !node.disabled);
    const contrast = (node) => {
      const [a, b] = [light(getComputedStyle(node).color), light(ground(node))];
      return (Math.max(a, b) + 0.05) / (Math.min(a, b) + 0.05);
    };
    return nodes.filter((node) => contrast(node) < 4.5).map((node) => `${node.tagName} ${node.textContent.slice(0, 20)} ${contrast(node).toFixed(2)}`);
  },
};
