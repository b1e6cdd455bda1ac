// The lowerings: the entries that differ from the round before, of one round and of all rounds up to it, by the library's count.

const allLowered = data.lowerings.map((_, round) => loweredBy(round));
const mostLowered = Math.max(...allLowered);
const mostPossible = rows.length * columns.length * highest;

// How many entries a round lowered: what the count rose by.
function loweredBy(round) {
  return data.lowerings[round] - (data.lowerings[round - 1] ?? 0);
}

function entriesInWords(number) {
  return number === 1 ? "1 entry" : `${number} entries`;
}

// What stands below the round's number.
function loweredShort(round) {
  if (round === 0) return "nothing lowered yet";
  return `lowered ${entriesInWords(allLowered[round])}, ${data.lowerings[round]} ${round === T ? "in all" : "so far"}`;
}

// The same in sentences.
function loweredLong(round) {
  if (round === 0) return "Round 0: nothing is lowered yet.";
  const own = `Round ${round} lowered ${entriesInWords(allLowered[round])}`;
  if (round < T) return `${own}. Lowerings so far: ${data.lowerings[round]}.`;
  return `${own}, since it equals round ${T - 1}. Lowerings in all: ${data.lowerings[round]}.`;
}

// The round that lowered most, and how many lowerings such a case can have.
function loweredMost() {
  const busiest = mostLowered === 0 ? "" : ` The busiest is round ${allLowered.indexOf(mostLowered)} with ${entriesInWords(mostLowered)}.`;
  const pairs = rows.length * columns.length;
  return `${busiest} At most ${pairs} \u00B7 ${highest} = ${mostPossible} are possible: ${count(pairs, "pair")} of states, ` +
    `and ${count(highest, "step")} from top to bottom in the lattice's longest chain.`;
}

// A bar for each round, from left to right; a round that lowers anything has one that can be seen.
function bars() {
  const gap = T > 60 ? 0 : 0.12;
  const bar = (lowered, round) => {
    const height = Math.max(2, (100 * lowered) / mostLowered);
    return lowered === 0 ? "" : `M${round - 1 + gap} 100v${-height}h${1 - 2 * gap}v${height}z`;
  };
  return allLowered.map(bar).join("");
}

// Room for the longest words, so that the slider does not move, and the bars: all of them faint, and over them those up to the shown round.
function startLowerings() {
  const longest = allLowered.map((_, round) => loweredShort(round)).reduce((a, b) => (b.length > a.length ? b : a));
  at("lowered").style.minWidth = `${Math.ceil(textWidth(longest)) / 18}em`;
  at("lowered-bars").hidden = mostLowered === 0;
  if (mostLowered === 0) return;
  const label = `A bar for each round: how many entries it lowered, at most ${mostLowered}`;
  const svg = draw(
    "svg", { viewBox: `0 0 ${T} 100`, preserveAspectRatio: "none", role: "img", "aria-label": label },
    draw("clipPath", { id: "up-to-shown" }, draw("rect", { x: -1, y: -1, width: 1, height: 102 })),
    draw("path", { class: "later", d: bars() }),
    draw("path", { d: bars(), "clip-path": "url(#up-to-shown)" }),
  );
  at("lowered-bars").prepend(make("div", {}, svg, make("i")));
  at("lowered-ends").replaceChildren(make("span", {}, "Round 1"), make("span", {}, `Round ${T}`));
}

// What is said of the shown round. The library counts as many entries as the table marks as lower, or the page is broken.
function showLowerings() {
  const [own, marked] = [allLowered[shownRound], changes[shownRound].length];
  if (own !== marked) failed(`round ${shownRound} lowered ${entriesInWords(own)} by the count, and ${entriesInWords(marked)} by its table`);
  if (data.lowerings[shownRound] > mostPossible) failed(`round ${shownRound} has more lowerings than are possible`);
  at("lowered").textContent = loweredShort(shownRound);
  at("lowered-words").textContent = loweredLong(shownRound) + loweredMost();
  if (mostLowered === 0) return;
  at("lowered-bars").querySelector("rect").setAttribute("width", shownRound + 1);
  const line = at("lowered-bars").querySelector("i");
  line.hidden = shownRound === 0;
  line.style.left = `${(100 * (shownRound - 0.5)) / T}%`;
}
