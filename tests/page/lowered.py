#!/usr/bin/env python3
"""Opens pages of `koelchair page` in a headless Chromium and holds the lowerings that they say against `step` and against their own tables.

    tests/page/lowered.py

`tests/page/run` runs it too. It needs the same tool and browser, and says so where one of them is missing (exit status 3).
"""

import json
import os
import pathlib
import re
import subprocess
import sys
import tempfile

sys.dont_write_bytecode = True
import browser

HERE = pathlib.Path(__file__).resolve().parent
ROOT = HERE.parent.parent
TOOL = os.environ.get("KOELCHAIR", str(ROOT / "target/cargo/release/koelchair"))
PROBES = (HERE / "probes.js").read_text()
NAMES = ("label-one-field-after-the-other", "panel-of-three", "score-bound", "example-4-round-1", "example-5-subsets", "form-order",
         "error-half-worked-table", "error-read-backwards", "covered-from")
# For each of these cases how many lowerings are possible: pairs of states, and steps in the longest chain.
POSSIBLE = {"label-one-field-after-the-other": (6, 2), "panel-of-three": (6, 6), "example-4-round-1": (4, 1), "example-5-subsets": (9, 3)}

failures = []


def check(holds, said):
    """Notes a failure."""
    if not holds:
        failures.append(said)
        print(f"FAILED {said}")


def tool(*arguments):
    """What the tool prints; warnings are left out."""
    return subprocess.run([TOOL, *map(str, arguments)], stdout=subprocess.PIPE, stderr=subprocess.DEVNULL, check=True).stdout.decode()


def example(name):
    """An example's file."""
    return ROOT / "examples" / f"{name}.case"


def exchanged(case, folder):
    """The same case with its models exchanged."""
    other = folder / f"{case.stem}-exchanged.case"
    numbers = {"1": "2", "2": "1"}
    other.write_text(re.sub(r"^model ([12])", lambda found: f"model {numbers[found[1]]}", case.read_text(), flags=re.M))
    return other


def written(name, case, folder):
    """The address of a case's page."""
    page = folder / f"{name.replace('/', '-')}-lowered.html"
    page.write_text(tool("page", case))
    return page.as_uri()


def entries(number):
    """A number of entries."""
    return "1 entry" if number == 1 else f"{number} entries"


def beside(number, last, lowered, lowerings):
    """What stands below the number of a round."""
    return "nothing lowered yet" if number == 0 else f"lowered {entries(lowered)}, {lowerings} {'in all' if number == last else 'so far'}"


def sentences(number, last, lowered, lowerings):
    """How the sentences of a round begin."""
    if number == 0:
        return "Round 0: nothing is lowered yet. "
    own = f"Round {number} lowered {entries(lowered)}"
    return f"{own}, since it equals round {last - 1}. Lowerings in all: {lowerings}. " if number == last else f"{own}. Lowerings so far: {lowerings}. "


def check_round(where, seen, counts, number):
    """The shown round: its numbers, the entries that are marked, the bars and the line."""
    last, most = len(counts) - 1, max(lowered for lowered, _ in counts)
    lowered, lowerings = counts[number]
    check(seen["beside"] == beside(number, last, lowered, lowerings), f"{where}: {seen['beside']}")
    check(seen["words"].startswith(sentences(number, last, lowered, lowerings)), f"{where}: {seen['words']}")
    check(seen["marked"] == lowered, f"{where}: {seen['marked']} entries are marked as lower, not {lowered}")
    bars = [[i, max(2, 100 * n / most)] for i, (n, _) in enumerate(counts) if n > 0]
    near = len(bars) == len(seen["bars"]) and all(a[0] == b[0] and abs(a[1] - b[1]) < 0.01 for a, b in zip(bars, seen["bars"]))
    check(near and seen["same"] and seen["shown"], f"{where}: bars {seen['bars'][:9]} are not {bars[:9]}")
    check(seen["full"] == number, f"{where}: bars are full up to round {seen['full']}")
    at = None if number == 0 else 100 * (number - 0.5) / last
    check(seen["line"] == at or (at is not None and seen["line"] is not None and abs(seen["line"] - at) < 0.01), f"{where}: line at {seen['line']}, not {at}")


def differing(before, after):
    """In how many places two tables of entries differ."""
    return sum(a != b for row, other in zip(before, after, strict=True) for a, b in zip(row, other, strict=True))


def check_counts(tab, folder):
    """Every round of several cases, also exchanged: what `step` says, and what the shown tables themselves give. The slider stays as wide."""
    for name in NAMES:
        address = written(name, example(name), folder)
        for way, case in (("", example(name)), ("exchanged", exchanged(example(name), folder))):
            counts = [(one["lowered"], one["lowerings"]) for one in json.loads(tool("step", "--json", case))["rounds"]]
            tab.window(1280, 720)
            tab.open(f"{address}#{way}")
            tab.evaluate("document.getElementById('round').focus()")
            tab.key("Home")
            before, sum_so_far, widths = tab.evaluate("probe.standing().entries"), 0, set()
            for number in range(len(counts)):
                where = f"{name}{', exchanged' if way else ''}, round {number}"
                seen, now = tab.evaluate("probe.lowered()"), tab.evaluate("probe.standing().entries")
                check_round(where, seen, counts, number)
                sum_so_far += differing(before, now)
                check((differing(before, now), sum_so_far) == counts[number], f"{where}: the tables give {differing(before, now)}, {sum_so_far}")
                widths.add(round(tab.evaluate("document.getElementById('round').getBoundingClientRect().width")))
                before = now
                tab.key("ArrowRight")
            check(max(widths) - min(widths) <= 2, f"{name} {way}: the slider is {sorted(widths)} pixels wide")
            check(tab.evaluate("document.getElementById('errors').textContent") == "" and tab.wrong() == [], f"{name} {way}: {tab.wrong()}")


def check_possible(tab, folder):
    """How many lowerings are possible, and the busiest round."""
    for name, (pairs, steps) in POSSIBLE.items():
        tab.open(written(name, example(name), folder))
        seen = tab.evaluate("probe.lowered().words")
        counts = [one["lowered"] for one in json.loads(tool("step", "--json", example(name)))["rounds"]]
        said = (f" The busiest is round {counts.index(max(counts))} with {entries(max(counts))}. At most {pairs} \u00B7 {steps} = {pairs * steps} are "
                f"possible: {pairs} pairs of states, and {steps} step{'' if steps == 1 else 's'} from top to bottom in the lattice's longest chain.")
        check(seen.endswith(said), f"{name}: {seen} does not end with {said}")


def check_long(tab, folder):
    """A case of 4,033 rounds."""
    address = written("slow/4033-rounds", example("slow/4033-rounds"), folder)
    counts = [(0, 0), (4032, 4032), *((1, 4031 + i) for i in range(2, 4033)), (0, 8063)]
    for number in (0, 1, 2, 2000, 4032, 4033):
        tab.open(f"{address}#round={number}")
        check_round(f"4033 rounds, round {number}", tab.evaluate("probe.lowered()"), counts, number)
    check(tab.evaluate("document.getElementById('errors').textContent") == "" and tab.wrong() == [], f"4033 rounds: {tab.wrong()}")


def check_none(tab, folder):
    """A case in which nothing is ever lowered has no bars."""
    tab.open(written("example-6-one-element", example("example-6-one-element"), folder))
    seen = tab.evaluate("probe.lowered()")
    check(seen["beside"] == "lowered 0 entries, 0 in all", f"one element: {seen['beside']}")
    check(not seen["shown"] and seen["bars"] == [] and "busiest" not in seen["words"], f"one element: {seen}")


def check_broken(tab, folder):
    """A page whose counts are not those of its tables, or are more than possible, says that it is broken."""
    name = "example-4-round-1"
    address = written(name, example(name), folder)
    page = pathlib.Path(address.removeprefix("file://")).read_text()
    differs = "This page is broken: round {} lowered {} by the count, and {} by its table. "
    over = "This page is broken: round {} has more lowerings than are possible. "
    counts, levels = '"lowerings":[0,3,4,4]', '"height":[0,1]'
    for old, new, number, said in ((counts, counts, 2, ""),
                                   (counts, '"lowerings":[0,3,3,3]', 1, ""),
                                   (counts, '"lowerings":[0,3,3,3]', 2, differs.format(2, "0 entries", "1 entry")),
                                   (counts, '"lowerings":[0,2,4,4]', 1, differs.format(1, "2 entries", "3 entries")),
                                   (counts, '"lowerings":[1,4,5,5]', 0, differs.format(0, "1 entry", "0 entries")),
                                   (counts, '"lowerings":[1,4,5,5]', 2, over.format(2)),
                                   (levels, '"height":[0,0]', 1, over.format(1))):
        check(old in page, f"{name}: no {old}")
        altered = folder / "lowered-broken.html"
        altered.write_text(page.replace(old, new, 1))
        tab.open(f"{altered.as_uri()}#round={number}")
        seen = tab.evaluate("document.getElementById('errors').textContent")
        check(seen == said, f"{name}, {new}, round {number}: {seen}")


def check_seen(tab, folder):
    """At every size the words stand below the round's number inside the window, from 1024 pixels on in one line with the buttons; on paper the sentences
    and the bars are there."""
    below = ("((number, words) => words.top >= number.bottom - 6 && words.right <= window.innerWidth && words.left >= 0)"
             "(...['round-number', 'lowered'].map((id) => document.getElementById(id).getBoundingClientRect()))")
    one_line = "((a, b) => Math.abs(a.top + a.bottom - b.top - b.bottom) < 8)(...['shown-round', 'settled'].map((id) => document.getElementById(id).getBoundingClientRect()))"
    for name in NAMES[:5]:
        address = written(name, example(name), folder)
        for width, height in ((1280, 720), (1920, 1080), (1024, 768), (390, 800)):
            tab.window(width, height)
            for number in (0, 1):
                tab.open(f"{address}#round={number}")
                check(tab.evaluate(below), f"{name} at {width}x{height}, round {number}: the words do not stand below the number")
                check(width < 900 or tab.evaluate(one_line), f"{name} at {width}x{height}, round {number}: the controls take two lines")
        tab.paper()
        seen = tab.evaluate("['lowered-words', 'lowered-bars'].map((id) => document.getElementById(id).checkVisibility())")
        check(seen == [True, True], f"{name} on paper: {seen}")


def run(tab, folder):
    """All checks; the failures."""
    for part in (check_counts, check_possible, check_long, check_none, check_broken, check_seen):
        part(tab, folder)
        print(f"lowerings, {part.__name__.removeprefix('check_')}: checked")
    tab.window(1280, 720)
    return failures


def main():
    program = browser.found()
    if program is None:
        print("tests/page: no Chromium was found, so no page was tested. Debian has it as the package chromium;\n"
              "another program can be named by the variable CHROMIUM.", file=sys.stderr)
        return 3
    if not os.access(TOOL, os.X_OK):
        print(f"tests/page: {TOOL} is missing; build it by `cargo build --release -p koelchair-cli` in rust/.", file=sys.stderr)
        return 3
    tab = browser.Browser(program)
    tab.command("Page.addScriptToEvaluateOnNewDocument", source=PROBES)
    with tempfile.TemporaryDirectory(prefix="koelchair-lowered-") as place:
        try:
            run(tab, pathlib.Path(place))
        finally:
            tab.close()
    print(f"{len(failures)} failures" if failures else "all lowerings are well")
    return 1 if failures else 0


if __name__ == "__main__":
    sys.exit(main())
