#!/usr/bin/env python3
"""Draws in pages of `koelchair draw` in a headless Chromium by real events, and holds what is saved against the expected text and the tool.

    tests/page/drawing.py [FOLDER]       FOLDER gets pictures of the pages

`tests/page/run` runs it too. It needs the same tool and browser, and says so where one of them is missing (exit status 3).
"""

import os
import pathlib
import subprocess
import sys
import tempfile
import time

sys.dont_write_bytecode = True
import browser

HERE = pathlib.Path(__file__).resolve().parent
ROOT = HERE.parent.parent
TOOL = os.environ.get("KOELCHAIR", str(ROOT / "target/cargo/release/koelchair"))
SIZES = ((1024, 768), (1280, 720), (1920, 1080), (390, 800))
COURSE = ROOT / "examples/class/course.case"
KEYS = {"Delete": 46, "Escape": 27, "Enter": 13, "ArrowRight": 39, "ArrowDown": 40, "Tab": 9}
DRAWN = """model 1 "Ada"
  states current stale blank
  # at current 160 160, stale 420 160, blank 420 380
  initial current: yes
  current: shown = yes, whole = unsure
  stale: shown = yes
  current -> stale: yes
  stale -> blank: unsure
"""

failures = []


def check(holds, said):
    """Notes a failure."""
    if not holds:
        failures.append(said)
        print(f"FAILED {said}")


def tool(*arguments):
    """Runs the tool: exit status, output, messages."""
    ran = subprocess.run([TOOL, *map(str, arguments)], capture_output=True, text=True, check=False)
    return ran.returncode, ran.stdout, ran.stderr


def fresh(tab):
    """A new tab in place of the one before, which would ask whether what is drawn may be lost."""
    tab.session = None
    before = [t["targetId"] for t in tab.command("Target.getTargets")["targetInfos"] if t["type"] == "page"]
    made = tab.command("Target.createTarget", url="about:blank")["targetId"]
    for target in before:
        tab.command("Target.closeTarget", targetId=target)
    tab.session = tab.command("Target.attachToTarget", targetId=made, flatten=True)["sessionId"]
    for domain in ("Page", "Runtime", "Log", "Network"):
        tab.command(f"{domain}.enable")


class Hand:
    """A page in which is drawn, and the mouse, the fingers and the keys."""

    def __init__(self, tab, folder, arguments, name):
        self.tab, self.folder, self.name = tab, folder, name
        page = folder / f"{name}.html"
        status, html, said = tool("draw", *arguments)
        check(status == 0, f"{name}: draw says {said}")
        page.write_text(html)
        fresh(tab)
        tab.window(1280, 720)
        tab.command("Browser.setDownloadBehavior", behavior="allow", downloadPath=str(folder))
        tab.open(page.as_uri())
        check(tab.evaluate("document.documentElement.dataset.ready") == "true", f"{name}: the page's script did not end")

    def corner(self):
        """Where the drawing begins in the window."""
        return self.tab.evaluate("(({left, top}) => [left, top])(document.getElementById('canvas').getBoundingClientRect())")

    def mouse(self, kind, x, y, **more):
        left, top = self.corner()
        self.tab.command("Input.dispatchMouseEvent", type=kind, x=left + x, y=top + y, button="left", buttons=0 if kind == "mouseReleased" else 1, **more)

    def click(self, x, y, times=1):
        """Clicks in the drawing."""
        for count in range(1, times + 1):
            self.mouse("mousePressed", x, y, clickCount=count)
            self.mouse("mouseReleased", x, y, clickCount=count)

    def drag(self, start, end):
        """Drags from one place in the drawing to another."""
        self.mouse("mousePressed", *start, clickCount=1)
        for i in range(1, 6):
            self.mouse("mouseMoved", *(a + (b - a) * i / 5 for a, b in zip(start, end)))
        self.mouse("mouseReleased", *end, clickCount=1)

    def touch(self, kind, *points):
        left, top = self.corner()
        self.tab.command("Input.dispatchTouchEvent", type=kind, touchPoints=[{"x": left + x, "y": top + y} for x, y in points])

    def tap(self, x, y, times=1):
        """Taps with a finger."""
        for _ in range(times):
            self.touch("touchStart", (x, y))
            self.touch("touchEnd")

    def key(self, key, ctrl=False, shift=False):
        """Presses a key."""
        code = KEYS.get(key) or ord(key.upper())
        down = {"type": "rawKeyDown"} if ctrl or (key in KEYS and key != "Enter") else {"type": "keyDown", "text": {"Enter": "\r"}.get(key, key)}
        parameters = {"key": key, "windowsVirtualKeyCode": code, "modifiers": (2 if ctrl else 0) + (8 if shift else 0)}
        self.tab.command("Input.dispatchKeyEvent", **down, **parameters)
        self.tab.command("Input.dispatchKeyEvent", type="keyUp", **parameters)

    def write(self, text):
        """Types into the field that has the focus, in place of what is marked there, and Enter."""
        self.tab.command("Input.insertText", text=text)
        self.key("Enter")

    def press(self, key):
        """Clicks on the control with this key or id, as it is seen."""
        find = f"document.querySelector('[data-key=\"{key}\"], #{key.replace(' ', '-')}')"
        x, y = self.tab.evaluate(f"(() => {{ const n = {find}; n.scrollIntoView({{block: 'center'}}); const r = n.getBoundingClientRect();"
                                 " return [r.left + r.width / 2, r.top + r.height / 2]; })()")
        for kind in ("mousePressed", "mouseReleased"):
            self.tab.command("Input.dispatchMouseEvent", type=kind, x=x, y=y, button="left", clickCount=1)

    def handle(self, number):
        """Where the ring of a state is in the drawing."""
        return self.tab.evaluate(f"(() => {{ const c = document.querySelector('[data-handle=\"{number}\"] circle');"
                                 " return [Number(c.getAttribute('cx')), Number(c.getAttribute('cy'))]; })()")

    def text(self):
        return self.tab.evaluate("document.getElementById('text').value")

    def said(self):
        return self.tab.evaluate("document.getElementById('said').textContent")

    def warnings(self):
        return self.tab.evaluate("[...document.querySelectorAll('#warnings li')].map((li) => li.textContent)")

    def save(self, file):
        """Saves by the button; the text of the file that the browser wrote."""
        path = self.folder / file
        path.unlink(missing_ok=True)
        self.press("save")
        deadline = time.monotonic() + 20
        while not path.exists() or path.stat().st_size == 0:
            if time.monotonic() > deadline:
                check(False, f"{self.name}: {file} was not saved: {self.said()}")
                return ""
            time.sleep(0.05)
        return path.read_text()

    def open(self, path):
        """Opens a file by the page's own field for files."""
        node = self.tab.command("Runtime.evaluate", expression="document.getElementById('file')")["result"]["objectId"]
        before = self.said()
        self.tab.command("DOM.setFileInputFiles", files=[str(path)], objectId=node)
        deadline = time.monotonic() + 10
        while self.said() == before and time.monotonic() < deadline:
            time.sleep(0.05)

    def leave(self):
        """Nothing went wrong."""
        shown = self.tab.evaluate("document.getElementById('errors').textContent")
        check(shown == "" and self.tab.wrong() == [], f"{self.name}: {shown} {self.tab.wrong()}")


def draw_three(hand):
    """Three states, two arrows and their values, by the mouse."""
    for name, x, y in (("current", 160, 160), ("stale", 420, 160), ("blank", 420, 380)):
        hand.click(x, y, 2)
        hand.write(name)
    hand.drag(hand.handle(0), (420, 160))
    hand.drag(hand.handle(1), (420, 380))
    hand.press("arrow value 1")
    hand.click(160, 160)
    hand.press("chip 0")
    hand.press("value 1 1")
    hand.click(420, 160)
    hand.press("chip 0")
    hand.press("model-title")
    hand.write("Ada")


def check_student(tab, folder):
    """A student's file is drawn, saved, opened again, and marked."""
    hand = Hand(tab, folder, [COURSE], "student")
    check("blank" not in tab.evaluate("document.getElementById('case').textContent"), "student: the course's model is in the page")
    draw_three(hand)
    saved = hand.save("ada.case")
    check(saved == DRAWN, f"student: saved\n{saved}")
    status, _, said = tool("check", "--course", COURSE, folder / "ada.case")
    check(status == 0, f"student: check says {said}")
    told = {line.replace("`", "") for line in said.splitlines()}
    for warning in hand.warnings():
        check("warning: " + warning.removeprefix("Warning: ").removesuffix(".") in told, f"student: check does not say {warning}")
    status, table, said = tool("mark", COURSE, folder / "ada.case")
    check(status == 0 and "ada" in table, f"student: mark says {said}")
    hand.leave()
    again = Hand(tab, folder, [COURSE], "student-again")
    again.open(folder / "ada.case")
    check(again.text() == DRAWN, f"student: opened again\n{again.text()}")
    check(again.save("ada.case") == DRAWN, "student: saved again")
    again.leave()


def check_undo(tab, folder):
    """Undo and redo by keys and buttons go back to nothing and forth again."""
    hand = Hand(tab, folder, [COURSE], "undo")
    draw_three(hand)
    hand.click(700, 480)
    steps = 0
    while not tab.evaluate("document.getElementById('undo').disabled") and steps < 40:
        hand.key("z", ctrl=True)
        steps += 1
    check(hand.text() == "" and steps == 13, f"undo: {steps} steps back to {hand.text()!r}")
    for _ in range(steps - 1):
        hand.key("y", ctrl=True)
    hand.press("redo")
    check(hand.text() == DRAWN, f"undo: redone\n{hand.text()}")
    hand.leave()


def check_warnings(tab, folder):
    """Warnings come and go while it is drawn."""
    hand = Hand(tab, folder, [COURSE], "warnings")
    check(hand.warnings() == [], "warnings: an empty drawing has none")
    hand.click(160, 160, 2)
    hand.key("Enter")
    check(any("no transition" in w for w in hand.warnings()), f"warnings: {hand.warnings()}")
    check(sum("is never set in the student's model" in w for w in hand.warnings()) == 3, f"warnings: {hand.warnings()}")
    hand.press("initial")
    check(any("has no initial state, so the score compares nothing and is top" in w for w in hand.warnings()), f"warnings: {hand.warnings()}")
    hand.drag(hand.handle(0), (420, 300))
    hand.write("end")
    check(any("state end leads nowhere" in w for w in hand.warnings()), f"warnings: {hand.warnings()}")
    hand.leave()


def check_keys(tab, folder):
    """The same drawing by keys alone, but for the places."""
    hand = Hand(tab, folder, [COURSE], "keys")
    tab.evaluate("document.activeElement.blur()")
    hand.key("n")
    hand.write("one")
    hand.key("n")
    hand.write("two")
    tab.evaluate("document.querySelector('[data-state=\"0\"]').focus()")
    hand.key("a")
    hand.key("Tab")
    hand.key("Enter")
    check(hand.text().endswith("one -> two: yes\n"), f"keys: arrow\n{hand.text()}")
    tab.evaluate("document.querySelector('[data-state=\"1\"]').focus()")
    hand.key("i")
    for _ in range(3):
        hand.key("ArrowDown")
    check("two 380 170" in hand.text() and "initial two: yes" in hand.text(), f"keys: moved\n{hand.text()}")
    hand.key("z", ctrl=True)
    check("two 380 140" in hand.text(), f"keys: moves are undone together\n{hand.text()}")
    hand.key("Delete")
    check("two" not in hand.text(), f"keys: removed\n{hand.text()}")
    hand.leave()


def check_touch(tab, folder):
    """States and an arrow by a finger."""
    hand = Hand(tab, folder, [COURSE], "touch")
    tab.command("Emulation.setTouchEmulationEnabled", enabled=True, maxTouchPoints=2)
    hand.tap(160, 160, 2)
    hand.write("one")
    hand.tap(420, 160, 2)
    hand.write("two")
    start = hand.handle(0)
    hand.touch("touchStart", start)
    for i in range(1, 6):
        hand.touch("touchMove", (start[0] + (420 - start[0]) * i / 5, start[1] + (160 - start[1]) * i / 5))
    hand.touch("touchEnd")
    check(hand.text().endswith("one -> two: yes\n"), f"touch: arrow\n{hand.text()}")
    tab.command("Emulation.setTouchEmulationEnabled", enabled=False)
    hand.leave()


def check_panel(tab, folder):
    """A panel's value by three clicks, with the course's model in the page; the whole case is the tool's."""
    course = ROOT / "examples/panel-of-three.case"
    hand = Hand(tab, folder, ["--with-course", course], "panel")
    tab.evaluate("document.querySelector('[data-arrow=\"1\"]').focus()")
    hand.key("Enter")
    for key in ("arrow value 0 2", "arrow value 1 0", "arrow value 2 1"):
        hand.press(key)
    check(hand.text().startswith("model 1") and "old -> half: yn?\n" in hand.text(), f"panel: three clicks\n{hand.text()}")
    tab.evaluate("document.getElementById('sort').value = 'case'; document.getElementById('sort').dispatchEvent(new Event('change'))")
    saved = hand.save("a-panel-of-three-instructors.case")
    status, _, said = tool("check", folder / "a-panel-of-three-instructors.case")
    check(status == 0, f"panel: check says {said}")
    check(saved.endswith("formula never-partly-updated: nu z. whole & AX z\n") and saved.startswith("# Three instructors"), f"panel: whole case\n{saved}")
    hand.press("tab 1")
    check("cannot be altered" in tab.evaluate("document.getElementById('chosen').textContent"), "panel: the course's model is fixed")
    hand.leave()


def check_free(tab, folder):
    """Without a file: propositions, a lattice, both models, and a whole case that the desk accepts."""
    hand = Hand(tab, folder, [], "free")
    hand.press("new-proposition")
    hand.write("whole")
    hand.click(160, 160, 2)
    hand.write("old")
    hand.drag(hand.handle(0), (200, 120))
    hand.press("tab 1")
    hand.click(160, 160, 2)
    hand.write("new")
    hand.press("chip 0")
    hand.drag(hand.handle(0), (200, 120))
    tab.evaluate("document.getElementById('sort').value = 'case'; document.getElementById('sort').dispatchEvent(new Event('change'))")
    hand.press("lattice-form")
    tab.evaluate("document.getElementById('lattice-form').select()")
    hand.write("power a b")
    saved = hand.save("drawing.case")
    status, _, said = tool("check", folder / "drawing.case")
    check(status == 0, f"free: check says {said} of\n{saved}")
    check("lattice power a b\npropositions whole\n" in saved and "new: whole = {a, b}" in saved, f"free: saved\n{saved}")
    tab.evaluate("document.getElementById('text').closest('details').open = true")
    tab.evaluate("document.getElementById('text').value = 'include \"course.case\"\\nmodel 1\\n  states a b c\\n  a -> b c: {a}\\n'")
    hand.press("read")
    check(hand.said() == 'Opened the text. Its line include "course.case" is left out.', f"free: {hand.said()}")
    check("  a -> b: {a}\n  a -> c: {a}\n" in hand.text() and "model 2\n  states new\n" in hand.text(), f"free: a text is read\n{hand.text()}")
    bad = folder / "bad.case"
    bad.write_text("lattice chain no yes\nmodel 1\n  states a\n  a -> b\n")
    before = hand.text()
    hand.open(bad)
    check(hand.said() == "Nothing was altered, since bad.case cannot be read: line 4: b is no state." and hand.text() == before, f"free: {hand.said()}")
    hand.leave()


def check_sizes(tab, folder, out):
    """At each size, light and dark: no scrolling sideways, and pictures where a folder is named."""
    for name, arguments in (("course", ["--course", COURSE, ROOT / "examples/class/students/umar.case"]),
                            ("panel", ["--with-course", ROOT / "examples/panel-of-three.case"]), ("free", [])):
        hand = Hand(tab, folder, arguments, f"sizes-{name}")
        for width, height in SIZES:
            for dark in (False, True):
                tab.window(width, height, dark)
                tab.open((folder / f"sizes-{name}.html").as_uri())
                tab.evaluate("document.querySelector('[data-state=\"1\"]')?.focus()")
                hand.key("Enter")
                tab.evaluate("new Promise((done) => requestAnimationFrame(() => setTimeout(done, 50)))")
                check(tab.evaluate("document.documentElement.scrollWidth <= window.innerWidth"), f"{name} at {width}x{height}: scrolls sideways")
                if out:
                    tab.picture(out / f"draw-{name}-{width}-{'dark' if dark else 'light'}.png")
        hand.leave()


def check_great(tab, folder):
    """64 states and all their arrows can be opened and saved again."""
    case = ROOT / "examples/greatest-sizes.case"
    hand = Hand(tab, folder, ["--with-course", case], "great")
    check(tab.evaluate("document.querySelectorAll('[data-state]').length") == 64, "great: 64 states")
    path = folder / "great.case"
    path.write_text(hand.text())
    header = "".join(line for line in case.read_text().splitlines(True) if not line.startswith("#")).split("model 1")[0]
    (folder / "great-course.case").write_text(header + "model 2\n  states a\n")
    status, _, said = tool("check", "--course", folder / "great-course.case", path)
    check(status == 0, f"great: check says {said}")
    hand.leave()


def run(tab, folder, out=None):
    """All checks; the failures."""
    if out:
        out.mkdir(parents=True, exist_ok=True)
    for part in (check_student, check_undo, check_warnings, check_keys, check_touch, check_panel, check_free, check_great):
        part(tab, folder)
        print(f"draw, {part.__name__.removeprefix('check_')}: checked")
    check_sizes(tab, folder, out)
    return failures


def main():
    program = browser.found()
    if program is None:
        print("tests/page: no Chromium was found, so nothing was drawn. Debian has it as the package chromium;\n"
              "another program can be named by the variable CHROMIUM.", file=sys.stderr)
        return 3
    if not os.access(TOOL, os.X_OK):
        print(f"tests/page: {TOOL} is missing; build it by `cargo build --release -p koelchair-cli` in rust/.", file=sys.stderr)
        return 3
    tab = browser.Browser(program)
    with tempfile.TemporaryDirectory(prefix="koelchair-drawings-") as place:
        try:
            run(tab, pathlib.Path(place), pathlib.Path(sys.argv[1]) if len(sys.argv) > 1 else None)
        finally:
            tab.close()
    print(f"{len(failures)} failures" if failures else "all drawings are well")
    return 1 if failures else 0


if __name__ == "__main__":
    sys.exit(main())
