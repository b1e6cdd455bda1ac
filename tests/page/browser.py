"""A headless Chromium that takes commands of the DevTools protocol through a pair of pipes. Standard library only."""

import base64
import json
import os
import select
import shutil
import subprocess
import tempfile
import time

NAMES = ("chromium", "chromium-browser", "google-chrome", "google-chrome-stable")


def found():
    """The browser's program: the variable CHROMIUM, or the first of the usual names; None if there is none."""
    return shutil.which(os.environ["CHROMIUM"]) if "CHROMIUM" in os.environ else next(filter(None, map(shutil.which, NAMES)), None)


class Browser:
    """One browser with one tab. Events are kept in `events`."""

    def __init__(self, program):
        self.folder = tempfile.TemporaryDirectory(prefix="koelchair-page-", ignore_cleanup_errors=True)
        to_browser, self.send_end = os.pipe()
        self.receive_end, from_browser = os.pipe()
        options = ["--headless", "--no-sandbox", "--disable-gpu", "--hide-scrollbars", "--no-first-run", "--disable-background-networking",
                   "--disable-component-update", "--disable-sync", "--remote-debugging-pipe", f"--user-data-dir={self.folder.name}"]
        # The browser reads commands from descriptor 3 and writes answers to descriptor 4.
        redirect = f'exec "$@" 3<&{to_browser} 4>&{from_browser}'
        self.process = subprocess.Popen(["sh", "-c", redirect, "sh", program, *options, "about:blank"],
                                        pass_fds=(to_browser, from_browser), stdout=subprocess.DEVNULL, stderr=subprocess.DEVNULL)
        os.close(to_browser)
        os.close(from_browser)
        self.number, self.received, self.events, self.session = 0, b"", [], None
        self.attach()

    def attach(self):
        """Takes the first tab and asks for its events."""
        pages = []
        while not pages:
            pages = [t for t in self.command("Target.getTargets")["targetInfos"] if t["type"] == "page"]
        answer = self.command("Target.attachToTarget", targetId=pages[0]["targetId"], flatten=True)
        self.session = answer["sessionId"]
        for domain in ("Page", "Runtime", "Log", "Network"):
            self.command(f"{domain}.enable")

    def command(self, method, **parameters):
        """Sends a command and waits for its answer."""
        self.number += 1
        message = {"id": self.number, "method": method, "params": parameters}
        if self.session:
            message["sessionId"] = self.session
        os.write(self.send_end, json.dumps(message).encode() + b"\0")
        deadline = time.monotonic() + 120
        while True:
            answer = self.receive(deadline)
            if answer.get("id") == self.number:
                if "error" in answer:
                    raise RuntimeError(f"{method}: {answer['error']}")
                return answer["result"]
            self.events.append(answer)

    def receive(self, deadline):
        """The next message of the browser."""
        while b"\0" not in self.received:
            ready, _, _ = select.select([self.receive_end], [], [], max(0, deadline - time.monotonic()))
            chunk = os.read(self.receive_end, 1 << 20) if ready else b""
            if not chunk:
                raise RuntimeError("the browser does not answer")
            self.received += chunk
        message, self.received = self.received.split(b"\0", 1)
        return json.loads(message)

    def evaluate(self, script):
        """The value of an expression of JavaScript on the page."""
        answer = self.command("Runtime.evaluate", expression=script, returnByValue=True, awaitPromise=True)
        if "exceptionDetails" in answer:
            raise RuntimeError(f"{script[:80]}: {answer['exceptionDetails']}")
        return answer["result"].get("value")

    def open(self, address):
        """Opens an address afresh and waits until the page's script has run."""
        self.command("Page.navigate", url="about:blank")
        self.events.clear()
        self.command("Page.navigate", url=address)
        deadline = time.monotonic() + 120
        while not self.evaluate("document.readyState === 'complete'"):
            if time.monotonic() > deadline:
                raise RuntimeError(f"{address} does not load")
            time.sleep(0.05)

    def window(self, width, height, dark=False):
        """Sets the size of the window and what the system prefers."""
        self.command("Emulation.setDeviceMetricsOverride", width=width, height=height, deviceScaleFactor=1, mobile=False)
        value = "dark" if dark else "light"
        self.command("Emulation.setEmulatedMedia", media="", features=[{"name": "prefers-color-scheme", "value": value}])

    def paper(self):
        """Shows the page as on paper."""
        self.command("Emulation.setEmulatedMedia", media="print")

    def click(self, selector):
        """Presses the mouse in the middle of the first element that a selector finds."""
        middle = ("((n) => { const b = n.getBoundingClientRect(); return [b.left + b.width / 2, b.top + b.height / 2]; })"
                  f"(document.querySelector({json.dumps(selector)}))")
        x, y = self.evaluate(middle)
        self.press(x, y)

    def press(self, x, y):
        """Presses the mouse at a place of the window."""
        for kind in ("mouseMoved", "mousePressed", "mouseReleased"):
            self.command("Input.dispatchMouseEvent", type=kind, x=x, y=y, button="none" if kind == "mouseMoved" else "left", clickCount=1)

    def drag(self, start, end):
        """Drags the mouse from one place of the window to another."""
        steps = (("mouseMoved", start, 0), ("mousePressed", start, 1), ("mouseMoved", end, 1), ("mouseReleased", end, 0))
        for kind, (x, y), held in steps:
            button = "left" if held or kind == "mouseReleased" else "none"
            self.command("Input.dispatchMouseEvent", type=kind, x=x, y=y, button=button, buttons=held, clickCount=1)

    def key(self, key, shift=False):
        """Presses a key."""
        text = {"Enter": "\r", " ": " "}.get(key)
        codes = {"Enter": 13, " ": 32, "Tab": 9, "End": 35, "PageUp": 33, "PageDown": 34, "Home": 36, "ArrowLeft": 37, "ArrowUp": 38, "ArrowRight": 39, "ArrowDown": 40}
        parameters = {"key": key, "code": "Space" if key == " " else key, "windowsVirtualKeyCode": codes[key], "modifiers": 8 if shift else 0}
        down = {"type": "keyDown", "text": text} if text else {"type": "rawKeyDown"}
        self.command("Input.dispatchKeyEvent", **down, **parameters)
        self.command("Input.dispatchKeyEvent", type="keyUp", **parameters)

    def picture(self, file, whole=False):
        """Writes a picture of the window, or of the whole page."""
        answer = self.command("Page.captureScreenshot", format="png", captureBeyondViewport=whole)
        with open(file, "wb") as out:
            out.write(base64.b64decode(answer["data"]))

    def wrong(self):
        """What went wrong on the page since it was opened: exceptions, errors in the log, requests other than for the page."""
        said = []
        for event in self.events:
            method, parameters = event.get("method"), event.get("params", {})
            if method == "Runtime.exceptionThrown":
                said.append(f"exception: {parameters['exceptionDetails']}")
            elif method == "Log.entryAdded" and parameters["entry"]["level"] in ("error", "warning"):
                said.append(f"log: {parameters['entry']['text']}")
            elif method == "Runtime.consoleAPICalled" and parameters["type"] in ("error", "warning", "assert"):
                said.append(f"console: {parameters['args']}")
            elif method == "Network.requestWillBeSent" and not parameters["request"]["url"].startswith(("file:", "about:")):
                said.append(f"request: {parameters['request']['url']}")
        return said

    def close(self):
        """Ends the browser."""
        try:
            self.session = None
            self.command("Browser.close")
        except (RuntimeError, OSError):
            self.process.terminate()
        self.process.wait(timeout=30)
        self.folder.cleanup()
