"""A headless Chromium, for the tests of pages: it is told what to do over a pipe (DevTools protocol), and needs
neither a port nor a network."""

import base64
import json
import os
import select
import shutil
import subprocess
import tempfile
import time
import urllib.parse

NAMES = ("chromium", "chromium-browser", "google-chrome")
SECONDS = 60


class Broken(Exception):
    """The browser doesn't answer, or says that it can't."""


def browser():
    """The path of a browser that is installed, or None."""
    return next((path for path in map(shutil.which, NAMES) if path), None)


class Browser:
    """A browser with one page; it ends with its `with` block."""

    def __init__(self, path):
        self.room = tempfile.mkdtemp()
        to_read, self.to = os.pipe()
        self.got, to_write = os.pipe()
        words = [path, "--headless=new", "--remote-debugging-pipe", f"--user-data-dir={self.room}", "--disable-gpu"]
        words += ["--no-first-run", "--no-default-browser-check", "--disable-background-networking", "--hide-scrollbars"]
        words += ["--no-sandbox"] if os.geteuid() == 0 else []
        # The browser reads from 3 and writes to 4.
        wrap = 'exec 3<&"$0" 4>&"$1"; shift; exec "$@"'
        self.process = subprocess.Popen(
            ["bash", "-c", wrap, str(to_read), str(to_write), *words, "about:blank"],
            pass_fds=(to_read, to_write),
            stdin=subprocess.DEVNULL,
            stdout=subprocess.DEVNULL,
            stderr=subprocess.DEVNULL,
        )
        os.close(to_read)
        os.close(to_write)
        self.number, self.rest, self.events, self.session = 0, b"", [], None

    def __enter__(self):
        try:
            target = self.ask("Target.createTarget", url="about:blank")["targetId"]
            self.session = self.ask("Target.attachToTarget", targetId=target, flatten=True)["sessionId"]
            for part in ("Page", "Runtime", "Log", "Network"):
                self.ask(f"{part}.enable")
        except Broken:
            self.__exit__()
            raise
        return self

    def __exit__(self, *_):
        try:
            self.session = None
            self.ask("Browser.close")
            self.process.wait(SECONDS)
        except (Broken, subprocess.TimeoutExpired):
            self.process.kill()
            self.process.wait()
        os.close(self.to)
        os.close(self.got)
        shutil.rmtree(self.room, ignore_errors=True)

    def message(self):
        """The next message of the browser."""
        until = time.monotonic() + SECONDS
        while b"\0" not in self.rest:
            ready, _, _ = select.select([self.got], [], [], max(0, until - time.monotonic()))
            more = os.read(self.got, 1 << 20) if ready else b""
            if not more:
                raise Broken("the browser doesn't answer")
            self.rest += more
        first, _, self.rest = self.rest.partition(b"\0")
        return json.loads(first)

    def ask(self, method, **values):
        """Asks for something, and gives the answer."""
        self.number += 1
        asked = {"id": self.number, "method": method, "params": values}
        if self.session:
            asked["sessionId"] = self.session
        text = json.dumps(asked).encode() + b"\0"
        try:
            while text:
                text = text[os.write(self.to, text) :]
        except OSError:
            raise Broken("the browser has ended") from None
        while True:
            it = self.message()
            if it.get("id") == self.number:
                if "error" in it:
                    raise Broken(f"{method}: {it['error'].get('message')}")
                return it["result"]
            self.events.append(it)

    def go(self, address):
        """Goes to an address, and waits until it is loaded."""
        self.events.clear()
        self.ask("Page.navigate", url=address)
        while not any(it.get("method") == "Page.loadEventFired" for it in self.events):
            self.events.append(self.message())

    def open(self, path, fragment=""):
        """Opens a file anew."""
        self.go("about:blank")
        self.go(f"file://{urllib.parse.quote(os.path.abspath(path))}{fragment}")

    def size(self, width, height, scale=1):
        """Sets the size of the window."""
        self.ask(
            "Emulation.setDeviceMetricsOverride", width=width, height=height, deviceScaleFactor=scale, mobile=False
        )

    def looks(self, scheme="light", medium="screen"):
        """Sets the colour scheme and the medium."""
        features = [{"name": "prefers-color-scheme", "value": scheme}]
        self.ask("Emulation.setEmulatedMedia", media=medium, features=features)

    def scripts(self, run):
        """Whether scripts of pages run."""
        self.ask("Emulation.setScriptExecutionDisabled", value=not run)

    def key(self, name):
        """Presses a key."""
        codes = {"ArrowDown": 40, "ArrowUp": 38, "Home": 36, "End": 35, "PageDown": 34, "PageUp": 33}
        more = {"windowsVirtualKeyCode": codes.get(name, ord(name.upper()[0]))}
        more.update({"text": name} if len(name) == 1 else {})
        self.ask("Input.dispatchKeyEvent", type="keyDown", key=name, **more)
        self.ask("Input.dispatchKeyEvent", type="keyUp", key=name, **more)

    def click(self, x, y):
        """Clicks at a point of the window."""
        for kind in ("mousePressed", "mouseReleased"):
            self.ask("Input.dispatchMouseEvent", type=kind, x=x, y=y, button="left", clickCount=1)

    def value(self, expression):
        """The value of an expression in the page."""
        it = self.ask("Runtime.evaluate", expression=expression, returnByValue=True)
        if "exceptionDetails" in it:
            raise Broken(f"{expression}: {it['exceptionDetails'].get('text')}")
        return it["result"].get("value")

    def errors(self):
        """What was written to the console, and which exceptions came, since the page was opened."""
        self.value("0")
        said = []
        for it in self.events:
            method, values = it.get("method"), it.get("params", {})
            if method == "Runtime.exceptionThrown":
                said.append(values["exceptionDetails"].get("exception", {}).get("description", "an exception"))
            if method == "Runtime.consoleAPICalled":
                said.append(" ".join(str(one.get("value")) for one in values["args"]))
            if method == "Log.entryAdded":
                said.append(values["entry"]["text"])
        return said

    def requests(self):
        """The addresses that were asked for since the page was opened."""
        self.value("0")
        return [
            it["params"]["request"]["url"] for it in self.events if it.get("method") == "Network.requestWillBeSent"
        ]

    def picture(self, path):
        """Writes a picture of the window to a PNG file."""
        data = self.ask("Page.captureScreenshot", format="png")["data"]
        with open(path, "wb") as file:
            file.write(base64.b64decode(data))

    def paper(self, path):
        """Writes what is printed to a PDF file."""
        data = self.ask("Page.printToPDF", landscape=True, printBackground=True)["data"]
        with open(path, "wb") as file:
            file.write(base64.b64decode(data))
