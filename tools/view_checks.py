"""What the checks of tools/view share: what was compared, calls of the tools, and the elements of a page."""

import html.parser
import os
import re
import subprocess
import sys

sys.dont_write_bytecode = True
TOP = os.path.dirname(os.path.dirname(os.path.abspath(__file__)))
VIEW = f"{TOP}/tools/view"
sys.path.insert(0, VIEW)

import texts  # noqa: E402
from calls import read  # noqa: E402

SECONDS = 600
VOID = {"meta", "br", "hr", "img", "input", "link"}


class Checks:
    """What was compared, and what differs."""

    def __init__(self):
        self.count, self.differences = 0, []

    def same(self, what, got, wanted):
        """Compares two values."""
        self.count += 1
        if got != wanted:
            self.differences.append(f"{what}: {shorter(got)}, where {shorter(wanted)} is expected")

    def true(self, what, got):
        """Checks that something holds."""
        self.same(what, bool(got), True)

    def refuses(self, what, reader, text, line):
        """Checks that a text is refused at a line."""
        self.count += 1
        try:
            got = reader(text)
        except texts.Unknown as it:
            if it.line != line:
                self.differences.append(f"{what}: refused at line {it.line}, where {line} is expected: {it}")
        else:
            self.differences.append(f"{what}: read as {shorter(got)}, where line {line} is wrong")


def shorter(value):
    """A value as it is shown."""
    text = repr(value)
    return text if len(text) < 120 else text[:117] + "..."


def tool(name, *words):
    """A tool's status, standard output and standard error."""
    it = subprocess.run(
        [f"{VIEW}/{name}", *words], stdin=subprocess.DEVNULL, capture_output=True, timeout=SECONDS, check=False
    )
    return it.returncode, it.stdout.decode(), it.stderr.decode()


def text_of(path):
    """The text of a file."""
    return read(path).decode("utf-8", errors="replace")


def short(path):
    """A file's name for the report."""
    return os.path.relpath(path, TOP)


class Elements(html.parser.HTMLParser):
    """The elements of a page, which has to be well formed, and what it asks for outside."""

    def __init__(self, text):
        super().__init__(convert_charrefs=True)
        self.open, self.faults, self.outside = [], [], []
        self.feed(text)
        self.close()
        self.faults += [f"<{it}> is never closed" for it, _ in self.open]

    def begun(self, name, had):
        """An element begins."""

    def said(self, names, data):
        """Text stands in elements of these names."""

    def handle_starttag(self, name, attributes):
        had = dict(attributes)
        self.outside += [f"{key}={it}" for key, it in attributes if key in ("src", "href", "style") or key.startswith("on")]
        self.begun(name, had)
        if name not in VOID:
            self.open.append((name, had))

    def classes(self):
        """The classes of the open elements."""
        return {it for _, had in self.open for it in (had.get("class") or "").split()}

    def handle_endtag(self, name):
        if not self.open or self.open.pop()[0] != name:
            self.faults.append(f"</{name}> closes another element")

    def handle_data(self, data):
        names = [name for name, _ in self.open]
        if "style" in names and re.search(r"url\(|@import", data):
            self.outside.append("a resource in the style")
        if any(had.get("id") == "data" for _, had in self.open) and re.search("[<>&]", data):
            self.outside.append("what may end the data")
        if "script" in names and re.search(r"https?:|fetch\(|import\(|XMLHttp", data):
            self.outside.append("a resource in the script")
        self.said(names, data)


class Page(Elements):
    """The elements of a page of a run: its rows and cells, its source, and what it says of owners are kept."""

    def __init__(self, text):
        self.rows, self.source, self.says = [], [], None
        super().__init__(text)

    def begun(self, name, had):
        """A row, a cell, or a line of the source."""
        if name == "tr":
            self.rows.append((had, []))
        if name in ("td", "th"):
            self.rows[-1][1].append((name, had, []))
        if name == "div" and "source" in self.classes():
            self.source.append("")
        if name == "p" and had.get("class") == "says":
            self.says = ""

    def said(self, names, data):
        """What stands in a cell or in a line of the source."""
        if "td" in names or "th" in names:
            self.rows[-1][1][-1][2].append(data)
        if "code" in names and "source" in self.classes():
            self.source[-1] += data
        if "says" in self.classes():
            self.says += data


def check_lines(checks, name, path, source):
    """Compares the source of a page, line by line, with a file."""
    lines = [it.rstrip("\r") for it in read(path).decode("utf-8", errors="replace").split("\n")]
    checks.same(f"{name}: source", len(source), len(lines) - (lines[-1] == ""))
    plain = [(a, b) for a, b in zip(source, lines) if b.isprintable() and "\ufffd" not in b]
    checks.same(f"{name}: lines of the source", [a for a, _ in plain], [b for _, b in plain])
