"""The text of a program: its region types, and its functions with their contracts, statements and places.

These are both versions of the language (docs/LANGUAGE.md, "Texts"): a text of the second one begins with `caper 2;`.
A text that caper takes is read; what isn't known here is refused by `Strange`, with its place. Columns count bytes, so
a text is looked at byte by byte."""

from dataclasses import dataclass, field

from asserted import Assertions, names_of
from tokens import Strange


@dataclass
class Statement:
    """A statement: its place, its kind with what that needs, its head by pieces of lines (line, from, to), and its
    first byte. A loop has the items of its invariant, the bytes of that clause, and those of its block's braces; an
    assertion the place of its comparison, its first byte, and the one behind it."""

    place: tuple
    kind: str
    parts: tuple
    head: list
    start: int
    invariant: list = field(default_factory=list)
    clause: tuple = (0, 0)
    block: tuple = (0, 0)
    asserts: tuple = None


@dataclass
class Function:
    """A function: its parameters, the destinations of its body, and the body with the return at its end; the items of
    its contract with their texts, its first byte and the one behind it, and the bytes behind and before its braces."""

    name: str
    parameters: list
    locals: list = field(default_factory=list)
    body: list = field(default_factory=list)
    requires: list = field(default_factory=list)
    ensures: list = field(default_factory=list)
    requires_text: str = ""
    ensures_text: str = ""
    start: int = 0
    end: int = 0
    body_start: int = 0
    body_end: int = 0

    def statements(self):
        """All statements, in the order of the text."""
        yield from walk(self.body)

    def loops(self):
        """The loops, in the order of the text."""
        return [it for it in self.statements() if it.kind == "while"]

    def fixed(self):
        """The names that `requires` brings in."""
        return [it for it in names_of(self.requires) if it not in self.parameters]


@dataclass
class Program:
    """The functions and region types of a text, of each name the first, its lines as they are shown, and the text."""

    functions: dict
    lines: list
    regions: dict
    text: str

    def words_of(self, statement):
        """A statement's head as one line."""
        return " ".join(self.lines[line - 1][start - 1 : end - 1].strip() for line, start, end in statement.head)

    def statements(self):
        """All statements, in the order of the text."""
        for function in self.functions.values():
            yield from function.statements()

    def pieces(self, start, end):
        """The pieces of lines between two bytes, without the blanks round them."""
        pieces, line, column = [], self.text.count("\n", 0, start) + 1, start - self.text.rfind("\n", 0, start)
        for part in self.text[start:end].split("\n"):
            if part.strip():
                pieces.append((line, column + len(part) - len(part.lstrip()), column + len(part.rstrip())))
            line, column = line + 1, 1
        return pieces


def walk(block):
    """All statements of a block, in the order of the text."""
    for it in block:
        yield it
        for part in it.parts:
            if isinstance(part, list) and part and isinstance(part[0], Statement):
                yield from walk(part)


class Reader(Assertions):
    """Reads functions."""

    def __init__(self, text):
        super().__init__(text)
        self.destinations = []

    def block(self):
        """The statements of a block, up to its last brace, which stays."""
        self.take("{")
        statements = []
        while self.ahead() != "}":
            statements.append(self.statement())
        return statements

    def inner(self):
        """A whole block."""
        block = self.block()
        self.take("}")
        return block

    def value(self):
        """What is put into a local: the kind of the statement, and its parts."""
        if self.ahead() == "[":
            self.take()
            address = self.term()
            self.take("]")
            return "read", (address,)
        if self.ahead() == "alloc":
            self.take()
            self.take("(")
            count = self.number()
            self.take(")")
            return "alloc", (count,)
        if self.ahead() == "CAS":
            self.take()
            place, terms = self.place(), self.arguments()
            if len(terms) != 3:
                raise Strange(place, "CAS has three terms")
            return "cas", tuple(terms)
        if self.ahead() == "FAA" and "FAA" in self.keywords:
            self.take()
            place, terms = self.place(), self.arguments()
            if len(terms) != 2:
                raise Strange(place, "FAA has two terms")
            return "faa", tuple(terms)
        if self.ahead(1) == "(" and self.is_name():
            return "call", (self.name(), self.arguments())
        return "set", (self.term(),)

    def simple(self):
        """A statement that ends with a semicolon: its kind and parts."""
        if self.ahead() == "[":
            self.take()
            address = self.term()
            self.take("]")
            self.take(":=")
            return "write", (address, self.term())
        if self.ahead() == "fork":
            self.take()
            return "fork", (self.name(), self.arguments())
        if self.ahead() == "assert":
            self.take()
            return "assert", (self.comparison(),)
        if self.ahead() == "return":
            self.take()
            return "return", ([(1, [0])] if self.ahead() == ";" else self.term(),)
        if self.ahead() == "dispose" and "dispose" in self.keywords:
            self.take()
            place, terms = self.place(), self.arguments()
            if len(terms) != 1:
                raise Strange(place, "dispose has one term")
            return "dispose", (terms[0],)
        name = self.name()
        if self.ahead() == "(":
            return "call", (None, name, self.arguments())
        self.take(":=")
        if name not in self.destinations:
            self.destinations.append(name)
        kind, parts = self.value()
        return kind, (name, *parts)

    def statement(self):
        """A statement."""
        first, place, start, kind = self.at, self.place(), self.begin(), self.ahead()
        if kind not in ("if", "while"):
            second = self.tokens[self.at + 1]
            kind, parts = self.simple()
            asserts = (second.line, second.column), second.at, self.ended()
            self.take(";")
            return Statement(place, kind, parts, self.head_from(first), start, asserts=asserts)
        self.take()
        self.take("(")
        condition = self.comparison()
        self.take(")")
        head, invariant, clause = self.head_from(first), [], self.ended()
        if kind == "while":
            invariant, _ = self.clause("invariant")
        clause, brace = (clause, self.ended()), self.begin()
        block, last, other = self.inner(), self.ended() - 1, []
        if kind == "if" and self.ahead() == "else":
            self.take()
            other = self.inner()
        return Statement(place, kind, (condition, block, other), head, start, invariant, clause, (brace, last))

    def clause(self, word):
        """The items behind a word, and their text, where it stands here."""
        if self.ahead() != word:
            return [], ""
        self.take()
        first = self.begin()
        items = self.assertion()
        text = self.since(first)
        self.take(";")
        return items, text

    def function(self):
        """A function."""
        start, _ = self.begin(), self.take("function")
        function = Function(self.name(), [], start=start)
        self.take("(")
        if self.ahead() != ")":
            function.parameters = self.listed(self.name)
        self.take(")")
        function.requires, function.requires_text = self.clause("requires")
        function.ensures, function.ensures_text = self.clause("ensures")
        self.destinations, function.body_start = [], self.tokens[self.at].end
        body, first, place, function.body_end = self.block(), self.at, self.place(), self.begin()
        self.take("}")
        last = Statement(place, "return", ([(1, [0])],), self.head_from(first), function.body_end)
        function.body = [*body, last]
        function.locals = [it for it in self.destinations if it not in function.parameters]
        function.end = self.ended()
        return function


def shown(line):
    """A line's bytes as they are shown; bytes that can't be shown are marked."""
    text = line.encode("latin-1").decode("utf-8", errors="replace").rstrip("\r")
    return "".join(it if it == "\t" or it.isprintable() else "\ufffd" for it in text)


def program_of(data):
    """The program that bytes spell."""
    text = data.decode("latin-1")
    reader, functions, regions = Reader(text), {}, {}
    reader.version()
    while reader.ahead():
        if reader.ahead() == "region":
            region = reader.region()
            regions.setdefault(region.name, region)
        else:
            function = reader.function()
            functions.setdefault(function.name, function)
    if "main" not in functions:
        raise Strange((1, 1), "no main")
    return Program(functions, [shown(it) for it in text.split("\n")], regions, text)
