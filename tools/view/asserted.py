"""The assertions of a program's text, and its region types, with the place and the bytes of each part."""

from dataclasses import dataclass, field

from tokens import Tokens, tokens_of

# What an atom's amount may be behind.
AMOUNTS = ("src", "tok", "at", "from")


@dataclass
class Item:
    """An item of an assertion: its place, its first byte and the one behind it, its kind and what that needs.

    `comparison`: sign, left, right; `cell`: address, slot; `fact`: type, region, slots, the state's slot; `atom`: region,
    kind, guard, slot; `conditional`: comparison, items, other items; `true` and `false`. A slot is None for `_`."""

    place: tuple
    start: int
    end: int
    kind: str
    parts: tuple


@dataclass
class Case:
    """A case of a region type: its state with its text's bytes, its conditions, and its items with their bytes."""

    place: tuple
    start: int
    end: int
    state: list
    conditions: list
    items: list
    state_text: str
    conditions_text: str
    items_text: str


@dataclass
class Action:
    """An action of a region type: its guards, its source and target, its conditions, and the byte before its end."""

    place: tuple
    start: int
    end: int
    guards: list
    source: list
    target: list
    conditions: list
    guards_text: str
    source_text: str
    target_text: str
    conditions_text: str


@dataclass
class Region:
    """A region type: its parameters, the first of which is the region, its guards as they stand, its cases and actions."""

    name: str
    place: tuple
    start: int
    end: int = 0
    parameters: list = field(default_factory=list)
    guards: str = ""
    cases: list = field(default_factory=list)
    actions: list = field(default_factory=list)


class Assertions(Tokens):
    """Reads assertions and region types."""

    def begin(self):
        """The first byte of the next token."""
        return self.tokens[self.at].at

    def ended(self):
        """The byte behind the token that was taken last."""
        return self.tokens[self.at - 1].end

    def since(self, first):
        """The text from this byte to the token that was taken last, on one line."""
        whole = self.text[first : self.ended()]
        return whole if "\n" not in whole else joined([it.text for it in tokens_of(whole)[:-1]])

    def slot(self):
        """A term, or None for a wildcard."""
        if self.ahead() == "_":
            self.take()
            return None
        return self.term()

    def amount(self):
        """A slot in brackets."""
        self.take("[")
        slot = self.slot()
        self.take("]")
        return slot

    def atom(self):
        """An atom: its kind, its guard and its slot, which is absent for a unique one."""
        if self.ahead() in AMOUNTS and self.ahead() in self.keywords:
            kind = self.take()
            return kind, self.name(), self.amount()
        guard = self.name()
        return ("share", guard, self.amount()) if self.ahead() == "[" else ("", guard, None)

    def atoms(self):
        """Atoms, perhaps in parentheses."""
        wrapped = self.ahead() == "("
        if wrapped:
            self.take()
        atoms = self.listed(self.atom, "*")
        if wrapped:
            self.take(")")
        return atoms

    def assertion(self):
        """The items of an assertion."""
        items = self.listed(self.item, "&*&")
        return [it for some in items for it in some]

    def fact(self):
        """A fact on a region."""
        kind = self.name()
        self.take("(")
        region, slots = self.name(), []
        while self.ahead() == ",":
            self.take()
            slots.append(self.slot())
        self.take(";")
        state = self.slot()
        self.take(")")
        return kind, region, slots, state

    def side(self):
        """The items of a side of a conditional."""
        self.take("{")
        items = self.assertion()
        self.take("}")
        return items

    def pure(self):
        """A cell, a comparison or a conditional: its kind and parts."""
        left = self.term()
        if self.ahead() == "|->":
            self.take()
            return "cell", (left, self.slot())
        comparison = self.comparison_of(left)
        if self.ahead() != "?":
            return "comparison", comparison
        self.take()
        items = self.side()
        self.take(":")
        return "conditional", (comparison, items, self.side())

    def item(self):
        """An item, as a list: one for each of its atoms."""
        place, start = self.place(), self.begin()

        def made(kind, parts):
            return Item(place, start, self.ended(), kind, parts)

        if self.ahead() in ("true", "false"):
            return [made(self.take(), ())]
        if self.is_name() and self.ahead(1) == "(":
            return [made("fact", self.fact())]
        if self.is_name() and self.ahead(1) == "@":
            region = self.name()
            self.take("@")
            atoms = self.atoms()
            return [made("atom", (region, *it)) for it in atoms]
        kind, parts = self.pure()
        return [made(kind, parts)]

    # ---- region types

    def conditions(self):
        """The comparisons behind `when`, and their text."""
        if self.ahead() != "when":
            return [], ""
        self.take()
        first = self.begin()
        found = self.listed(self.comparison)
        return found, self.since(first)

    def state(self):
        """A term with its text."""
        first = self.begin()
        term = self.term()
        return term, self.since(first)

    def case(self):
        """A case."""
        place, start = self.place(), self.begin()
        state, state_text = self.state()
        conditions, conditions_text = self.conditions()
        self.take(":")
        first = self.begin()
        items = self.assertion()
        items_text, end = self.since(first), self.ended()
        self.take(";")
        return Case(place, start, end, state, conditions, items, state_text, conditions_text, items_text)

    def action(self):
        """An action."""
        place, start = self.place(), self.begin()
        guards = self.atoms()
        guards_text = self.since(start)
        self.take(":")
        source, source_text = self.state()
        self.take("~>")
        target, target_text = self.state()
        conditions, conditions_text = self.conditions()
        end = self.ended()
        self.take(";")
        texts = guards_text, source_text, target_text, conditions_text
        return Action(place, start, end, guards, source, target, conditions, *texts)

    def block_of(self, word, one):
        """A word, and then these in braces."""
        self.take(word)
        self.take("{")
        found = []
        while self.ahead() != "}":
            found.append(one())
        self.take("}")
        return found

    def region(self):
        """A region type."""
        start, _ = self.begin(), self.take("region")
        region = Region(None, self.place(), start)
        region.name = self.name()
        self.take("(")
        region.parameters = self.listed(self.name)
        self.take(")")
        self.take("{")
        self.take("guards")
        first = self.begin()
        while self.ahead() != ";":
            self.take()
        region.guards = self.since(first)
        self.take(";")
        region.cases = self.block_of("interpretation", self.case)
        region.actions = self.block_of("actions", self.action)
        self.take("}")
        region.end = self.ended()
        return region


def joined(words):
    """Tokens as a line: with a space between two, except where none is usual."""
    line = ""
    for word in words:
        tight = not line or line[-1] in "([@" or word in ",;)]@" or (word in "([" and line[-1].isalnum())
        line += word if tight else f" {word}"
    return line


def names_in(term):
    """The names of a term, in the order of its text."""
    if isinstance(term, int):
        return []
    if isinstance(term, str):
        return [term]
    return [name for _, factors in term for it in factors for name in names_in(it)]


def sole_name(term):
    """The name that a term is, or None."""
    while isinstance(term, list) and len(term) == 1 and term[0][0] == 1 and len(term[0][1]) == 1:
        term = term[0][1][0]
    return term if isinstance(term, str) else None


def slots_of(item):
    """The names and terms of an item, in the order of its text, those of its sides left out."""
    if item.kind == "comparison":
        return list(item.parts[1:])
    if item.kind == "cell":
        return list(item.parts)
    if item.kind == "fact":
        return [item.parts[1], *item.parts[2], item.parts[3]]
    if item.kind == "atom":
        return [item.parts[0], item.parts[3]]
    return list(item.parts[0][1:]) if item.kind == "conditional" else []


def names_of(items):
    """The names of items, each once, in the order of the text."""
    names = []
    for item in items:
        names += [name for it in slots_of(item) if it is not None for name in names_in(it)]
        if item.kind == "conditional":
            names += names_of(item.parts[1]) + names_of(item.parts[2])
    return list(dict.fromkeys(names))


def item_at(items, place):
    """The item that stands at a place, those of sides among them, or None."""
    for item in items:
        if item.place == place:
            return item
        if item.kind == "conditional":
            found = item_at(item.parts[1] + item.parts[2], place)
            if found:
                return found
    return None
