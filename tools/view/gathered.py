"""All that a page of a proof shows: for each statement the states there, and the rules of all trees.

Where all is proved one derivation says it. Else each unit has its own, of a text that leaves of the program what the
unit needs, and of an open function with what `stuck` cuts off."""

from dataclasses import dataclass, field

from edited import Edited, Lacking, alone, alone_type
from states import readable
from stopped import wanted_at

# More states than so many are not shown.
MOST = 4000


class TooMany(Exception):
    """There are too many states for a page."""


@dataclass
class Here:
    """A state at a statement: its number among all nodes, its unit, and what is known there, or None without an outline."""

    node: int
    unit: tuple
    state: object


@dataclass
class Gathered:
    """States by place, the nodes of all units, each a parent's number, a place and what the rule says, and the trees: unit,
    what of, and its nodes' numbers; and what can't be shown."""

    states: dict = field(default_factory=dict)
    nodes: list = field(default_factory=list)
    trees: list = field(default_factory=list)
    notes: list = field(default_factory=list)
    impossible: dict = field(default_factory=dict)
    count: int = 0
    lacking: str = ""


class Gatherer:
    """Gathers what a page shows."""

    def __init__(self, caper, program, verdicts, stucks):
        self.caper, self.program, self.verdicts = caper, program, verdicts
        self.stucks = {it.unit: it for it in stucks}
        self.found, self.wanted = Gathered(), wanted_of(stucks)

    def trees(self, edits):
        """The trees of a changed text, and the text."""
        edited = Edited(self.program.text, edits)
        if not self.found.lacking:
            try:
                return self.caper.trees(edited.text), edited
            except Lacking as it:
                self.found.lacking = f"{it}, so no states are shown"
                self.found.notes.append(self.found.lacking)
        return self.caper.trees(edited.text, False), edited

    def edits(self, unit, verdict):
        """The edits that leave a unit alone, so that it is proved, or None where there are none."""
        if verdict != "proved":
            return self.stucks[unit].edits if unit in self.stucks else None
        kind, name = unit
        if kind == "region":
            return alone_type(self.program, self.program.regions[name])
        return alone(self.program, self.program.functions[name])

    def gather(self):
        """Gathers all units."""
        units = [((kind, name), verdict) for kind, name, verdict in self.verdicts.units]
        if all(verdict == "proved" for _, verdict in units) and not self.verdicts.empty:
            trees, edited = self.trees([])
            for unit, _ in units:
                self.add(trees, edited, unit)
            return self.found
        for unit, verdict in units:
            edits = self.edits(unit, verdict)
            trees, edited = (None, None) if edits is None else self.trees(edits)
            if trees is None:
                why = f"it is {verdict}" if verdict != "proved" else "what it calls or speaks of is not proved, or nothing meets it"
                self.found.notes.append(f"no states of {unit[0]} {unit[1]}: {why}")
            else:
                self.add(trees, edited, unit)
        return self.found

    def add(self, trees, edited, unit):
        """Adds the nodes of a unit."""
        numbers, firsts = {}, {}
        for number, node in enumerate(trees.nodes):
            tree = trees.trees[node.tree]
            if tree.unit != unit or (tree.loop is not None and edited.is_put(tree.loop.start)):
                continue
            numbers[number] = len(self.found.nodes)
            firsts.setdefault(node.tree, []).append(numbers[number])
            self.found.nodes.append((numbers.get(node.parent, -1), self.place(edited, node), rule_text(node)))
            if node.stands:
                self.add_state(trees, edited, node, unit, numbers[number])
        for number, tree in enumerate(trees.trees):
            if number in firsts:
                self.found.trees.append((unit, tree_text(self.program, edited, tree), firsts[number]))

    def place(self, edited, node):
        """The place of a node's statement in the program, or None."""
        return edited.place(node.statement.place) if node.statement is not None else None

    def add_state(self, trees, edited, node, unit, number):
        """Adds the state of a node at its statement."""
        place, state = self.place(edited, node), None
        if node.state is not None:
            self.found.count += 1
            if self.found.count > MOST:
                raise TooMany(f"a page has at most {MOST} states, and these are more")
            state = readable(trees, node, self.wanted.get(place))
            if state.impossible:
                self.found.impossible[place] = self.found.impossible.get(place, 0) + 1
                return
        self.found.states.setdefault(place, []).append(Here(number, unit, state))


def wanted_of(stucks):
    """What statements that lack something want of a state by themselves, by place."""
    return {stop.open.statement: wanted_at(stop) for stuck in stucks for stop in stuck.stops}


def rule_text(node):
    """What a node says: on which side of its parent it is, its rule, and what that speaks of."""
    side = f"{node.side}: " if node.side else ""
    return f"{side}{node.rule}{' ' if node.about else ''}{' '.join(node.about.split())}"


def tree_text(program, edited, tree):
    """What a tree is of."""
    if tree.loop is None:
        return tree.of
    line, column = edited.place(tree.loop.place)
    return f"{tree.of}, {line}:{column}"
