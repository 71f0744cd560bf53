"""Where the search for a proof stopped, for each unit that is open: what was lacking, and the states there.

A unit's function alone is left of the program, with the contracts of what it calls. In front of the statement at which
the search stopped comes a loop without end, behind which nothing is left to be shown. Where the rest is proved then,
`derive` writes a proof, and `outline` says what holds at that loop, which is what holds at the statement. Where something
else is open yet, it is cut off in the same way. An assertion that isn't stable is looked at with its actions forbidden,
all but one. So all that is said here comes from caper's own answers, and nothing is searched for anew."""

import re
from dataclasses import dataclass, field

import texts
from asserted import sole_name
from edited import CUT, Edited, Lacking, alone, facts_of, types_of
from proof import action_text
from rows import linear_of, linear_text, number
from states import readable
from words import asked_of, said, section_of, stands_of

# A function is cut off at so many places at most.
MOST = 16


@dataclass
class Cut:
    """Where a function is cut off: the byte, what caper says of it, in words where it is, and on which condition alone."""

    at: int
    open: texts.Open
    label: str
    condition: str = ""


@dataclass
class Broken:
    """An action that breaks an assertion: its region type, and the facts that it changes, each with two states."""

    region: object
    action: object
    moves: list

    def text(self):
        """The action as it stands."""
        return f"`{action_text(self.action)}` of `{self.region.name}`"


@dataclass
class Stop:
    """Something that is lacking: caper's words for it, where it is, what is lacking in words, the section of the docs, and
    the states there: a label and readable states each. Where nothing can be told, `notes` say why."""

    open: texts.Open
    stands: object
    asked: object
    said: str
    section: str
    states: list = field(default_factory=list)
    breaks: list = field(default_factory=list)
    notes: list = field(default_factory=list)


@dataclass
class Stuck:
    """A unit that is open: its kind and name, its verdict, where it stops, the place that caper says first, and the edits
    with which all else of it is proved, or None."""

    unit: tuple
    verdict: str
    stops: list
    edits: list = None


@dataclass
class Ways:
    """How a function is cut off: the edits before that, the cuts, its invariants that aren't stable, and what caper says of
    it then."""

    base: list
    cuts: list = field(default_factory=list)
    unstable: list = field(default_factory=list)
    left: str = ""

    def edits(self):
        """All edits."""
        return [*self.base, *edits_of(self.cuts)]


class Unit:
    """A unit that is open, of a program."""

    def __init__(self, caper, program, unit):
        self.caper, self.program, self.unit = caper, program, unit
        self.function = program.functions.get(unit[1]) if unit[0] == "function" else None
        self.edits = None

    def verdict(self, edits):
        """What caper says of the unit in a changed text, its places as in the program, and the changed text."""
        edited = Edited(self.program.text, edits)
        verdicts = self.caper.verdicts(edited.text)
        said = next(verdict for kind, name, verdict in verdicts.units if (kind, name) == self.unit)
        found = texts.open_of(said)
        if found is None:
            return said, None
        return said, texts.Open(edited.place(found.statement), found.need, edited.place(found.item))

    def stop(self, found):
        """What is lacking at an open answer."""
        stands = stands_of(self.program, self.unit, found.statement)
        asked = asked_of(self.program, found.item)
        if stands is None or asked is None:
            return Stop(found, stands, asked, "", "", notes=["what stands at these places isn't known here"])
        told = said(found.need, stands, asked)
        return Stop(found, stands, asked, told, section_of(found.need, stands))

    # ---- bodies

    def cut_at(self, stands, found, cuts):
        """Where the function is to be cut off for an open answer, or None where it was cut off there before."""
        places = [Cut(stands.at.start, found, "")]
        if stands.at.kind == "while":
            places = [Cut(stands.at.start, found, "where the loop is reached"), Cut(stands.at.block[1], found, "after a turn")]
        return next((it for it in places if it.at not in [one.at for one in cuts]), None)

    def cut_off(self, found):
        """The function cut off until it is proved, or until that leads no further."""
        ways = Ways(alone(self.program, self.function))
        while found is not None and len(ways.cuts) + len(ways.unstable) < MOST:
            stop = self.stop(found)
            stands = stop.stands
            if stands is None or (stands.where == "contract" and stands.word != "invariant"):
                break
            if stands.where == "contract":
                ways.unstable.append(self.stable(stop))
                is_cut = any(it.at == stands.at.start for it in ways.cuts)
                ways.base += without_loop(stands.at)[is_cut:]
            else:
                cut = self.cut_at(stands, found, ways.cuts)
                if cut is None:
                    break
                ways.cuts.append(cut)
            ways.left, found = self.verdict(ways.edits())
        return ways

    def needed(self, ways):
        """The cuts without those but for which the unit is proved too."""
        cuts = ways.cuts
        for it in ways.cuts:
            rest = [one for one in cuts if one is not it]
            if self.verdict([*ways.base, *edits_of(rest)])[0] == "proved":
                cuts = rest
        return cuts

    def states_at(self, ways):
        """The readable states at each cut, or None where they can't be told."""
        edited = Edited(self.program.text, ways.edits())
        trees = self.caper.trees(edited.text)
        if trees is None:
            return None
        found = []
        for cut in ways.cuts:
            nodes = [it for it in trees.nodes if is_at(edited, trees, it, self.unit, cut.at)]
            states = [readable(trees, it, wanted_at(self.stop(cut.open))) for it in nodes]
            found.append([it for at, it in enumerate(states) if not it.impossible and it not in states[:at]])
        return found

    def body(self, first):
        """Where a body stops, the place that caper says first."""
        ways, stops = self.cut_off(first), [self.stop(first)]
        if ways.left != "proved":
            stops[0].notes.append(f"what holds here can't be told: with this cut off the function is {ways.left}")
            return stops + ways.unstable
        needed = self.needed(ways)
        ways.cuts = [it for it in ways.cuts if it in needed or (it.open == first and not any(it.open == first for it in needed))]
        self.edits = ways.edits()
        states, why = self.told_states(ways)
        if states is None:
            stops[0].notes.append(f"what holds here can't be told: {why}")
            return stops + [self.stop(it) for it in further(ways.cuts, first)] + ways.unstable
        states = self.parted(first, ways, states)
        self.edits = ways.edits()
        stops += [self.stop(it) for it in further(ways.cuts, first)]
        for cut, some in zip(ways.cuts, states):
            if some:
                next(it for it in stops if it.open == cut.open).states.append((cut.label, some))
        rest = [it for it in ways.cuts if it.open != first]
        if not stops[0].states:
            stops[0].notes.append("what holds here can't be told: what is told next stands before it")
        elif not ways.unstable and self.verdict([*ways.base, *edits_of(rest)])[0] == "proved":
            stops[0].notes.append("this is not what is lacking: with only what is told next cut off, all is proved")
        return stops + ways.unstable

    def parted(self, first, ways, states):
        """The states at cuts; where none is left at the first place, another cut is made on a condition alone that tells its
        states apart, so that some of them go on."""
        if any(some for cut, some in zip(ways.cuts, states) if cut.open == first):
            return states
        for cut, some in zip(ways.cuts, states):
            for cut.condition in conditions_of(some):
                if self.verdict(ways.edits())[0] == "proved":
                    found = self.states_at(ways)
                    if any(found[at] for at, it in enumerate(ways.cuts) if it.open == first):
                        return found
            cut.condition = ""
        return states

    def told_states(self, ways):
        """The states at cuts, or None and why they can't be told."""
        try:
            states = self.states_at(ways)
        except Lacking as it:
            return None, str(it)
        return states, self.unproved(ways) if states is None else ""

    def unproved(self, ways):
        """What beside the unit isn't proved, in words."""
        units = self.caper.verdicts(Edited(self.program.text, ways.edits()).text).units
        left = [(kind, name) for kind, name, verdict in units if verdict != "proved"]
        said = [f"the contract of {name} is" if kind == "function" else f"region {name} is" for kind, name in left]
        return " not proved, ".join(said) + " not proved" if said else "nothing meets the precondition of main"

    # ---- assertions that aren't stable

    def is_open_at(self, stop, types, allowed):
        """Whether the unit is open at an assertion where of the actions of these types these alone are allowed."""
        edits = [] if self.function is None else alone(self.program, self.function)
        if stop.stands.word == "invariant":
            edits.append((self.function.body_start, self.function.body_start, f" {CUT}"))
            edits += [edit for it in self.function.loops() if it is not stop.stands.at for edit in without_loop(it)]
        for name in types:
            for action in self.program.regions[name].actions:
                if action not in allowed:
                    edits.append((action.end, action.end, ", 0 = 1" if action.conditions else " when 0 = 1"))
        _, found = self.verdict(edits)
        return found is not None and found.statement == stop.open.statement

    def stable(self, stop):
        """Says of an assertion that isn't stable what breaks it."""
        items = self.items_of(stop.stands)
        types = types_of(self.program, [items])
        if self.is_open_at(stop, types, []):
            stop.notes.append("no action is at fault: what is given can't be given up again from left to right")
            return stop
        for name in sorted(types):
            region = self.program.regions[name]
            single = [it for it in region.actions if self.is_open_at(stop, types, [it])]
            stop.breaks += [self.breaks(items, region, it) for it in single]
        if not stop.breaks:
            stop.notes.append("no action breaks it alone, some of them together do")
        return stop

    def items_of(self, stands):
        """The items of an assertion that isn't stable."""
        if stands.where == "case":
            return stands.at.items
        if stands.word == "invariant":
            return stands.at.invariant
        return stands.unit.requires if stands.word == "requires" else stands.unit.ensures

    def breaks(self, items, region, action):
        """What an action does to an assertion: the action, and from which state to which it leads, for each fact."""
        moves = [(it, moved(it, action)) for it in facts_of(items) if it.parts[0] == region.name]
        return Broken(region, action, [(self.program.text[it.start : it.end], *move) for it, move in moves if move])

    def stuck(self, verdict):
        """Where the unit stops."""
        found = texts.open_of(verdict)
        stop = self.stop(found)
        if stop.stands is None or stop.asked is None:
            return Stuck(self.unit, verdict, [stop])
        if stop.stands.where in ("contract", "case"):
            return Stuck(self.unit, verdict, [self.stable(stop)])
        stops = self.body(found)
        return Stuck(self.unit, verdict, stops, self.edits)


def wanted_at(stop):
    """What a statement wants of a state by itself: an assertion its comparison, an access its cell; or None."""
    if stop.stands is None or stop.asked is None or stop.asked.where != "statement":
        return None
    kind, parts = stop.stands.at.kind, stop.stands.at.parts
    if kind == "assert":
        return "fact", parts[0]
    return ("cell", parts[0 if kind in ("write", "dispose") else 1]) if stop.open.need == "cell" else None


def further(cuts, first):
    """The answers of cuts but the first, each once."""
    return [it for it in dict.fromkeys(cut.open for cut in cuts) if it != first]


def edits_of(cuts):
    """The edits of cuts."""
    return [(it.at, it.at, f"if ({it.condition}) {{ {CUT}}} " if it.condition else CUT) for it in cuts]


def is_at(edited, trees, node, unit, at):
    """Whether a node has a state at the cut in front of a byte."""
    if node.state is None or trees.trees[node.tree].unit != unit:
        return False
    start, loop = node.statement.start, trees.trees[node.tree].loop
    if loop is not None and loop.start == start:
        return False
    return node.statement.kind == "while" and edited.is_put(start) and edited.origin(start) == at


def conditions_of(states):
    """What some of these states say of a local, and not all: that it is a number."""
    said = [{it for it in state.numbers if re.fullmatch(r"[A-Za-z]\w* = -?[0-9]+", it)} for state in states]
    return sorted(set().union(*said) - set.intersection(*said)) if said else []


def without_loop(loop):
    """Edits that leave a loop out: one without end comes in front of it, and into its block, and its invariant goes."""
    start, _ = loop.block
    return [(loop.start, loop.start, CUT), (*loop.clause, " "), (start + 1, start + 1, f" {CUT}")]


def moved(fact, action):
    """From which state to which an action leads where a fact holds, or None where the fact has another state."""
    state, whole, source = fact.parts[3], sole_name(action.source), linear_of(action.source, number)
    if state is not None:
        state = linear_of(state, number)
        if whole is None and not state.parts and state != source:
            return None
        source = state if whole is not None else source
    put = {whole: source} if whole is not None else {}
    target = linear_of(action.target, lambda name: put.get(name, number(name)))
    return linear_text(source, str), linear_text(target, str)


def stuck(caper, program, units):
    """Where the units stop that are open."""
    return [Unit(caper, program, unit[:2]).stuck(unit[2]) for unit in units if texts.open_of(unit[2])]
