"""When a part meets an assertion of a program's text: some values of its names are looked for, by what the part has.

The part has cells and guards, and the table says of each region its type, its arguments and its state. A name that
isn't given gets its value from a cell, from an entry of the table or from an equation, where one tells it; what is left
are shares, counts and indices, of which those are tried that the part's own guards suggest."""

import math
from dataclasses import dataclass, field
from fractions import Fraction

from asserted import sole_name
from machine import COMPARE

# So many counts or indices are tried for a name that nothing tells.
TRIED = 64


@dataclass
class Held:
    """A part: cells by address, and for each region the element of its guards."""

    cells: dict = field(default_factory=dict)
    guards: dict = field(default_factory=dict)


@dataclass(frozen=True)
class Looking:
    """How far the looking has come: what is left to be met, the values, the cells and the guards that were asked for."""

    left: tuple
    values: dict
    cells: frozenset
    guards: dict


def linear(term, values):
    """A term with these values: a constant, and what stands before each name that has none."""
    if isinstance(term, (int, Fraction)):
        return term, {}
    if isinstance(term, str):
        return (values[term], {}) if term in values else (0, {term: 1})
    constant, names = 0, {}
    for sign, factors in term:
        product = sign, {}
        for it in factors:
            product = times(product, linear(it, values))
        constant += product[0]
        for name, more in product[1].items():
            names[name] = names.get(name, 0) + more
    return constant, {name: more for name, more in names.items() if more}


def times(one, other):
    """The product of two forms, of which one has no name."""
    names = {name: more * other[0] for name, more in one[1].items()}
    return one[0] * other[0], names or {name: more * one[0] for name, more in other[1].items()}


def number(term, values):
    """A term's value, or None where a name has none."""
    constant, names = linear(term, values)
    return None if names else constant


def shares_of(items, names=()):
    """The names of items that stand for shares: those that first stand in an amount of a divisible guard."""
    shares, others = set(), set(names)

    def note(term, is_share):
        name = None if term is None else sole_name(term)
        if is_share and name is not None and name not in others:
            shares.add(name)
        elif name is not None and name not in shares:
            others.add(name)

    for item in items:
        if item.kind == "cell":
            note(item.parts[1], False)
        elif item.kind == "fact":
            for it in (item.parts[1], *item.parts[2], item.parts[3]):
                note(it, False)
        elif item.kind == "atom":
            note(item.parts[3], item.parts[1] == "share")
        elif item.kind == "conditional":
            shares |= shares_of(item.parts[1] + item.parts[2], others | shares) - others
    return shares


class Meeting:
    """Looks whether a part meets assertions, by a table of regions and the algebras of their types."""

    def __init__(self, table, algebras, part):
        self.table, self.algebras, self.part, self.shares = table, algebras, part, set()

    def meets(self, items, values, shares=None):
        """Whether some values of the names that have none meet all items, each an item or a comparison."""
        self.shares = shares_of([it for it in items if not isinstance(it, tuple)]) if shares is None else shares
        return self.go(Looking(tuple(items), dict(values), frozenset(), {}))

    def go(self, looking):
        """Whether what is left can be met. What can be met in one way at most comes first."""
        while looking.left:
            best = None
            for at, item in enumerate(looking.left):
                found = self.tried(item, looking, looking.left[:at] + looking.left[at + 1 :])
                if found is not None and (best is None or len(found) < len(best)):
                    best = found
                if best is not None and len(best) < 2:
                    break
            if best is None:
                best = self.guessed(looking)
            if len(best) != 1:
                return any(self.go(it) for it in best)
            looking = best[0]
        return True

    def more(self, looking, left, *more, **values):
        """What is looked for with these items left, with more ones and with values."""
        return Looking((*left, *more), {**looking.values, **values}, looking.cells, looking.guards)

    def tried(self, item, looking, left):
        """All ways in which an item can be met, or None as long as it can't be told."""
        if isinstance(item, tuple):
            return self.compared(item, looking, left)
        return getattr(self, f"tried_{item.kind}")(looking, left, *item.parts)

    def compared(self, comparison, looking, left):
        """A comparison: of known values, or an equation that tells one."""
        sign, one, other = comparison
        (a, names), (b, others) = linear(one, looking.values), linear(other, looking.values)
        unknown = {it: names.get(it, 0) - others.get(it, 0) for it in {**names, **others}}
        unknown = {it: more for it, more in unknown.items() if more}
        if not unknown:
            return [self.more(looking, left)] if COMPARE[sign](a, b) else []
        if sign != "=" or len(unknown) != 1:
            return None
        ((name, more),) = unknown.items()
        value = (b - a) / more if name in self.shares else whole(b - a, more)
        return [] if value is None else [self.more(looking, left, **{name: value})]

    def tried_true(self, looking, left):
        """`true`."""
        return [self.more(looking, left)]

    def tried_false(self, _looking, _left):
        """`false`."""
        return []

    def tried_comparison(self, looking, left, *comparison):
        """A comparison."""
        return self.compared(comparison, looking, left)

    def tried_conditional(self, looking, left, comparison, items, others):
        """The side that a comparison chooses."""
        sign, *terms = comparison
        one, other = (number(it, looking.values) for it in terms)
        if one is None or other is None:
            return None
        return [self.more(looking, left, *(items if COMPARE[sign](one, other) else others))]

    def tried_cell(self, looking, left, address, slot):
        """A cell that wasn't asked for."""
        address = number(address, looking.values)
        if address is None:
            return None
        if address < 1 or address in looking.cells or address not in self.part.cells:
            return []
        more = [] if slot is None else [("=", slot, self.part.cells[address])]
        return [Looking((*left, *more), looking.values, looking.cells | {address}, looking.guards)]

    def tried_fact(self, looking, left, kind, region, slots, state):
        """An entry of the table: that of a region that is known, or any one."""
        found = []
        for it in self.table.values():
            if it.type == kind and looking.values.get(region, it.number) == it.number and len(slots) == len(it.arguments):
                pairs = zip([*slots, state], [*it.arguments, it.state])
                more = [("=", slot, value) for slot, value in pairs if slot is not None]
                found.append(self.more(looking, left, *more, **{region: it.number}))
        return found

    def tried_atom(self, looking, left, region, kind, guard, slot):
        """A guard of a region that is known, with an amount that is known."""
        if region not in looking.values:
            return None
        amount = None
        if kind:
            amount = None if slot is None else number(slot, looking.values)
            if amount is None:
                return [] if self.rest(looking, looking.values[region]) is None else None
        return self.asked(looking, left, looking.values[region], kind, guard, amount)

    def asked(self, looking, left, region, kind, guard, amount):
        """This guard, where it is there beside those that were asked for."""
        if (kind, amount) == ("tok", 0):
            return [self.more(looking, left)]
        rest = self.rest(looking, region)
        if rest is None:
            return []
        algebra = self.algebras[self.table[region].type]
        wanted = algebra.atom(kind, guard, amount)
        wanted = None if wanted is None else algebra.join(looking.guards.get(region, algebra.unit), wanted)
        if wanted is None or algebra.without(self.part.guards.get(region, algebra.unit), wanted) is None:
            return []
        return [Looking(left, looking.values, looking.cells, {**looking.guards, region: wanted})]

    def rest(self, looking, region):
        """What the part has of a region's guards beside those that were asked for."""
        if region not in self.table:
            return None
        algebra = self.algebras[self.table[region].type]
        return algebra.without(self.part.guards.get(region, algebra.unit), looking.guards.get(region, algebra.unit))

    def guessed(self, looking):
        """All ways in which a guard without a known amount may be met, of the first one that is left."""
        for at, item in enumerate(looking.left):
            if isinstance(item, tuple) or item.kind != "atom" or item.parts[0] not in looking.values:
                continue
            region, kind, guard, slot = item.parts
            left, number_ = looking.left[:at] + looking.left[at + 1 :], looking.values[region]
            algebra = self.algebras[self.table[number_].type]
            found = []
            for amount in amounts(algebra, self.rest(looking, number_), kind, guard):
                equation = [] if slot is None else [("=", slot, amount)]
                found += [self.more(it, it.left, *equation) for it in self.asked(looking, left, number_, kind, guard, amount)]
            return found
        return []


def whole(over, under):
    """The quotient, where it is a whole number."""
    return over // under if over % under == 0 else None


def amounts(algebra, element, kind, guard):
    """The amounts that are tried for a guard, of what there is."""
    there = algebra.piece(element, guard)
    if kind == "tok":
        most = there[1] if there and there[0] == "tok" else TRIED
        return [most, *(it for it in range(min(most, TRIED)))]
    if not there:
        return []
    if kind == "share":
        return [there, there / 2]
    if kind == "src":
        return range(there[1], there[1] + TRIED) if there[0] == "src" else []
    if kind == "from":
        return [it for first, last in there if last is None for it in range(first, first + TRIED)]
    return [it for first, last in there for it in range(first, min(first + TRIED, math.inf if last is None else last))]
