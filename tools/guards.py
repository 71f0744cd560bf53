"""Guard algebras, and what their elements are (docs/GUARDS.md): composed, and taken away from one another.

An element is plain data. Of `G` it is whether it is held; of `%G` a fraction from 0 to 1; of `|G|` `("tok", k)` or
`("src", n)`; of `[G]` the spans of its indices, a first one and the one behind the last, which is None without an end;
of `A * B` a pair; of `A + B` the word `unit` or `full`, or the side, 0 or 1, with an element of it that is neither.

Each algebra has `unit` and `full`; `join` composes two elements, and gives None where they don't compose; `without` gives
the one with which the second composes to the first, or None where there is none. So the second is at most the first
exactly where something is left. `atom` is the element of a guard, or None where the algebra has no such guard. `piece` is
what an element has of the guard of a name, or None where that is none of it, and `said` its guards as they are printed."""

from fractions import Fraction


class Unique:
    """`G`."""

    unit, full = False, True

    def __init__(self, name):
        self.name = name

    def join(self, one, other):
        """Nobody has it twice."""
        return None if one and other else one or other

    def without(self, whole, part):
        """What is left of it."""
        return None if part and not whole else whole and not part

    def atom(self, kind, name, _amount, _last=None):
        """`G`."""
        return True if (kind, name) == ("", self.name) else None

    def piece(self, element, name):
        """All of it."""
        return element if name == self.name else None

    def said(self, element):
        """`G`."""
        return [self.name] if element else []


class Divisible:
    """`%G`."""

    unit, full = Fraction(0), Fraction(1)

    def __init__(self, name):
        self.name = name

    def join(self, one, other):
        """The sum, up to 1."""
        return one + other if one + other <= 1 else None

    def without(self, whole, part):
        """The difference, from 0."""
        return whole - part if part <= whole else None

    def atom(self, kind, name, amount, _last=None):
        """`G[p]`, above 0 and at most 1."""
        return Fraction(amount) if (kind, name) == ("share", self.name) and 0 < amount <= 1 else None

    def piece(self, element, name):
        """All of it."""
        return element if name == self.name else None

    def said(self, element):
        """`G[n/d]`."""
        return [f"{self.name}[{element.numerator}/{element.denominator}]"] if element else []


class Counting:
    """`|G|`."""

    unit, full = ("tok", 0), ("src", 0)

    def __init__(self, name):
        self.name = name

    def join(self, one, other):
        """Tokens add up, or go back to the source, which is there once."""
        if one[0] == other[0]:
            return ("tok", one[1] + other[1]) if one[0] == "tok" else None
        source, tokens = (one[1], other[1]) if one[0] == "src" else (other[1], one[1])
        return ("src", source - tokens) if tokens <= source else None

    def without(self, whole, part):
        """Tokens that are taken from a source are out of it from then on."""
        if whole[0] == part[0] == "tok":
            return ("tok", whole[1] - part[1]) if part[1] <= whole[1] else None
        if whole[0] == part[0] == "src":
            return ("tok", part[1] - whole[1]) if whole[1] <= part[1] else None
        return ("src", whole[1] + part[1]) if whole[0] == "src" else None

    def atom(self, kind, name, amount, _last=None):
        """`src G[n]` and `tok G[k]`, from 0 on."""
        return (kind, amount) if kind in ("src", "tok") and name == self.name and amount >= 0 else None

    def piece(self, element, name):
        """All of it."""
        return element if name == self.name else None

    def said(self, element):
        """`src G[n]` and `tok G[k]`."""
        return [f"{element[0]} {self.name}[{element[1]}]"] if element != self.unit else []


class Indexed:
    """`[G]`."""

    unit, full = (), ((0, None),)

    def __init__(self, name):
        self.name = name

    def join(self, one, other):
        """The union of sets that have no index in common."""
        spans = []
        for first, last in sorted(one + other, key=lambda it: it[0]):
            if spans and (spans[-1][1] is None or first < spans[-1][1]):
                return None
            if spans and spans[-1][1] == first:
                first = spans.pop()[0]
            spans.append((first, last))
        return tuple(spans)

    def without(self, whole, part):
        """The difference, where each index is there."""
        rest = list(whole)
        for first, last in part:
            at = next((it for it in rest if it[0] <= first and (it[1] is None or (last is not None and last <= it[1]))), None)
            if at is None:
                return None
            rest.remove(at)
            rest += [(at[0], first)] if at[0] < first else []
            rest += [(last, at[1])] if last != at[1] else []
        return tuple(sorted(rest, key=lambda it: it[0]))

    def atom(self, kind, name, amount, last=None):
        """`at G[e]`, `from G[e]`, and a span as an account has it."""
        if kind not in ("at", "from", "span") or name != self.name or amount < 0:
            return None
        return ((amount, amount + 1 if kind == "at" else last),)

    def piece(self, element, name):
        """All of it."""
        return element if name == self.name else None

    def said(self, element):
        """`G{a..b}`, a span each."""
        return [f"{self.name}{{{first}..{'' if last is None else last}}}" for first, last in element]


class Product:
    """`A * B`."""

    def __init__(self, left, right):
        self.sides = left, right
        self.unit, self.full = (left.unit, right.unit), (left.full, right.full)

    def both(self, what, one, other):
        """What both sides give, where both give something."""
        found = tuple(getattr(side, what)(*it) for side, it in zip(self.sides, zip(one, other)))
        return None if None in found else found

    def join(self, one, other):
        """Side by side."""
        return self.both("join", one, other)

    def without(self, whole, part):
        """Side by side."""
        return self.both("without", whole, part)

    def atom(self, *guard):
        """The guard of one side, and nothing of the other."""
        left, right = (it.atom(*guard) for it in self.sides)
        if left is not None:
            return left, self.sides[1].unit
        return None if right is None else (self.sides[0].unit, right)

    def piece(self, element, name):
        """What one side has of it."""
        found = (side.piece(it, name) for side, it in zip(self.sides, element))
        return next((it for it in found if it is not None), None)

    def said(self, element):
        """Those of both sides."""
        return [text for side, it in zip(self.sides, element) for text in side.said(it)]


class Sum:
    """`A + B`."""

    unit, full = "unit", "full"

    def __init__(self, left, right):
        self.sides = left, right

    def inside(self, element, at):
        """The element of a side that this is, or None."""
        if element == "unit":
            return self.sides[at].unit
        if element == "full":
            return self.sides[at].full
        return element[1] if element[0] == at else None

    def outside(self, element, at):
        """The element that one of a side is."""
        if element is None:
            return None
        side = self.sides[at]
        return "unit" if element == side.unit else "full" if element == side.full else (at, element)

    def either(self, what, one, other):
        """What a side gives that has both."""
        for at, side in enumerate(self.sides):
            inside = self.inside(one, at), self.inside(other, at)
            if None not in inside:
                return self.outside(getattr(side, what)(*inside), at)
        return None

    def join(self, one, other):
        """Within a side."""
        return self.either("join", one, other)

    def without(self, whole, part):
        """Within a side."""
        return self.either("without", whole, part)

    def atom(self, *guard):
        """The guard of a side."""
        for at, side in enumerate(self.sides):
            found = side.atom(*guard)
            if found is not None:
                return self.outside(found, at)
        return None

    def piece(self, element, name):
        """What a side has of it."""
        inside = [(side, self.inside(element, at)) for at, side in enumerate(self.sides)]
        found = (side.piece(it, name) for side, it in inside if it is not None)
        return next((it for it in found if it is not None), None)

    def said(self, element):
        """Those of a side, and of the left one where it is the full element of both."""
        at = next(at for at in (0, 1) if self.inside(element, at) is not None)
        return self.sides[at].said(self.inside(element, at))


class Reader:
    """Reads the text behind `guards`, which is one that caper takes."""

    def __init__(self, words):
        self.words = list(words)

    def ahead(self):
        """The next word."""
        return self.words[0] if self.words else ""

    def algebra(self):
        """Products, with `+` between two."""
        found = self.product()
        while self.ahead() == "+":
            self.words.pop(0)
            found = Sum(found, self.product())
        return found

    def product(self):
        """Factors, with `*` between two."""
        found = self.factor()
        while self.ahead() == "*":
            self.words.pop(0)
            found = Product(found, self.factor())
        return found

    def factor(self):
        """A guard, or an algebra in parentheses."""
        word = self.words.pop(0)
        if word == "(":
            found = self.algebra()
        elif word == "%":
            return Divisible(self.words.pop(0))
        elif word in "|[":
            found = (Counting if word == "|" else Indexed)(self.words.pop(0))
        else:
            return Unique(word)
        self.words.pop(0)
        return found


def algebra_of(words):
    """The algebra that words spell."""
    return Reader(words).algebra()
