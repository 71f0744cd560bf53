"""Rows of linear terms, for what a person reads of a state: equalities are put in, what is hidden is left out, and so is
each row that follows from the others. It is decided by elimination over fractions; where that grows large a row stays."""

from dataclasses import dataclass
from fractions import Fraction

# An elimination of more rows than so many is given up.
LIMIT = 300


@dataclass(frozen=True)
class Linear:
    """A constant and the coefficients of variables, ascending, none of them 0."""

    constant: int
    parts: tuple = ()

    @staticmethod
    def of(constant, parts=()):
        """The term of a constant and of pairs, each a variable and a coefficient."""
        total = {}
        for name, coefficient in parts:
            total[name] = total.get(name, 0) + coefficient
        return Linear(constant, tuple((it, total[it]) for it in sorted(total, key=str) if total[it]))

    def plus(self, other, times=1):
        """The sum with so many times another."""
        parts = [*self.parts, *((name, times * it) for name, it in other.parts)]
        return Linear.of(self.constant + times * other.constant, parts)

    def times(self, factor):
        """The product with a number."""
        return Linear.of(0).plus(self, factor)

    def coefficient(self, name):
        """The coefficient of a variable."""
        return next((coefficient for it, coefficient in self.parts if it == name), 0)

    def put(self, name, term):
        """The same with a term for a variable."""
        coefficient = self.coefficient(name)
        return self.plus(Linear.of(0, [(name, 1)]), -coefficient).plus(term, coefficient) if coefficient else self

    def names(self):
        """Its variables."""
        return [name for name, _ in self.parts]

    def sole(self):
        """The variable that it is, or None."""
        return self.parts[0][0] if self.constant == 0 and len(self.parts) == 1 and self.parts[0][1] == 1 else None


@dataclass(frozen=True)
class Line:
    """A term, and how it is to 0: `<=`, `<`, `=` or `!=`."""

    term: Linear
    kind: str

    def holds(self):
        """Whether it holds, where it has no variable; else None."""
        if self.term.parts:
            return None
        value = self.term.constant
        return {"<=": value <= 0, "<": value < 0, "=": value == 0, "!=": value != 0}[self.kind]

    def put(self, name, term):
        """The same with a term for a variable."""
        return Line(self.term.put(name, term), self.kind)


def number(name):
    """The term of a variable."""
    return Linear.of(0, [(name, 1)])


def solved(line, name):
    """What a variable of an equality equals."""
    coefficient = line.term.coefficient(name)
    inverse = coefficient if abs(coefficient) == 1 else 1 / Fraction(coefficient)
    return number(name).plus(line.term, -inverse)


def combined(lower, upper, name):
    """What follows of two bounds of a variable without it."""
    term = lower.term.times(upper.term.coefficient(name)).plus(upper.term, -lower.term.coefficient(name))
    return Line(term, "<" if "<" in (lower.kind, upper.kind) else "<=")


def without(lines, name):
    """What follows of inequalities without a variable."""
    kept = [it for it in lines if not it.term.coefficient(name)]
    lower = [it for it in lines if it.term.coefficient(name) < 0]
    upper = [it for it in lines if it.term.coefficient(name) > 0]
    return list(dict.fromkeys(kept + [combined(a, b, name) for a in lower for b in upper]))


def put_all(lines, name, term):
    """Lines with a term for a variable, each once."""
    return list(dict.fromkeys(it.put(name, term) for it in lines))


def contradict(lines):
    """Whether lines contradict one another, as far as it is found without splits."""
    while True:
        if any(it.holds() is False for it in lines):
            return True
        lines = [it for it in lines if it.holds() is None]
        equality = next((it for it in lines if it.kind == "="), None)
        if equality is None:
            break
        name = equality.term.parts[0][0]
        lines = put_all([it for it in lines if it is not equality], name, solved(equality, name))
    lines = [it for it in lines if it.kind != "!="]
    while lines:
        names = {name for it in lines for name in it.term.names()}
        lines = min((without(lines, it) for it in sorted(names, key=str)), key=len)
        if any(it.holds() is False for it in lines):
            return True
        lines = [it for it in lines if it.holds() is None]
        if len(lines) > LIMIT:
            return False
    return False


def negated(line, shares):
    """The ways in which a line doesn't hold, of whole numbers or of shares."""
    whole = not any(it in shares for it in line.term.names())

    def below(term):
        return Line(term.plus(Linear.of(1)), "<=") if whole else Line(term, "<")

    opposite = line.term.times(-1)
    if line.kind == "<=":
        return [below(opposite)]
    if line.kind == "<":
        return [Line(opposite, "<=")]
    return [Line(line.term, "=")] if line.kind == "!=" else [below(line.term), below(opposite)]


def connected(lines, names):
    """The lines that have to do with these variables, by way of others too."""
    names, kept, left = set(names), [], list(lines)
    while more := [it for it in left if names & set(it.term.names())]:
        kept += more
        left = [it for it in left if it not in more]
        names |= {name for it in more for name in it.term.names()}
    return kept


def follows(lines, line, shares):
    """Whether a line follows from lines, as far as it is found."""
    near = connected(lines, line.term.names())
    return all(contradict([*near, it]) for it in negated(line, shares))


def equalities(lines):
    """The lines, with an equality in the place of two that say it together."""
    have = {it.term for it in lines if it.kind == "<="}
    both = {it for it in have if it.parts and it.times(-1) in have}
    made = [Line(it, "=") for it in lines_terms(both)]
    return [it for it in lines if not (it.kind == "<=" and it.term in both)] + made


def lines_terms(both):
    """One term of each two that are opposite."""
    return [it for it in sorted(both, key=str) if it.parts[0][1] > 0]


def are_impossible(lines, shares):
    """Whether lines contradict one another, also by one that says that a term is not 0."""
    rest = [it for it in lines if it.kind != "!="]
    unequal = [it for it in lines if it.kind == "!="]
    return contradict(lines) or any(follows(rest, Line(it.term, "="), shares) for it in unequal)


def shares_of(lines, shares):
    """The variables that are shares: these, those of strict rows, and those that stand in a row with one."""
    shares = set(shares) | {name for it in lines if it.kind == "<" for name in it.term.names()}
    while True:
        more = {name for it in lines if shares & set(it.term.names()) for name in it.term.names()} - shares
        if not more:
            return shares
        shares |= more


def settled(lines, rank):
    """The lines without equalities that tell a variable, and what these tell: a list of variables with their terms. Of
    the variables of an equality the one of the highest rank goes."""
    told = []
    while True:
        lines = equalities([it for it in dict.fromkeys(lines) if it.holds() is not True])
        found = [
            (rank(name), name, it)
            for it in lines
            if it.kind == "="
            for name, coefficient in it.term.parts
            if abs(coefficient) == 1
        ]
        if not found:
            return lines, told
        _, name, equality = max(found, key=lambda it: it[:2])
        term = solved(equality, name)
        told.append((name, term))
        lines = put_all([it for it in lines if it is not equality], name, term)


def shown(lines, shown_names, shares):
    """The lines of what is shown: hidden variables are eliminated, where that makes few, and so are lines that follow
    from the others."""
    for name in sorted({name for it in lines for name in it.term.names()} - set(shown_names)):
        inside = [it for it in lines if it.term.coefficient(name)]
        if any(it.kind in ("=", "!=") for it in inside):
            continue
        less = without(inside, name)
        if len(less) <= len(inside):
            lines = list(dict.fromkeys([it for it in lines if it not in inside] + less))
    return without_needless([it for it in lines if it.holds() is None], shares)


def without_needless(lines, shares):
    """The lines without those that follow from the others."""
    for it in sorted(lines, key=lambda it: (-len(it.term.parts), abs(it.term.constant)), reverse=False):
        rest = [other for other in lines if other is not it]
        if follows(rest, it, shares):
            lines = rest
    return lines


def linear_of(term, variable):
    """A term of a program's text, with what its names stand for. At most one factor of a product has names."""
    if isinstance(term, int):
        return Linear.of(term)
    if isinstance(term, str):
        return variable(term)
    total = Linear.of(0)
    for sign, factors in term:
        product = Linear.of(sign)
        for it in factors:
            factor = linear_of(it, variable)
            product = factor.times(product.constant) if not product.parts else product.times(factor.constant)
        total = total.plus(product)
    return total


def line_of(comparison, variable, shares):
    """A comparison of a program's text as a line, of whole numbers where it has none of these variables."""
    sign, left, right = comparison
    term = linear_of(left, variable).plus(linear_of(right, variable), -1)
    if sign in (">", ">="):
        sign, term = sign.replace(">", "<"), term.times(-1)
    is_whole = not any(it in shares for it in term.names())
    return Line(term.plus(Linear.of(1)), "<=") if sign == "<" and is_whole else Line(term, sign)


def linear_text(term, name_of):
    """A term as it is shown: what is added first, and a number last where a name is before it."""
    parts = [(coefficient, name_of(name)) for name, coefficient in term.parts]
    parts.sort(key=lambda it: it[0] < 0)
    if term.constant or not parts:
        parts.insert(len(parts) if parts and parts[0][0] > 0 else 0, (term.constant, None))
    text = ""
    for coefficient, name in parts:
        size = abs(coefficient)
        part = str(size) if name is None else name if size == 1 else f"{size} * {name}"
        sign = "-" if coefficient < 0 else "+"
        text += f" {sign} {part}" if text else part if coefficient >= 0 else f"-{part}"
    return text
