"""A state of an outline as a person reads it: in groups, with names for its variables, and without what is needless.

Parameters and locals are variables, equal to what the store has. A variable is named as the parameters are, as the fixed
names of `requires`, as the locals, then by what the region type says in its place: its parameters, and the names that its
cases and actions have for the whole state. What a cell holds is named by its address in brackets. What stands in one
place alone, and of which nothing is known, is `_`."""

from dataclasses import dataclass, field

from asserted import sole_name
from rows import Line, Linear, are_impossible, contradict, follows, line_of, linear_of, linear_text, number, settled
from rows import shares_of, shown

OPPOSITE = {"=": "!=", "!=": "=", "<": ">=", ">=": "<", ">": "<=", "<=": ">"}


@dataclass
class Readable:
    """A state in groups, each a list of lines; a region's line has further ones, of its cases that may be meant. `has`
    says of a need there whether the state has what is wanted."""

    numbers: list = field(default_factory=list)
    cells: list = field(default_factory=list)
    regions: list = field(default_factory=list)
    guards: list = field(default_factory=list)
    impossible: bool = False
    has: tuple = None


def stored(name):
    """The variable of a parameter or a local."""
    return f"={name}"


def linear(term):
    """A term of an outline."""
    return Linear.of(term.constant, term.parts)


class Names:
    """Names for variables, none of which is given twice."""

    def __init__(self, taken, shares):
        self.taken, self.shares, self.by = set(taken), shares, {}

    def give(self, term, wanted, own=False):
        """Names the variable that a term is, where it has no name yet."""
        name = term.sole()
        if name is not None and name not in self.by:
            self.by[name] = wanted if own else self.free(wanted)

    def free(self, wanted):
        """A name like this one that isn't taken."""
        number, name = 2, wanted
        while name in self.taken:
            number, name = number + 1, f"{wanted}{number}"
        self.taken.add(name)
        return name

    def of(self, name):
        """The name of a variable."""
        if name not in self.by:
            self.by[name] = self.free("p" if name in self.shares else "k")
        return self.by[name]


class Reading:
    """A state that is made readable."""

    def __init__(self, program, function, state, is_body):
        self.program, self.function = program, function
        lines = [Line(linear(it.term), it.kind) for it in state.rows]
        amounts = [linear(it.amount) for it in state.guards if it.kind == "share"]
        self.shares = shares_of(lines, [name for it in amounts for name in it.names()])
        before = 0 if is_body else len(function.locals)
        first = len(function.parameters) + before
        self.fixed = {first + at: name for at, name in enumerate(function.fixed())}
        self.store = [(name, number(stored(name))) for name, _ in state.store]
        lines += [Line(linear(it).plus(number(stored(name)), -1), "=") for name, it in state.store]
        self.cells = [(linear(a), linear(b)) for a, b in state.cells]
        self.facts = [(it.type, linear(it.region), [linear(a) for a in it.arguments], linear(it.state)) for it in state.facts]
        self.guards = [
            (linear(it.region), it.kind, it.name, it.amount and linear(it.amount), it.last and linear(it.last))
            for it in state.guards
        ]
        self.order = {stored(name): at for at, (name, _) in enumerate(state.store)}
        self.impossible = are_impossible(lines, self.shares)
        lines, self.told = settled(lines, self.rank)
        self.replace_told()
        self.lines = shown(lines, self.visible(), self.shares)
        self.names = Names([*function.parameters, *function.locals, *function.fixed()], self.shares)
        self.name_all()
        self.count = {}
        for it in [*self.terms(), *(it.term for it in self.lines)]:
            for name in it.names():
                self.count[name] = self.count.get(name, 0) + 1

    def rank(self, name):
        """How soon a variable is put in for others: those last that are named well."""
        if name in self.order:
            at = self.order[name]
            return 0 if at < len(self.function.parameters) else 2, at
        if name in self.fixed:
            return 1, name
        return (3 if name in self.visible() else 4), name

    def terms(self):
        """All terms that are shown beside the lines."""
        for _, term in self.store:
            yield term
        for cell in self.cells:
            yield from cell
        for _, region, arguments, state in self.facts:
            yield from (region, *arguments, state)
        for region, _, _, amount, last in self.guards:
            yield from (it for it in (region, amount, last) if it is not None)

    def visible(self):
        """The variables that are shown beside the lines."""
        return {name for it in self.terms() for name in it.names()}

    def put(self, term):
        """A term with what is told for its variables."""
        for name, it in self.told:
            term = term.put(name, it)
        return term

    def replace_told(self):
        """Puts in what equalities tell."""
        maybe = lambda it: it and self.put(it)  # noqa: E731
        self.store = [(name, self.put(it)) for name, it in self.store]
        self.cells = [(self.put(a), self.put(b)) for a, b in self.cells]
        self.facts = [(kind, self.put(r), [self.put(a) for a in some], self.put(s)) for kind, r, some, s in self.facts]
        self.guards = [(self.put(r), kind, name, maybe(a), maybe(b)) for r, kind, name, a, b in self.guards]

    def name_all(self):
        """Names the variables."""
        count = len(self.function.parameters)
        fixed = [(wanted, number(name)) for name, wanted in self.fixed.items()]
        for name, term in [*self.store[:count], *fixed, *self.store[count:]]:
            self.names.give(term, name, own=True)
        for kind, region, arguments, state in self.facts:
            type_of = self.program.regions[kind]
            for wanted, term in zip(type_of.parameters, (region, *arguments)):
                self.names.give(term, wanted)
            self.names.give(state, state_name(type_of))
        for address, value in self.cells:
            self.names.give(value, f"[{self.text(address)}]")
        for _, kind, _, amount, _ in self.guards:
            if amount is not None:
                self.names.give(amount, "p" if kind == "share" else "k")

    # ---- text

    def text(self, term):
        """A term as it is shown."""
        return linear_text(term, self.names.of)

    def slot(self, term):
        """A term of a slot: `_` where it is a variable of which nothing else is known."""
        name = term.sole()
        plain = name is not None and self.count.get(name) == 1 and name not in self.fixed
        return "_" if plain and not any(it.sole() == name for _, it in self.store) else self.text(term)

    def readable(self):
        """The state in groups."""
        return Readable(
            [*self.values(), *self.rows_text()],
            [f"{self.text(a)} |-> {self.slot(b)}" for a, b in self.cells],
            [(self.fact_text(it), self.cases_of(it)) for it in self.facts],
            [self.guard_text(it) for it in self.guards],
            self.impossible,
        )

    def values(self):
        """The values of the store, those left out that are just themselves."""
        said = [(name, self.text(term)) for name, term in self.store]
        return [f"{name} = {text}" for name, text in said if name != text]

    def rows_text(self):
        """The lines that are known, two bounds of one variable together."""
        bounds, rest = {}, []
        for it in self.lines:
            if it.kind in ("<=", "<") and len(it.term.parts) == 1 and abs(it.term.parts[0][1]) == 1:
                (name, coefficient), bound = it.term.parts[0], -it.term.constant * it.term.parts[0][1]
                bounds.setdefault(name, {})[coefficient < 0] = (it.kind, bound)
            else:
                rest.append(self.line_text(it))
        return [self.bound_text(name, some) for name, some in bounds.items()] + rest

    def bound_text(self, name, some):
        """The bounds of a variable."""
        name = self.names.of(name)
        if len(some) == 2:
            return f"{some[True][1]} {some[True][0]} {name} {some[False][0]} {some[False][1]}"
        (is_lower, (kind, bound)) = next(iter(some.items()))
        return f"{name} {kind.replace('<', '>') if is_lower else kind} {bound}"

    def line_text(self, line):
        """A line, without subtraction."""
        term, kind = line.term, line.kind
        left = Linear.of(0, [it for it in term.parts if it[1] > 0])
        right = Linear.of(0, [(name, -it) for name, it in term.parts if it < 0])
        constant = term.constant
        if kind == "<=" and constant == 1 and left.parts and right.parts and not self.shares & set(term.names()):
            kind, constant = "<", 0
        if constant > 0 and left.parts:
            left = left.plus(Linear.of(constant))
        else:
            right = right.plus(Linear.of(-constant))
        if not left.parts:
            return f"{self.text(right.plus(Linear.of(right.constant), -1))} {kind.replace('<', '>')} {-right.constant}"
        return f"{self.text(left)} {kind} {self.text(right)}"

    def fact_text(self, fact):
        """A fact."""
        kind, region, arguments, state = fact
        inside = ", ".join([self.text(region), *(self.slot(it) for it in arguments)])
        return f"{kind}({inside}; {self.text(state)})"

    def guard_text(self, guard):
        """A guard."""
        region, kind, name, amount, last = guard
        at = f"{self.text(region)}@"
        if kind == "":
            return f"{at}{name}"
        if kind != "span":
            return f"{at}{kind + ' ' if kind != 'share' else ''}{name}[{self.slot(amount)}]"
        if last is None:
            return f"{at}from {name}[{self.text(amount)}]"
        if last.plus(amount, -1) == Linear.of(1):
            return f"{at}at {name}[{self.text(amount)}]"
        return f"{at}at {name}[{self.text(amount)}] up to {name}[{self.text(last.plus(Linear.of(-1)))}]"

    def knows(self, comparison):
        """Whether a comparison of the text follows."""
        line = Instance(self, dict(self.store)).line(comparison)
        return follows(self.lines, line, self.shares)

    def holds(self, address):
        """Whether a cell is held at an address of the text."""
        at = Instance(self, dict(self.store)).linear(address)
        return any(follows(self.lines, Line(at.plus(it, -1), "="), self.shares) for it, _ in self.cells)

    # ---- cases

    def cases_of(self, fact):
        """What the cases of a region's type would own that its state may be: a line for each."""
        kind, region, arguments, state = fact
        type_of = self.program.regions[kind]
        found = []
        for case in type_of.cases:
            reader = Instance(self, dict(zip(type_of.parameters, (region, *arguments))))
            whole = sole_name(case.state)
            if whole is not None and whole not in reader.names:
                reader.names[whole] = state
            lines = [Line(reader.linear(case.state).plus(state, -1), "=")]
            lines += [reader.line(it) for it in case.conditions]
            if contradict([*self.lines, *lines]):
                continue
            found.append((case, f"case {case.state_text}: {reader.items(case.items)}"))
        return found


def state_name(region):
    """The name that a region type has for its whole state, or `s`."""
    whole = [sole_name(it.state) for it in region.cases]
    whole += [sole_name(it.source) for it in region.actions]
    return next((it for it in whole if it and it not in region.parameters), "s")


class Instance:
    """An assertion of a case whose names stand for what a state has."""

    def __init__(self, reading, names):
        self.reading, self.names = reading, names

    def variable(self, name):
        """What a name stands for: a new variable where it is new here."""
        if name not in self.names:
            new = f"?{name}{len(self.reading.names.by)}"
            self.reading.names.by[new] = self.reading.names.free(name)
            self.names[name] = number(new)
        return self.names[name]

    def linear(self, term):
        """A term of the text."""
        return linear_of(term, self.variable)

    def line(self, comparison):
        """A comparison as a line."""
        return line_of(comparison, self.variable, self.reading.shares)

    def slot(self, slot):
        """A slot as it is shown."""
        return "_" if slot is None else self.reading.text(self.linear(slot))

    def comparison(self, comparison):
        """A comparison as it is shown."""
        sign, left, right = comparison
        return f"{self.slot(left)} {sign} {self.slot(right)}"

    def items(self, items):
        """Items as they are shown. Of a conditional that is decided the side alone is."""
        return " &*& ".join(it for it in map(self.item, items) if it) or "true"

    def item(self, item):
        """An item as it is shown."""
        if item.kind in ("true", "false"):
            return item.kind if item.kind == "false" else ""
        if item.kind == "comparison":
            return self.comparison(item.parts)
        if item.kind == "cell":
            return f"{self.slot(item.parts[0])} |-> {self.slot(item.parts[1])}"
        if item.kind == "fact":
            kind, region, slots, state = item.parts
            return f"{kind}({', '.join([self.slot(region), *map(self.slot, slots)])}; {self.slot(state)})"
        if item.kind == "atom":
            region, kind, guard, slot = item.parts
            word = "" if kind in ("", "share") else f"{kind} "
            return f"{self.slot(region)}@{word}{guard}" + (f"[{self.slot(slot)}]" if kind else "")
        return self.conditional(item)

    def conditional(self, item):
        """A conditional as it is shown."""
        (sign, left, right), then, other = item.parts
        known = self.reading.lines
        if contradict([*known, self.line((OPPOSITE[sign], left, right))]) and sign != "=":
            return self.items(then)
        if contradict([*known, self.line((sign, left, right))]):
            return self.items(other)
        return f"{self.comparison(item.parts[0])} ? {{ {self.items(then)} }} : {{ {self.items(other)} }}"


def readable(trees, node, wanted=None):
    """A node's state as a person reads it, and whether it has what is wanted there: `fact` with a comparison, or `cell` with
    an address."""
    reading = Reading(trees.program, trees.function_of(node), node.state, trees.is_body(node))
    found = reading.readable()
    if wanted is not None:
        need, term = wanted
        found.has = (need, reading.knows(term) if need == "fact" else reading.holds(term))
    return found
