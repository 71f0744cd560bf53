"""The trees of a derivation, by the program's text and an outline: which rule stands at which statement, and on which
path it was come to.

A derivation's lines are its nodes in preorder, and say how many subgoals a node has only by what its goal is. So the
tasks of each goal are followed here, as docs/RULES.md says them ("States, tasks and goals"), and of its state as much as
that takes: the facts, the opened regions, and what names of regions stand for. At a statement the facts come from the
outline, where there is one. The texts have to fit together at each node, or `Apart` says where they don't."""

from dataclasses import dataclass, replace

from asserted import sole_name

HEAP = ("read", "write", "cas", "faa", "dispose")
# The rules that each kind of statement may be done by, `absurd` apart.
DONE_BY = {kind: ("clash", "enter", "act") for kind in HEAP}
DONE_BY |= {it: (it,) for it in ("set", "alloc", "assert", "if", "call", "fork", "return")}
DONE_BY["while"] = ("loop",)


class Apart(Exception):
    """A derivation, an outline and a program that don't fit together."""


@dataclass
class Node:
    """A node: its rule with its arguments, its parent's number or None, its tree's number, the statement at which its
    task arose, whether its goal stands there with no region opened, the outline's state there, what the rule speaks of,
    in words, and which of its parent's subgoals it is."""

    rule: str
    arguments: list
    parent: int
    tree: int
    statement: object = None
    stands: bool = False
    state: object = None
    about: str = ""
    side: str = ""


@dataclass
class Tree:
    """A tree: its unit's kind and name, what it is of, in words, and its first node's number."""

    unit: tuple
    of: str
    first: int
    loop: object = None
    is_body: bool = False


@dataclass(frozen=True)
class Known:
    """What is followed of a goal's state: facts and opened regions, a type, a region and arguments each, and the
    environments, of each of which the names that stand for something."""

    facts: tuple = ()
    opened: tuple = ()
    environments: tuple = ()

    def name(self, number, name):
        """What a name of an environment stands for, or None."""
        return self.environments[number].get(name)

    def bound(self, number, more):
        """The same with these names of an environment bound."""
        changed = {**self.environments[number], **more}
        return replace(self, environments=(*self.environments[:number], changed, *self.environments[number + 1 :]))

    def begun(self, names):
        """The same with a new environment, and its number."""
        return replace(self, environments=(*self.environments, names)), len(self.environments)

    def added(self, fact):
        """The same with a fact added, which takes the place of one of the same region and type."""
        kept = tuple(it for it in self.facts if it[:2] != fact[:2])
        return replace(self, facts=(*kept, fact))


@dataclass(frozen=True)
class Goal:
    """A goal: what is known, its tasks as a chain, its parent's number, and which side of a parent's it is."""

    known: Known
    tasks: tuple
    parent: int
    side: str = ""
    statement: object = None


def chained(block, rest):
    """The statements of a block, and then the rest, as a chain."""
    for statement in reversed(block):
        rest = statement, rest
    return rest


def told(items):
    """The items that are not `true`."""
    return tuple(it for it in items if it.kind != "true")


class Trees:
    """The trees of a derivation, with the states of an outline where there is one."""

    def __init__(self, program, derivation, points=None):
        self.program, self.derivation, self.is_outlined = program, derivation, points is not None
        self.nodes, self.trees, self.fresh = [], [], 0
        self.states = {(it.function, it.place): list(reversed(it.states)) for it in points or []}
        self.unit = None
        for region in program.regions.values():
            self.of_region(region)
        for function in program.functions.values():
            self.of_function(function)
        if len(self.nodes) != len(derivation.nodes):
            raise Apart(f"node {len(self.nodes) + 1} is left over")
        if any(self.states.values()):
            raise Apart("a state of the outline is left over")

    # ---- roots

    def of_region(self, region):
        """The trees of a region type's cases."""
        self.unit = "region", region.name
        for case in region.cases:
            names = {it: self.new() for it in region.parameters}
            known, number = Known(opened=(self.fact_of(region, names),)).begun(names)
            tasks = (("give", told(case.items), number), (("rest", 0), (("close",), None)))
            self.tree(f"case {case.state_text} is stable", Goal(known, tasks, None))

    def of_function(self, function):
        """The trees of a function."""
        self.unit = "function", function.name
        for word, items in (("requires", function.requires), ("ensures", function.ensures)):
            self.stable(function, f"{word} is stable", items)
        self.function = function
        fixed = self.numbered(len(function.parameters), function.fixed())
        known, number = Known().begun({**self.numbered(0, function.parameters), **fixed})
        tasks = (("give", told(function.requires), number), (("run", chained(function.body, None)), None))
        self.tree("the body", Goal(known, tasks, None), is_body=True)
        rests = dict(self.rests(function.body, None))
        for loop in function.loops():
            self.stable(function, "the invariant is stable", loop.invariant, loop)
            names = self.loop_names(function)
            known, number = Known().begun(names)
            tasks = (("give", told(loop.invariant), number), (("turn", (loop, rests[id(loop)])), None))
            self.tree("the loop", Goal(known, tasks, None), loop)

    def rests(self, block, rest):
        """What follows each loop of a block, by the loop."""
        if block:
            yield from self.rests(block[1:], rest)
            first, then = block[0], chained(block[1:], rest)
            if first.kind == "while":
                yield id(first), then
                yield from self.rests(first.parts[1], (first, then))
            if first.kind == "if":
                yield from self.rests(first.parts[1], then)
                yield from self.rests(first.parts[2], then)

    def numbered(self, first, names):
        """Names with the terms of the variables from a number on."""
        return {name: variable(first + number) for number, name in enumerate(names)}

    def loop_names(self, function):
        """What names of a function stand for at the head of a loop."""
        return self.numbered(0, [*function.parameters, *function.locals, *function.fixed()])

    def stable(self, function, of, items, loop=None):
        """The tree of an assertion's stability."""
        names = {it: self.new() for it in function.parameters + function.locals + function.fixed()}
        known, number = Known().begun(names)
        known, other = known.begun(names)
        tasks = (("give", told(items), number), (("rest", 0), (("take", told(items), other), None)))
        self.tree(of, Goal(known, tasks, None), loop)

    def tree(self, of, goal, loop=None, is_body=False):
        """Reads a tree."""
        self.trees.append(Tree(self.unit, of, len(self.nodes), loop, is_body))
        goals = [goal]
        while goals:
            head = self.headed(goals.pop())
            if head is not None:
                goals += reversed(self.step(head))

    def new(self):
        """A term that is no other."""
        self.fresh += 1
        return f"?{self.fresh}"

    # ---- goals

    @staticmethod
    def headed(goal):
        """A goal without the first tasks that have nothing to do, or None where no task is left."""
        tasks = goal.tasks
        while tasks is not None:
            first, rest = tasks
            idle = first[0] in ("give", "take") and not first[1]
            if not idle and not (first[0] == "rest" and first[1] == len(goal.known.facts)):
                return replace(goal, tasks=tasks)
            tasks = rest
        return None

    def fail(self, why):
        """Says that the node that was read last doesn't fit."""
        raise Apart(f"node {len(self.nodes)}: {why}")

    def step(self, goal):
        """Reads the node of a goal, and gives its subgoals in order."""
        number = len(self.nodes)
        if number == len(self.derivation.nodes):
            raise Apart(f"there is no node {number + 1}")
        rule, *arguments = self.derivation.nodes[number]
        task, rest = goal.tasks
        node = Node(rule, arguments, goal.parent, len(self.trees) - 1, goal.statement, side=goal.side)
        self.nodes.append(node)
        goal = replace(goal, parent=number, side="")
        if task[0] in ("run", "turn"):
            node.statement = task[1][0]
            goal = replace(goal, statement=node.statement)
            node.stands = not goal.known.opened
            if node.stands and self.is_outlined:
                goal = self.at_state(goal, node)
        if rule == "absurd":
            return []
        reader = getattr(self, f"at_{task[0]}")
        return reader(goal, node, task, rest)

    def at_state(self, goal, node):
        """A goal at a statement, its facts as the outline has them."""
        states = self.states.get((self.function.name, node.statement.place))
        if not states:
            self.fail("the outline has no state for it")
        node.state = states.pop()
        facts = tuple((it.type, text_of(it.region), tuple(map(text_of, it.arguments))) for it in node.state.facts)
        return replace(goal, known=Known(facts))

    def needs(self, node, *rules):
        """Refuses a node that is by none of these rules."""
        if node.rule not in rules:
            self.fail(f"{node.rule} where {' or '.join(rules)} is expected")

    def number_in(self, node, at, size):
        """A number of a node's arguments, which is below this one."""
        found = node.arguments[at] if at < len(node.arguments) else None
        if not isinstance(found, int) or not 0 <= found < size:
            self.fail(f"{node.rule} has no such number")
        return found

    # ---- statements

    def at_run(self, goal, node, task, _rest):
        """The subgoals of a node at a statement."""
        statement, then = task[1]
        self.needs(node, *DONE_BY[statement.kind])
        if node.rule == "enter":
            return self.entered(goal, node)
        if node.rule == "act":
            return self.acted(goal, statement, then)
        return getattr(self, f"run_{node.rule}")(goal, statement, then)

    def run_clash(self, _goal, _statement, _then):
        """`clash`."""
        return []

    def run_set(self, goal, _statement, then):
        """`set`, `alloc` and `assert`."""
        return [replace(goal, tasks=(("run", then), None))]

    run_alloc = run_assert = run_set

    def run_if(self, goal, statement, then):
        """`if`."""
        _, block, other = statement.parts
        return [
            replace(goal, tasks=(("run", chained(it, then)), None), side=side)
            for it, side in ((block, "it holds"), (other, "it does not hold"))
        ]

    def run_loop(self, goal, statement, _then):
        """`loop`."""
        known, number = goal.known.begun(self.names_now())
        return [replace(goal, known=known, tasks=(("take", told(statement.invariant), number), None))]

    def run_return(self, goal, _statement, _then):
        """`return`."""
        known, number = goal.known.begun(self.names_now())
        return [replace(goal, known=known, tasks=(("take", told(self.function.ensures), number), None))]

    def names_now(self):
        """What names of regions stand for in the tree that is read: the fixed names alone can be such."""
        names = self.function.fixed()
        if self.trees[-1].is_body:
            return self.numbered(len(self.function.parameters), names)
        return {it: self.loop_names(self.function)[it] for it in names}

    def called(self, goal, name, rest, is_call):
        """A call or a fork."""
        callee = self.program.functions[name]
        known, number = goal.known.begun({it: self.new() for it in callee.parameters})
        if is_call:
            rest = ("give", told(callee.ensures), number), rest
        tasks = ("take", told(callee.requires), number), (("rest", 0), rest)
        return [replace(goal, known=known, tasks=tasks)]

    def run_call(self, goal, statement, then):
        """`call`."""
        return self.called(goal, statement.parts[1], (("run", then), None), True)

    def run_fork(self, goal, statement, then):
        """`fork`."""
        return self.called(goal, statement.parts[0], (("run", then), None), False)

    def fact_of(self, region, names):
        """The fact of a region, its names as they are bound."""
        return region.name, names[region.parameters[0]], tuple(names[it] for it in region.parameters[1:])

    def case_names(self, known, fact):
        """A new environment for a case of a region: with it what is known, and its number."""
        region = self.program.regions[fact[0]]
        return known.begun(dict(zip(region.parameters, (fact[1], *fact[2]))))

    def entered(self, goal, node):
        """`enter`."""
        at = self.number_in(node, 0, len(goal.known.facts))
        fact = goal.known.facts[at]
        node.about = fact[0]
        facts = goal.known.facts[:at] + goal.known.facts[at + 1 :]
        known = replace(goal.known, facts=facts, opened=(*goal.known.opened, fact))
        subgoals = []
        for case in self.program.regions[fact[0]].cases:
            inner, number = self.case_names(known, fact)
            tasks = ("give", told(case.items), number), goal.tasks
            subgoals.append(replace(goal, known=inner, tasks=tasks, side=f"{fact[0]} in case {case.state_text}"))
        return subgoals

    def acted(self, goal, statement, then):
        """`act`."""
        tasks = (("rest", 0), (("run", then), None))
        for _ in goal.known.opened:
            tasks = ("close",), tasks
        sides = ("it swaps", "it does not swap") if statement.kind == "cas" else ("",)
        return [replace(goal, tasks=tasks, side=it) for it in sides]

    def at_turn(self, goal, node, task, _rest):
        """The head of a loop."""
        self.needs(node, "turn")
        loop, then = task[1]
        return [
            replace(goal, tasks=(("run", it), None), side=side)
            for it, side in ((chained(loop.parts[1], task[1]), "a further turn"), (then, "the loop ends"))
        ]

    # ---- assertions

    def at_give(self, goal, node, task, rest):
        """An assertion that is given."""
        self.needs(node, "give")
        _, items, number = task
        known, left = goal.known, list(items)
        while left and left[0].kind != "conditional":
            known = self.given(known, left.pop(0), number)
        if not left:
            return [replace(goal, known=known, tasks=rest)] if rest else []
        return self.both_sides(replace(goal, known=known), left, rest, ("give", number))

    def both_sides(self, goal, items, rest, of):
        """The subgoals of a conditional, the first of these items."""
        first, *then = items
        return [
            replace(goal, tasks=((of[0], (*told(it), *then), of[1]), rest), side=side)
            for it, side in zip(first.parts[1:], ("its condition holds", "its condition does not hold"))
        ]

    def given(self, known, item, number):
        """What is known where an item is given."""
        names = [sole_name(it) if isinstance(it, list) else it for it in bindable(item)]
        known = known.bound(number, {it: self.new() for it in names if it and known.name(number, it) is None})
        if item.kind != "fact":
            return known
        kind, region, slots, _ = item.parts
        arguments = tuple(self.term_in(known, number, it) for it in slots)
        return known.added((kind, known.name(number, region), arguments))

    def term_in(self, known, number, slot):
        """What a slot stands for: a name's term, or one that is no other."""
        name = sole_name(slot) if slot is not None else None
        return (name and known.name(number, name)) or self.new()

    def at_take(self, goal, node, task, rest):
        """An assertion that is given up."""
        _, items, number = task
        item, then = items[0], (("take", items[1:], number), rest)
        wanted = {"comparison": "fact", "false": "fact", "conditional": "cases", "cell": "cell"}
        node.about = self.program.text[item.start : item.end]
        if item.kind in wanted:
            self.needs(node, wanted[item.kind])
        if item.kind == "conditional":
            return self.both_sides(goal, items, rest, ("take", number))
        if item.kind == "cell":
            name = sole_name(item.parts[1]) if item.parts[1] is not None else None
            if name and goal.known.name(number, name) is None:
                goal = replace(goal, known=goal.known.bound(number, {name: self.new()}))
        if item.kind == "atom":
            self.needs(node, "guard", "convert")
            return [replace(goal, tasks=goal.tasks if node.rule == "convert" else then)]
        if item.kind == "fact":
            return self.taken_fact(goal, node, item, number, then)
        return [replace(goal, tasks=then)]

    def taken_fact(self, goal, node, item, number, then):
        """A fact that is given up: one that is known, or one of a region that is made."""
        self.needs(node, "region", "create")
        kind, name, slots, _ = item.parts
        if node.rule == "region":
            fact = goal.known.facts[self.number_in(node, 0, len(goal.known.facts))]
            if fact[0] != kind:
                self.fail(f"a fact of {fact[0]} where one of {kind} is expected")
            more = {name: fact[1]} | {sole_name(it): term for it, term in zip(slots, fact[2]) if it and sole_name(it)}
            more = {it: term for it, term in more.items() if goal.known.name(number, it) is None}
            return [replace(goal, known=goal.known.bound(number, more), tasks=then)]
        region = self.program.regions[kind]
        case = region.cases[self.number_in(node, 0, len(region.cases))]
        node.about = f"{kind} in case {case.state_text}"
        fact = kind, self.new(), tuple(self.term_in(goal.known, number, it) for it in slots)
        known, inner = self.case_names(goal.known, fact)
        tasks = ("take", told(case.items), inner), (("made", fact), goal.tasks)
        return [replace(goal, known=known, tasks=tasks)]

    # ---- regions

    def at_made(self, goal, node, task, rest):
        """A region that is made."""
        self.needs(node, "made")
        return [replace(goal, known=goal.known.added(task[1]), tasks=rest)]

    def at_close(self, goal, node, _task, rest):
        """A region that is to be closed."""
        self.needs(node, "pick")
        opened = self.number_in(node, 0, len(goal.known.opened))
        fact = goal.known.opened[opened]
        region = self.program.regions[fact[0]]
        case = region.cases[self.number_in(node, 1, len(region.cases))]
        move = self.number_in(node, 2, len(region.actions) + 1)
        how = "as it was" if move == 0 else f"by {action_text(region.actions[move - 1])}"
        node.about = f"{fact[0]} in case {case.state_text}, {how}"
        known, number = self.case_names(goal.known, fact)
        tasks = ("take", told(case.items), number), (("shift", opened), rest)
        return [replace(goal, known=known, tasks=tasks)]

    def at_shift(self, goal, node, task, rest):
        """A move that is checked."""
        self.needs(node, "shift")
        known, opened = goal.known, goal.known.opened
        known = replace(known, opened=opened[: task[1]] + opened[task[1] + 1 :]).added(opened[task[1]])
        return [replace(goal, known=known, tasks=rest)] if rest else []

    def at_rest(self, goal, node, task, rest):
        """A fact that is settled."""
        self.needs(node, "settle", "keep")
        node.about = goal.known.facts[task[1]][0]
        return [replace(goal, tasks=(("rest", task[1] + 1), rest))]

    # ---- what is asked

    def function_of(self, node):
        """The function of a node's tree."""
        return self.program.functions[self.trees[node.tree].unit[1]]

    def is_body(self, node):
        """Whether a node is in the tree of a body."""
        return self.trees[node.tree].is_body

    def path(self, number):
        """The nodes from the first of a tree to this one."""
        path = []
        while number is not None:
            path.append(number)
            number = self.nodes[number].parent
        return path[::-1]


def variable(number):
    """The term of a variable."""
    return f"1*v{number}"


def text_of(term):
    """A term as an outline has it."""
    parts = [str(term.constant)] if term.constant or not term.parts else []
    return " + ".join(parts + [f"{coefficient}*v{name}" for name, coefficient in term.parts])


def action_text(action):
    """An action as it stands."""
    when = f" when {action.conditions_text}" if action.conditions_text else ""
    return f"{action.guards_text} : {action.source_text} ~> {action.target_text}{when}"


def bindable(item):
    """The names and slots of an item by which a name may be bound."""
    if item.kind == "cell":
        return [it for it in item.parts[1:] if it is not None]
    if item.kind == "fact":
        return [item.parts[1], *(it for it in (*item.parts[2], item.parts[3]) if it is not None)]
    return [item.parts[3]] if item.kind == "atom" and item.parts[3] is not None else []
