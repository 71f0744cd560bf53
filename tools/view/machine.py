"""The machine of the language (docs/LANGUAGE.md, "The machine"), for what a replay doesn't tell: what a swap or an
addition puts into its cell, how many cells an allocation has, and what stands ahead of a thread.

It runs beside a replay and has to agree with it at each step; `Differs` says where it doesn't."""

import math
from dataclasses import dataclass, field

from texts import FAULTS, place_text

COMPARE = {
    "=": lambda a, b: a == b,
    "!=": lambda a, b: a != b,
    "<": lambda a, b: a < b,
    "<=": lambda a, b: a <= b,
    ">": lambda a, b: a > b,
    ">=": lambda a, b: a >= b,
}


class Differs(Exception):
    """The machine makes another step than the replay says."""


@dataclass
class Frame:
    """A function that runs: its values by name, its remaining statements as a chain, and the caller's local."""

    function: object
    values: dict
    rest: tuple
    destination: str = None


@dataclass
class Touch:
    """What a step did: its event with arguments, and the addresses that it read, wrote or made."""

    event: str
    arguments: tuple = ()
    reads: list = field(default_factory=list)
    writes: list = field(default_factory=list)


def chain(block, rest):
    """The statements of a block, and then the rest."""
    for statement in reversed(block):
        rest = statement, rest
    return rest


def value(values, term):
    """A term's value: a number, a name, or a sum of products."""
    if isinstance(term, int):
        return term
    if isinstance(term, str):
        if term not in values:
            raise Differs(f"the text has a name that isn't known: {term}")
        return values[term]
    return sum(sign * math.prod(value(values, it) for it in factors) for sign, factors in term)


def holds(values, comparison):
    """Whether a comparison holds."""
    sign, left, right = comparison
    return COMPARE[sign](value(values, left), value(values, right))


class Machine:
    """A program that runs: its heap, and its threads, each a list of frames with the top one last."""

    def __init__(self, program, schedule):
        self.program = program
        self.heap = dict(schedule.cells)
        self.threads = [[self.frame("main", schedule.arguments)]]

    def frame(self, name, arguments, destination=None):
        """A function's first frame."""
        function = self.program.functions.get(name)
        if function is None or len(function.parameters) != len(arguments):
            raise Differs(f"the text has no function {name} of {len(arguments)} parameters")
        values = {**dict(zip(function.parameters, arguments)), **{it: 0 for it in function.locals}}
        return Frame(function, values, chain(function.body, None), destination)

    def ahead(self, thread):
        """The next statement of a thread, or None where it has ended."""
        return self.threads[thread][-1].rest[0] if self.threads[thread] else None

    def step(self, thread, base):
        """Makes the next step of a thread, whose statement and touch it gives."""
        if not (thread < len(self.threads) and self.threads[thread]):
            raise Differs(f"thread {thread} doesn't run")
        frame = self.threads[thread][-1]
        statement, frame.rest = frame.rest
        if (base is not None) != (statement.kind == "alloc"):
            raise Differs(f"a base is given exactly to an allocation, and {place_text(statement.place)} is another")
        if statement.kind == "while":
            frame.rest = statement, frame.rest
        touch = getattr(self, f"do_{statement.kind}")(thread, frame, base, *statement.parts)
        if touch.event in FAULTS:
            frame.rest = statement, frame.rest
        return statement, touch

    def at_cell(self, address, touch):
        """A touch of a cell, or a fault where it is absent."""
        return touch if address in self.heap else Touch("fault", (address,))

    def do_set(self, _thread, frame, _base, name, term):
        """`x := t`."""
        frame.values[name] = value(frame.values, term)
        return Touch("set", (frame.values[name],))

    def do_read(self, _thread, frame, _base, name, term):
        """`x := [a]`."""
        address = value(frame.values, term)
        if address in self.heap:
            frame.values[name] = self.heap[address]
        return self.at_cell(address, Touch("read", (address, self.heap.get(address)), reads=[address]))

    def do_write(self, _thread, frame, _base, term, new):
        """`[a] := t`."""
        address, new = value(frame.values, term), value(frame.values, new)
        if address in self.heap:
            self.heap[address] = new
        return self.at_cell(address, Touch("write", (address, new), writes=[address]))

    def do_cas(self, _thread, frame, _base, name, term, old, new):
        """`x := CAS(a, old, new)`."""
        address, old, new = (value(frame.values, it) for it in (term, old, new))
        if address not in self.heap:
            return Touch("fault", (address,))
        swaps = self.heap[address] == old
        if swaps:
            self.heap[address] = new
        frame.values[name] = int(swaps)
        return Touch("cas", (address, int(swaps)), *([[], [address]] if swaps else [[address], []]))

    def do_faa(self, _thread, frame, _base, name, term, added):
        """`x := FAA(a, t)`."""
        address, added = value(frame.values, term), value(frame.values, added)
        if address not in self.heap:
            return Touch("fault", (address,))
        frame.values[name] = self.heap[address]
        self.heap[address] += added
        return Touch("faa", (address, frame.values[name]), writes=[address])

    def do_dispose(self, _thread, frame, _base, term):
        """`dispose(a)`."""
        address = value(frame.values, term)
        touch = self.at_cell(address, Touch("dispose", (address,), writes=[address]))
        self.heap.pop(address, None)
        return touch

    def do_alloc(self, _thread, frame, base, name, count):
        """`x := alloc(n)`."""
        cells = range(base, base + count)
        if base < 1 or any(it in self.heap for it in cells):
            raise Differs(f"the base {base} isn't free")
        self.heap.update(dict.fromkeys(cells, 0))
        frame.values[name] = base
        return Touch("alloc", (base,), writes=list(cells))

    def do_call(self, thread, frame, _base, destination, name, terms):
        """`x := f(..)` and `f(..)`."""
        arguments = [value(frame.values, it) for it in terms]
        self.threads[thread].append(self.frame(name, arguments, destination))
        return Touch("call")

    def do_fork(self, _thread, frame, _base, name, terms):
        """`fork f(..)`."""
        self.threads.append([self.frame(name, [value(frame.values, it) for it in terms])])
        return Touch("fork", (len(self.threads) - 1,))

    def do_if(self, _thread, frame, _base, comparison, block, other):
        """`if (c) {..} else {..}`."""
        taken = holds(frame.values, comparison)
        frame.rest = chain(block if taken else other, frame.rest)
        return Touch("branch", (int(taken),))

    def do_while(self, _thread, frame, _base, comparison, block, _other):
        """`while (c) {..}`, which stays behind its block."""
        taken = holds(frame.values, comparison)
        frame.rest = chain(block, frame.rest) if taken else frame.rest[1]
        return Touch("branch", (int(taken),))

    def do_assert(self, _thread, frame, _base, comparison):
        """`assert c`."""
        return Touch("assert") if holds(frame.values, comparison) else Touch("failed")

    def do_return(self, thread, frame, _base, term):
        """`return t`, also at the end of a body."""
        result = value(frame.values, term)
        frames = self.threads[thread]
        frames.pop()
        if not frames:
            return Touch("end", (result,))
        if frame.destination is not None:
            frames[-1].values[frame.destination] = result
        return Touch("return", (result,))
