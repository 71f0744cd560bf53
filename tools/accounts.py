"""A judge of the accounts that `owners` prints along a run (docs/LANGUAGE.md tells what regions, guards and actions mean).

It reads the text of the program and the text of the accounts, shares no code with caper, and follows the run itself. What
it asks of each account by itself, and of each two that follow one another, has a name, by which a text is refused:

    frames    the lines are those of the frames of the run, with the fixed names of their functions
    start     the first account has no region, and gives main the whole heap
    table     regions are numbered from 1 as they come, and keep their number, type and arguments
    spelling  guards are written as an element of their type's algebra is
    heap      a cell of a part is in the heap, with its value
    apart     no cell is in two parts
    compose   the guards of all parts compose, at each region
    case      a region's part has what a case for its state says, for some values of the case's names
    values    a frame keeps the values of its fixed names
    kept      a frame that doesn't step keeps its part, but for the caller at a return, which is given something
    closed    a region that isn't opened keeps its state and its part; only a statement on the heap opens regions
    opened    at most two regions are opened in one step
    access    the cell of a statement on the heap is in the part of the stepping frame or of a region
    action    a state changes by an action whose guards the stepping frame had before the step
    invented  what the stepping frame, opened regions, and new frames and regions have was there before, or is new
    requires  a new frame's part and values meet what its function requires
    ensures   what a frame hands over at its return meets what its function ensures"""

from dataclasses import dataclass, field
from fractions import Fraction

from asserted import Item
from guards import algebra_of
from machine import Differs, Machine
from meeting import Held, Meeting, shares_of
from texts import place_text
from tokens import tokens_of

# The statements on the heap.
ON_HEAP = ("read", "write", "cas", "faa", "dispose")


class Refused(Exception):
    """An account that isn't right: the condition that it breaks, the step, and why."""

    def __init__(self, condition, why):
        self.condition, self.why, self.step = condition, why, None
        super().__init__(condition)

    def __str__(self):
        return f"step {self.step}: {self.condition}: {self.why}"


@dataclass
class View:
    """An account as it is looked at: the regions by number, and the parts of regions and of frames, by thread and number."""

    table: dict
    regions: dict = field(default_factory=dict)
    frames: dict = field(default_factory=dict)
    names: dict = field(default_factory=dict)

    def parts(self):
        """All parts, each with what has it."""
        for number, part in self.regions.items():
            yield f"region {number}", part
        for (thread, frame), part in self.frames.items():
            yield f"thread {thread} frame {frame}", part


@dataclass
class Move:
    """A step: its statement and touch, the frame that makes it, the one that it makes, and the one that it hands over to."""

    statement: object
    touch: object
    stepping: tuple
    frame: object
    new: tuple = None
    caller: tuple = None
    is_last: bool = False


class Judge:
    """Judges the accounts of a program's runs."""

    def __init__(self, program):
        self.program = program
        self.algebras = {
            name: algebra_of([token.text for token in tokens_of(it.guards)[:-1]]) for name, it in program.regions.items()
        }
        self.fixed = {
            name: [(one, one in shares_of(it.requires, it.parameters)) for one in it.fixed()]
            for name, it in program.functions.items()
        }
        # Regions whose part was found to have a case, with the table by which it has it.
        self.cased = set()

    def judge(self, schedule, owned):
        """Refuses the first account of a run that isn't right."""
        machine, before = Machine(self.program, schedule), None
        for number, account in enumerate(owned.accounts):
            try:
                move = self.move(machine, schedule.entries[number - 1], owned.run.steps[number - 1]) if number else None
                view = self.view(account, machine)
                self.valid(account, view, machine.heap)
                if move is None:
                    self.first(view, machine)
                else:
                    self.follows(before, view, move, machine)
            except Refused as it:
                it.step = number
                raise
            before = view

    # ---- the run

    def move(self, machine, entry, step):
        """Makes a step, which is that of the text."""
        thread, base = entry
        frames = machine.threads[thread]
        top = len(frames) - 1
        frame = frames[top]
        statement, touch = machine.step(thread, base)
        made = thread, statement.place, touch.event, touch.arguments
        if made != (step.thread, step.place, step.event, step.arguments):
            said = " ".join([touch.event, *map(str, touch.arguments)])
            raise Differs(f"step {step.number}: {step.said()}, where {place_text(statement.place)} {said} is made")
        move = Move(statement, touch, (thread, top), frame)
        if touch.event == "call":
            move.new = thread, top + 1
        if touch.event == "fork":
            move.new = touch.arguments[0], 0
        if touch.event == "return":
            move.caller = thread, top - 1
        move.is_last = touch.event == "end"
        return move

    # ---- an account by itself

    def view(self, account, machine):
        """An account, the lines of which are those of the run's frames."""
        wanted = [(thread, at) for thread, frames in enumerate(machine.threads) for at in range(len(frames))]
        if [(it.thread, it.frame) for it in account.frames] != wanted:
            raise Refused("frames", f"the run has the frames {wanted}")
        view = View({it.number: it for it in account.regions})
        for it in account.regions:
            kind = self.program.regions.get(it.type)
            if kind is None or len(it.arguments) != len(kind.parameters) - 1:
                raise Refused("table", f"no region type {it.type} of so many parameters")
            view.regions[it.number] = self.held(it.part, view.table)
        for it in account.frames:
            function = machine.threads[it.thread][it.frame].function
            sorts = [(name, isinstance(value, Fraction)) for name, value in it.names]
            if sorts != self.fixed[function.name]:
                raise Refused("frames", f"thread {it.thread} frame {it.frame} has other names than {function.name}")
            view.frames[it.thread, it.frame] = self.held(it.part, view.table)
            view.names[it.thread, it.frame] = dict(it.names)
        return view

    def held(self, part, table):
        """A part with its guards as elements."""
        held = Held(dict(part.cells))
        for number in dict.fromkeys(it.region for it in part.guards):
            if number not in table:
                raise Refused("table", f"a guard of region {number}, which isn't there")
            algebra, element = self.algebras[table[number].type], None
            for it in (it for it in part.guards if it.region == number):
                atom = algebra.atom(it.kind, it.name, it.amount, it.last)
                if atom is None:
                    raise Refused("spelling", f"no guard of a {table[number].type}: {it.kind} {it.name}")
                element = atom if element is None else algebra.join(element, atom)
                if element is None:
                    raise Refused("compose", f"guards of region {number} in one part")
            only = type(part)((), tuple(it for it in part.guards if it.region == number))
            if only.said() != f"{number}@" + " * ".join(algebra.said(element)):
                raise Refused("spelling", f"{only.said()}, where {' * '.join(algebra.said(element))} is meant")
            held.guards[number] = element
        return held

    def valid(self, account, view, heap):
        """Refuses an account that isn't right by itself."""
        owners = {}
        for name, part in view.parts():
            for address, value in part.cells.items():
                if address not in heap or heap[address] != value:
                    raise Refused("heap", f"{name} has {address} |-> {value}, the heap {heap.get(address, 'no such cell')}")
                if address in owners:
                    raise Refused("apart", f"{name} and {owners[address]} have the cell {address}")
                owners[address] = name
        self.together(view.table, [part for _, part in view.parts()])
        states = tuple((it.number, it.type, it.arguments, it.state) for it in account.regions)
        for it in account.regions:
            if (it, states) not in self.cased:
                self.case(view, it)
                self.cased.add((it, states))

    def together(self, table, parts):
        """The guards of parts, composed at each region."""
        found = {}
        for part in parts:
            for number, element in part.guards.items():
                algebra = self.algebras[table[number].type]
                found[number] = algebra.join(found.get(number, algebra.unit), element)
                if found[number] is None:
                    raise Refused("compose", f"the guards of region {number}")
        return found

    def case(self, view, region):
        """Refuses a region whose part has no case for its state."""
        kind = self.program.regions[region.type]
        values = dict(zip(kind.parameters, (region.number, *region.arguments)))
        meeting = Meeting(view.table, self.algebras, view.regions[region.number])
        for it in kind.cases:
            shares = shares_of(it.items, kind.parameters)
            if meeting.meets([("=", it.state, region.state), *it.conditions, *it.items], values, shares):
                return
        raise Refused("case", f"{region.said()} has {region.part.said()}")

    def first(self, view, machine):
        """Refuses a first account that isn't that of a start."""
        if view.table:
            raise Refused("start", "there are regions")
        if view.frames[0, 0].cells != machine.heap:
            raise Refused("start", "main hasn't the whole heap")
        self.requires(view, (0, 0), machine)

    # ---- an account after another

    def follows(self, before, after, move, machine):
        """Refuses an account that doesn't follow the one before."""
        for key in before.frames.keys() & after.frames.keys():
            if before.names[key] != after.names[key]:
                raise Refused("values", "thread {} frame {}".format(*key))
            if key not in (move.stepping, move.caller) and before.frames[key] != after.frames[key]:
                raise Refused("kept", "the part of thread {} frame {}".format(*key))
        made = self.made(before, after)
        opened = self.opened(before, after, move)
        for number in opened:
            self.action(before, after, number, before.frames[move.stepping])
        handed = self.handed(before, after, move, made)
        self.exchange(before, after, move, opened, made, handed)
        if move.new:
            self.requires(after, move.new, machine)
        if handed:
            self.ensures(before, after, move, handed)

    def made(self, before, after):
        """The numbers of the regions that are new."""
        for number, it in before.table.items():
            other = after.table.get(number)
            if other is None or (it.type, it.arguments) != (other.type, other.arguments):
                raise Refused("table", f"region {number} isn't what it was")
        made = [it for it in after.table if it not in before.table]
        if made != list(range(len(before.table) + 1, len(after.table) + 1)):
            raise Refused("table", f"new regions are numbered on, not {made}")
        return made

    def opened(self, before, after, move):
        """The numbers of the regions that are opened, which only a statement on the heap may do."""
        opened = [
            number
            for number, it in before.table.items()
            if before.regions[number] != after.regions[number] or it.state != after.table[number].state
        ]
        if move.statement.kind not in ON_HEAP:
            if opened:
                raise Refused("closed", f"region {opened[0]} at {move.statement.kind}")
            return opened
        address = move.touch.arguments[0]
        if address not in before.frames[move.stepping].cells:
            owner = next((number for number, it in before.regions.items() if address in it.cells), None)
            if owner is None:
                raise Refused("access", f"the cell {address}")
            opened = sorted({*opened, owner})
        if len(opened) > 2:
            raise Refused("opened", f"the regions {opened}")
        return opened

    def action(self, before, after, number, part):
        """Refuses a change of a region's state that no action makes by the guards of a part."""
        region, state = before.table[number], after.table[number].state
        if region.state == state:
            return
        kind = self.program.regions[region.type]
        meeting = Meeting(before.table, self.algebras, Held({}, part.guards))
        for it in kind.actions:
            guards = [Item(it.place, 0, 0, "atom", (kind.parameters[0], *guard)) for guard in it.guards]
            moves = [("=", it.source, region.state), ("=", it.target, state), *it.conditions, *guards]
            values = dict(zip(kind.parameters, (number, *region.arguments)))
            if meeting.meets(moves, values, shares_of(guards, kind.parameters)):
                return
        raise Refused("action", f"region {number} from {region.state} to {state}")

    def handed(self, before, after, move, made):
        """What a frame hands over at its return: what its caller has more, or at a thread's end all that it may."""
        if move.is_last:
            left = before.frames[move.stepping]
            gone = {address for number in made for address in after.regions[number].cells}
            cells = {address: value for address, value in left.cells.items() if address not in gone}
            full = Held({}, {number: self.algebras[after.table[number].type].full for number in made})
            had = self.together(after.table, [left, full])
            given = self.together(after.table, [after.regions[number] for number in made])
            return Held(cells, self.less(after.table, had, given, "invented"))
        if not move.caller:
            return None
        old, new = before.frames[move.caller], after.frames[move.caller]
        if not old.cells.keys() <= new.cells.keys():
            raise Refused("kept", "the caller's cells")
        cells = {address: value for address, value in new.cells.items() if address not in old.cells}
        return Held(cells, self.less(after.table, new.guards, old.guards, "kept"))

    def less(self, table, had, given, condition):
        """Guards without some of them."""
        found = dict(had)
        for number, element in given.items():
            algebra = self.algebras[table[number].type]
            found[number] = algebra.without(had.get(number, algebra.unit), element)
            if found[number] is None:
                raise Refused(condition, f"guards of region {number}")
        return found

    def exchange(self, before, after, move, opened, made, handed):
        """Refuses a step after which those that take part have more than before."""
        old = [before.frames[move.stepping], *(before.regions[number] for number in opened)]
        new = [after.regions[number] for number in [*opened, *made]]
        new += [after.frames[it] for it in (move.stepping, move.new) if it in after.frames]
        new += [handed] if handed else []
        old.append(Held({}, {number: self.algebras[after.table[number].type].full for number in made}))
        there = {address for part in old for address in part.cells}
        there |= set(move.touch.writes) if move.touch.event == "alloc" else set()
        taken = set()
        for part in new:
            if part.cells.keys() & taken:
                raise Refused("apart", f"the cells {sorted(part.cells.keys() & taken)}")
            if part.cells.keys() - there:
                raise Refused("invented", f"the cells {sorted(part.cells.keys() - there)}")
            taken |= part.cells.keys()
        self.less(after.table, self.together(after.table, old), self.together(after.table, new), "invented")

    def requires(self, view, key, machine):
        """Refuses a new frame whose part and values don't meet what its function requires."""
        frame = machine.threads[key[0]][key[1]]
        values = {it: frame.values[it] for it in frame.function.parameters}
        meeting = Meeting(view.table, self.algebras, view.frames[key])
        if not meeting.meets(frame.function.requires, {**values, **view.names[key]}):
            raise Refused("requires", f"{frame.function.name} at {values}")

    def ensures(self, before, after, move, handed):
        """Refuses a return at which what is handed over doesn't meet what the function ensures."""
        function = move.frame.function
        values = {it: move.frame.values[it] for it in function.parameters}
        values.update(before.names[move.stepping], ret=move.touch.arguments[0])
        shares = shares_of(function.ensures, values) | {name for name, is_share in self.fixed[function.name] if is_share}
        if not Meeting(after.table, self.algebras, handed).meets(function.ensures, values, shares):
            raise Refused("ensures", f"{function.name} at {values}")
