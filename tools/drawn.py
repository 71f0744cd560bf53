"""Schedules that are drawn along a program's own run, for the checks of accounts: a start that main takes, threads one after
the other, and for an allocation a base above the heap."""

from machine import Differs, Machine
from meeting import Held, Meeting, number
from texts import FAULTS, Schedule

# A schedule has at most so many entries.
ENTRIES = 300
# So many starts are drawn until one is found that meets what main requires.
STARTS = 2000


def start_of(program, draw):
    """A start that main takes: arguments, and a heap with the cells that it requires and perhaps others."""
    main = program.functions["main"]
    for _ in range(STARTS):
        arguments = [draw.randint(-3, 12) for _ in main.parameters]
        values = dict(zip(main.parameters, arguments))
        cells = {}
        for it in main.requires:
            if it.kind == "cell" and number(it.parts[0], values) is not None:
                address, slot = number(it.parts[0], values), it.parts[1]
                value = None if slot is None else number(slot, values)
                cells[address] = draw.randint(-3, 12) if value is None else value
        if Meeting({}, {}, Held(cells)).meets(main.requires, values) and all(it >= 1 for it in cells):
            if draw.random() < 0.3:
                cells[max(cells, default=0) + draw.randint(1, 3)] = draw.randint(-3, 3)
            return Schedule(arguments, sorted(cells.items()))
    raise Differs("no start is found that meets what main requires")


def schedule_of(program, draw):
    """A schedule that is drawn along the program's run, and whether all threads have ended."""
    schedule = start_of(program, draw)
    machine, kind = Machine(program, schedule), draw.choice(("evenly", "bursts", "weights"))
    weights, thread, going = {}, 0, draw.random()
    while len(schedule.entries) < ENTRIES:
        alive = [it for it, frames in enumerate(machine.threads) if frames]
        if not alive:
            return schedule, True
        if kind == "weights":
            thread = draw.choices(alive, [weights.setdefault(it, draw.random() ** 3 + 0.01) for it in alive])[0]
        elif kind == "evenly" or thread not in alive or draw.random() > going:
            thread = draw.choice(alive)
        is_alloc = machine.ahead(thread).kind == "alloc"
        base = max(machine.heap, default=0) + draw.randint(1, 3) if is_alloc else None
        _, touch = machine.step(thread, base)
        schedule.entries.append((thread, base))
        if touch.event in FAULTS:
            break
    return schedule, False
