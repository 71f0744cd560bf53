"""Accounts that are forged: of a run whose accounts are right, others that say something wrong in one place.

Each kind of forgery has a name, says by which conditions (tools/accounts.py) it may be refused, and is made at steps
at which it makes a difference, in an order that is drawn."""

from dataclasses import replace

import texts
from accounts import ON_HEAP
from machine import Machine
from meeting import Held


def part_of(judge, table, held):
    """A part as it is printed."""
    said = [f"{address} |-> {value}" for address, value in sorted(held.cells.items())]
    for number, element in sorted(held.guards.items()):
        atoms = judge.algebras[table[number].type].said(element)
        said += [f"{number}@{' * '.join(atoms)}"] if atoms else []
    return texts.part_of(texts.Lines("forged", "\n"), ", ".join(said) or "nothing")


class Forging:
    """The accounts of a run, of which some are forged, and the functions that make its steps."""

    def __init__(self, judge, schedule, owned, draw):
        self.judge, self.owned, self.draw, self.functions = judge, owned, draw, [None]
        machine = Machine(judge.program, schedule)
        for thread, base in schedule.entries[: len(owned.run.steps)]:
            self.functions.append(machine.threads[thread][-1].function)
            machine.step(thread, base)

    def steps(self, *events):
        """The numbers of the steps of these events, with the step, the account before and the one after."""
        for number, step in enumerate(self.owned.run.steps, 1):
            if not events or step.event in events:
                yield number, step, self.owned.accounts[number - 1], self.owned.accounts[number]

    def some(self, *events):
        """The same in an order that is drawn."""
        found = list(self.steps(*events))
        self.draw.shuffle(found)
        return found

    def stepping(self, number):
        """The frame that makes a step, by thread and number."""
        thread = self.owned.run.steps[number - 1].thread
        return thread, max(it.frame for it in self.owned.accounts[number - 1].frames if it.thread == thread)

    def held(self, account, has):
        """What a region or a frame has, as it can be changed."""
        table = {it.number: it for it in account.regions}
        held = self.judge.held(part_in(account, has), table)
        return Held(dict(held.cells), dict(held.guards))

    def forged(self, number, *changes):
        """The run with this account changed: for each change who has what."""
        return self.with_account(number, self.changed(self.owned.accounts[number], *changes))

    def changed(self, account, *changes):
        """An account with other parts."""
        table = {it.number: it for it in account.regions}
        for has, held in changes:
            account = with_part(account, has, part_of(self.judge, table, held))
        return account

    def with_account(self, number, account):
        """The run with this account in the place of one."""
        accounts = list(self.owned.accounts)
        accounts[number] = account
        return texts.Owned(self.owned.run, accounts)


def part_in(account, has):
    """The part of a region, by its number, or of a frame, by its thread and number."""
    if isinstance(has, int):
        return next(it.part for it in account.regions if it.number == has)
    return next(it.part for it in account.frames if (it.thread, it.frame) == has)


def with_part(account, has, part):
    """An account in which a region or a frame has another part."""
    if isinstance(has, int):
        return replace(account, regions=tuple(replace(it, part=part) if it.number == has else it for it in account.regions))
    return replace(
        account, frames=tuple(replace(it, part=part) if (it.thread, it.frame) == has else it for it in account.frames)
    )


def frames_of(account):
    """The frames of an account, by thread and number."""
    return [(it.thread, it.frame) for it in account.frames]


def holders_of(account):
    """All that have parts."""
    return [*(it.number for it in account.regions), *frames_of(account)]


# ---- kinds of forgery: each is given a `Forging`, and gives runs


def cell_twice(it):
    """A cell that a part has is in another one too."""
    for number, _, _, after in it.some():
        for one in holders_of(after):
            for address, value in it.held(after, one).cells.items():
                other = next((x for x in holders_of(after) if x != one), None)
                if other is not None:
                    held = it.held(after, other)
                    held.cells[address] = value
                    yield it.forged(number, (other, held))


def other_value(it):
    """A cell has another value than the heap."""
    for number, _, _, after in it.some():
        for has in holders_of(after):
            held = it.held(after, has)
            for address in held.cells:
                held.cells[address] += 1
                yield it.forged(number, (has, held))
                held.cells[address] -= 1


def absent_cell(it):
    """A frame has a cell that the heap hasn't."""
    for number, _, _, after in it.some():
        for has in frames_of(after)[:1]:
            held = it.held(after, has)
            there = [address for x in holders_of(after) for address in it.held(after, x).cells]
            held.cells[max(there, default=0) + 1000] = 0
            yield it.forged(number, (has, held))


def guard_stays(it):
    """What a call or a fork gives away stays with the caller as well."""
    for number, step, before, _ in it.some("call", "fork"):
        new = (step.arguments[0], 0) if step.event == "fork" else (step.thread, it.stepping(number)[1] + 1)
        if it.held(it.owned.accounts[number], new).guards:
            yield it.forged(number, (it.stepping(number), it.held(before, it.stepping(number))))


def guard_goes_on(it):
    """What a return gives back is not given."""
    for number, step, before, after in it.some("return"):
        caller = step.thread, it.stepping(number)[1] - 1
        asks = any(x.kind in ("cell", "atom") for x in it.functions[number].ensures)
        if asks and it.held(before, caller) != it.held(after, caller):
            yield it.forged(number, (caller, it.held(before, caller)))


def other_case(it):
    """A region has nothing, where each case asks for something."""
    for number, _, _, after in it.some():
        for region in after.regions:
            cases = it.judge.program.regions[region.type].cases
            if all(any(x.kind in ("cell", "atom") for x in case.items) for case in cases):
                yield it.forged(number, (region.number, Held()))


def old_state(it):
    """A region whose state changes has the one from before, with what it has now."""
    for number, _, before, after in it.some():
        states = {x.number: x.state for x in before.regions}
        for region in after.regions:
            if states.get(region.number, region.state) != region.state and region.part != part_in(before, region.number):
                regions = [replace(x, state=states[x.number]) if x is region else x for x in after.regions]
                yield it.with_account(number, replace(after, regions=tuple(regions)))


def whole_share(it):
    """A share that a call or a fork halves is given whole."""
    for number, step, _, after in it.some("call", "fork"):
        new = (step.arguments[0], 0) if step.event == "fork" else (step.thread, it.stepping(number)[1] + 1)
        part = part_in(after, new)
        for guard in part.guards:
            if guard.kind == "share" and guard.amount < 1:
                twice = replace(guard, amount=min(2 * guard.amount, 1))
                guards = tuple(twice if x is guard else x for x in part.guards)
                yield it.with_account(number, with_part(after, new, replace(part, guards=guards)))


def other_frame(it):
    """A frame that doesn't step gives what it has to the one that does."""
    for number, _, before, after in it.some():
        stepping = it.stepping(number)
        for has in frames_of(before):
            if has[0] != stepping[0] and it.held(after, has) != Held() and stepping in frames_of(after):
                held, mine = it.held(after, has), it.held(after, stepping)
                table = {x.number: x for x in after.regions}
                mine.cells.update(held.cells)
                for region, element in held.guards.items():
                    algebra = it.judge.algebras[table[region].type]
                    mine.guards[region] = algebra.join(mine.guards.get(region, algebra.unit), element)
                yield it.forged(number, (has, Held()), (stepping, mine))


def other_name(it):
    """A fixed name has another value than before."""
    for number, _, before, after in it.some():
        for frame in after.frames:
            if frame.names and (frame.thread, frame.frame) in frames_of(before):
                (name, value), *rest = frame.names
                other = value / 2 if isinstance(value, texts.Fraction) else value + 1
                names = ((name, other), *rest)
                frames = tuple(replace(x, names=names) if x is frame else x for x in after.frames)
                yield it.with_account(number, replace(after, frames=frames))


def frame_less(it):
    """The last frame has no line."""
    for number, _, _, after in it.some():
        if after.frames:
            yield it.with_account(number, replace(after, frames=after.frames[:-1]))


def frame_more(it):
    """A thread has a frame more."""
    for number, _, _, after in it.some():
        if after.frames:
            last = after.frames[-1]
            more = replace(last, frame=last.frame + 1, part=texts.Part((), ()))
            yield it.with_account(number, replace(after, frames=(*after.frames, more)))


def region_less(it):
    """A region of which nothing else is said isn't there any more."""
    for number, _, before, after in it.some():
        for region in after.regions[-1:]:
            is_named = any(x.region == region.number for has in holders_of(after) for x in part_in(after, has).guards)
            if region.number in [x.number for x in before.regions] and not is_named:
                yield it.with_account(number, replace(after, regions=after.regions[:-1]))


def other_region(it):
    """A region has other arguments than before."""
    for number, _, before, after in it.some():
        for region in after.regions:
            if region.arguments and region.number in [x.number for x in before.regions]:
                other = replace(region, arguments=(region.arguments[0] + 1, *region.arguments[1:]))
                regions = tuple(other if x is region else x for x in after.regions)
                yield it.with_account(number, replace(after, regions=regions))


def other_number(it):
    """A new region has another number."""
    for number, _, before, after in it.some():
        last = after.regions[-1:]
        if last and last[0].number not in [x.number for x in before.regions]:
            is_named = any(x.region == last[0].number for has in holders_of(after) for x in part_in(after, has).guards)
            if not is_named:
                other = replace(last[0], number=last[0].number + 1)
                yield it.with_account(number, replace(after, regions=(*after.regions[:-1], other)))


def closed_region(it):
    """A region is given a guard by a step that opens none."""
    for number, _, before, after in it.some("set", "call", "fork", "branch", "assert", "alloc"):
        stepping = it.stepping(number)
        for region in before.regions:
            held = it.held(after, stepping)
            for owner, element in list(held.guards.items()):
                algebra, taker = it.judge.algebras[table_of(after)[owner].type], it.held(after, region.number)
                joined = algebra.join(taker.guards.get(owner, algebra.unit), element)
                if joined is not None:
                    taker.guards[owner] = joined
                    del held.guards[owner]
                    yield it.forged(number, (stepping, held), (region.number, taker))
                    held.guards[owner] = element


def three_regions(it):
    """A statement on the heap gives shares of a guard to three regions."""
    for number, _, before, after in it.some(*ON_HEAP):
        stepping, regions = it.stepping(number), [x.number for x in before.regions]
        part = part_in(after, stepping)
        share = next((x for x in part.guards if x.kind == "share"), None)
        if share is None or len(regions) < 3:
            continue
        rest = tuple(replace(x, amount=x.amount / 8) if x is share else x for x in part.guards)
        account = with_part(after, stepping, replace(part, guards=rest))
        table, algebra = table_of(after), it.judge.algebras[table_of(after)[share.region].type]
        for region in regions[:3]:
            held = it.held(after, region)
            piece = algebra.atom("share", share.name, share.amount / 8)
            held.guards[share.region] = algebra.join(held.guards.get(share.region, algebra.unit), piece)
            account = with_part(account, region, part_of(it.judge, table, held))
        yield it.with_account(number, account)


def given_away(it):
    """A cell that a fork doesn't ask for is given to the new thread, and its old owner comes to it later."""
    for number, step, _, after in it.some("fork"):
        stepping, new = it.stepping(number), (step.arguments[0], 0)
        for address in it.held(after, stepping).cells:
            comes = [
                k
                for k, x, _, _ in it.steps(*ON_HEAP)
                if k > number and x.thread == step.thread and x.arguments[0] == address
            ]
            ends = [k for k, x, _, _ in it.steps("end", "call") if k > number and x.thread in (step.thread, new[0])]
            if not comes or min(ends, default=comes[0] + 1) < comes[0]:
                continue
            accounts = list(it.owned.accounts)
            for k in range(number, comes[0] + 1):
                mine, other = it.held(accounts[k], stepping), it.held(accounts[k], new)
                if address in mine.cells:
                    other.cells[address] = mine.cells.pop(address)
                    accounts[k] = it.changed(accounts[k], (stepping, mine), (new, other))
            yield texts.Owned(it.owned.run, accounts)


def other_spelling(it):
    """The guards of a region stand in another order."""
    for number, _, _, after in it.some():
        for has in holders_of(after):
            guards = part_in(after, has).guards
            if len({x.region for x in guards}) == 1 and len(guards) > 1 and guards[0] != guards[-1]:
                yield it.with_account(number, with_part(after, has, replace(part_in(after, has), guards=guards[::-1])))


def start_less(it):
    """Main hasn't the whole heap at the start."""
    first = it.owned.accounts[0]
    cells = dict(part_in(first, (0, 0)).cells)
    if cells:
        cells.pop(max(cells))
        yield it.forged(0, ((0, 0), Held(cells)))


def table_of(account):
    """The regions of an account by number."""
    return {it.number: it for it in account.regions}


# Each kind with the conditions by which it may be refused.
KINDS = [
    ("a cell that is printed twice", cell_twice, ("apart",)),
    ("a cell with another value", other_value, ("heap",)),
    ("a cell that isn't there", absent_cell, ("heap",)),
    ("a guard that stays with the caller", guard_stays, ("apart", "compose", "invented")),
    ("a return that gives nothing back", guard_goes_on, ("ensures",)),
    ("a region whose part isn't its case's", other_case, ("case",)),
    ("a state from before the step", old_state, ("case",)),
    ("a halved share that is printed whole", whole_share, ("compose", "invented")),
    ("a part that another frame gives", other_frame, ("kept",)),
    ("a fixed name with another value", other_name, ("values",)),
    ("a frame that isn't printed", frame_less, ("frames",)),
    ("a frame that isn't there", frame_more, ("frames",)),
    ("a region that is lost", region_less, ("table", "case")),
    ("a region with other arguments", other_region, ("table", "case")),
    ("a region with another number", other_number, ("table", "case")),
    ("a guard that goes into a closed region", closed_region, ("closed", "requires")),
    ("three regions that are opened", three_regions, ("opened",)),
    ("a cell that another frame has", given_away, ("access",)),
    ("guards in another order", other_spelling, ("spelling", "compose")),
    ("a start without a cell of the heap", start_less, ("start",)),
]
