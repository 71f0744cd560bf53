"""Checks of the accounts of runs: what `owners` says is read and judged, and shown by `tools/view/run` (tools/check_views
says which)."""

import os
import random
import re

from view_checks import TOP, Page, short, text_of, tool

import texts
from accounts import Judge, Refused
from browser import Browser
from calls import call, read
from drawn import schedule_of
from machine import Differs
from proof_checks import examples, told_by
from source import program_of

COLOURED = re.compile(r"by-([tg])([0-9]+)")
# The colours of threads and of regions.
THREADS, REGIONS = 8, 6


def lacks_owners(program):
    """Whether a caper has no `owners`."""
    return texts.lacks(call(program, "owners")[0], "owners")


def owned_text(program, path, schedule, room):
    """What `owners` says of a program along a schedule, or None where it isn't proved."""
    told = told_by(program, "owners", path, room, schedule)
    return told and told[1]


# ---- texts

GOOD = """start
thread 0 frame 0: 7 |-> 2
1 0 9:3 call
region 1 Lock(7, -2; 0): 7 |-> 2, 9 |-> -1, 1@UNLOCK * src T[0] * I{0..1} * I{4..}
region 2 One(3): 2@tok T[3]
thread 0 frame 0: 1@LOCK[1/2], 2@GO
thread 0 frame 1: nothing with r = 1, p = 1/4, k = -3
ended 1
"""
WRONG = [
    ("start\n", "begin\n", 1),
    ("thread 0 frame 0: 7", "thread 0 frame 1: 7", 2),
    ("7 |-> 2\n1", "07 |-> 2\n1", 2),
    ("7 |-> 2\n1", "0 |-> 2\n1", 2),
    ("7 |-> 2\n1", "7 |-> 2, 7 |-> 2\n1", 2),
    ("7 |-> 2\n1", "\n1", 2),
    ("call", "leap", 3),
    ("9:3 call", "9:3 fault 7", 3),
    ("9:3 call", "9:3 failed", 3),
    ("region 1 Lock", "region 0 Lock", 4),
    ("Lock(7, -2; 0)", "Lock(7, -2 0)", 4),
    ("Lock(7, -2; 0)", "Lock(7; -2; 0)", 4),
    ("Lock(7, -2; 0)", "Lock(; 0)", 4),
    ("9 |-> -1", "6 |-> -1", 4),
    ("9 |-> -1", "9 -> -1", 4),
    ("src T[0]", "src T", 4),
    ("src T[0]", "src T[-1]", 4),
    ("src T[0]", "all T[0]", 4),
    ("I{0..1}", "I{1..1}", 4),
    ("I{0..1}", "I{0.1}", 4),
    ("1@UNLOCK", "1 UNLOCK", 4),
    ("region 2 One", "region 1 One", 5),
    ("LOCK[1/2]", "LOCK[2/4]", 6),
    ("LOCK[1/2]", "LOCK[3/2]", 6),
    ("LOCK[1/2]", "LOCK[1]", 6),
    (", 2@GO", ", 1@GO", 6),
    (", 2@GO", ", 2@GO, 8 |-> 1", 6),
    ("frame 1: nothing", "frame 2: nothing", 7),
    ("frame 1: nothing", "frame 1: none", 7),
    ("r = 1,", "r := 1,", 7),
    ("p = 1/4", "p = 2/8", 7),
    ("ended 1", "ended 2", 8),
    ("ended 1", "stopped 1", 8),
    ("ended 1\n", "", 8),
    ("ended 1\n", "ended 1\nmore\n", 9),
]


def check_account_texts(checks):
    """Refuses texts that are wrong in one line, and reads those that refuse."""
    checks.same("accounts are written again", texts.owners_text(texts.owners(GOOD)), GOOD)
    for old, new, line in WRONG:
        checks.refuses(f"accounts with {new!r} for {old!r}", texts.owners, GOOD.replace(old, new, 1), line)
    for text, status in [("refused start\n", 2), ("rejected node 3\n", 1), ("rejected shape 1\n", 1), ("cannot read s\n", 4)]:
        checks.same(f"{text!r}", texts.owners(text), texts.Refusal(text[:-1], status))
    checks.same("accounts that are too wide at the start", texts.owners("start\nwide 0\n").run.count, 0)


# ---- pages


def counted(path, said):
    """What a page has to show of a text of accounts, counted in its lines: for each row the regions as number, type with
    arguments, and state, and for each cell that has an owner who that is, with its colour."""
    source = read(path).decode("latin-1").split("\n")
    rows, stacks = [], {0: ["main"]}
    for line in said.splitlines()[1:-1]:
        if not rows or re.match("[0-9]", line):
            rows.append(({}, {}))
        if re.match("[0-9]", line):
            _, thread, place, event, *values = line.split(" ")
            thread, (row, column) = int(thread), map(int, place.split(":"))
            text = source[row - 1][column - 1 :] + " ".join(source[row : row + 3])
            if event == "call":
                stacks[thread].append(re.match(r"(?:\w+\s*:=\s*)?(\w+)\s*\(", text)[1])
            if event == "fork":
                stacks[int(values[0])] = [re.match(r"fork\s+(\w+)", text)[1]]
            if event in ("return", "end"):
                stacks[thread].pop()
            continue
        has, part = line.split(": ", 1)
        if has.startswith("region "):
            number, kind, state = re.fullmatch(r"region ([0-9]+) (.*?)(?:; |(?<=\())(-?[0-9]+)\)", has).groups()
            rows[-1][0][int(number)] = (kind.rstrip("("), state)
            owner = f"{number} {kind.split('(')[0]}", ("g", int(number) % REGIONS)
        else:
            _, thread, _, frame = has.split(" ")
            owner = f"{thread} {stacks[int(thread)][int(frame)]}", ("t", int(thread) % THREADS)
        for address in re.findall(r"(?:^|, )([0-9]+) \|->", part):
            rows[-1][1][int(address)] = owner
    return rows


def check_owners(checks, name, page, program, path, schedule, room):
    """Compares the owners on a page with those that are counted in the text, or what it says where there are none."""
    if lacks_owners(program) or (said := owned_text(program, path, schedule, room)) is None:
        checks.true(f"{name}: says that owners aren't known", page.says.startswith("owners aren't known: "))
        checks.same(f"{name}: regions", [it for _, had, it in page.rows[1][1] if "region" in had["class"].split()], [])
        return
    if said.startswith(("refused", "cannot")):
        checks.same(f"{name}: says", page.says, f"owners aren't known: owners says {said.strip()!r}")
        return
    rows, head = counted(path, said), page.rows[1][1]
    heads = [(at, it) for at, (_, had, it) in enumerate(head) if "region" in had["class"].split()]
    wanted = [(f"{number} {kind}").replace("(", "") for number, (kind, _) in rows[-1][0].items()]
    checks.same(f"{name}: regions", [re.sub(r"[()]", "", "".join(it)) for _, it in heads], wanted)
    addresses = {at: int("".join(it)) for at, (_, had, it) in enumerate(head) if "at" in had["class"].split()}
    is_whole = len(rows) == len(page.rows) - 3
    says = "the program is proved" if is_whole else "owners are known up to step"
    checks.true(f"{name}: says that owners are known", page.says.startswith(says))
    for number, (_, cells) in enumerate(page.rows[2:-1]):
        states, owners = rows[number] if number < len(rows) else ({}, {})
        got = {at + 1: "".join(cells[1 + column][2]) for at, (column, _) in enumerate(heads)}
        got = {k: v for k, v in got.items() if v}
        checks.same(f"{name}: states in row {number}", got, {k: v for k, (_, v) in states.items()})
        shown = {}
        for column, address in addresses.items():
            _, had, text = cells[1 + column]
            found = COLOURED.search(had["class"])
            if found:
                shown[address] = "".join(text[1:]), (found[1], int(found[2]))
        checks.same(f"{name}: owners in row {number}", shown, owners)


def draw_page(program, path, room):
    """A page along a schedule that is drawn, with the schedule, or None where the program isn't proved."""
    if call(program, "derive", path)[1]:
        return None
    schedule = f"{room}/{short(path).replace('/', '-')}.drawn"
    drawn, _ = schedule_of(program_of(read(path)), random.Random(short(path)))
    with open(schedule, "w", encoding="utf-8") as file:
        file.write(texts.schedule_text(drawn))
    said = owned_text(program, path, schedule, room)
    return path, schedule, drawn, said, tool("run", path, schedule, f"{schedule}.html", "--program", program)


def check_drawn(checks, program, pool, room, check_page):
    """Judges the accounts of all programs that are proved, along a run that is drawn, and looks at their pages."""
    paths = [it for it in examples() if "/refused-" not in it]
    for found in pool.map(lambda it: draw_page(program, it, room), paths):
        if found is None:
            continue
        path, schedule, drawn, said, (status, out, wrong) = found
        name, owned = f"owners {short(path)}", texts.owners(said)
        checks.same(f"{name}: is written again", texts.owners_text(owned), said)
        try:
            Judge(program_of(read(path))).judge(drawn, owned)
        except (Refused, Differs) as it:
            checks.same(f"{name}: the accounts are right", str(it), None)
        replayed, ended = call(program, "replay", path, schedule)
        checks.same(f"{name}: the page", (status, out, wrong), (ended, "", ""))
        page = check_page(checks, name, text_of(f"{schedule}.html"), path, schedule, replayed)
        check_owners(checks, name, page, program, path, schedule, room)


# ---- without accounts

OTHERS = {
    "older": ("owners) echo 'usage: caper verify FILE | derive FILE'; exit 3;;", "this caper has no command owners"),
    "refuses": ("owners) echo refused start; exit 2;;", "owners says 'refused start'"),
    "mute": ("owners) exit 6;;", "owners ends with 6 and says nothing"),
    "unproved": ("derive) echo 'function lock: spent 3'; echo 'proved 0 of 1'; exit 1;;", "function lock isn't proved"),
    "long": ("derive) echo derivation too long; exit 1;;", "derive says 'derivation too long'"),
}
LIARS = {
    "other": ("owners) echo start; echo 'thread 0 frame 0: nothing'; echo 'ended 0'; exit 0;;", "owners tells another run"),
    "strange": ("owners) echo start; echo 'thread 0 frame 0: much'; exit 0;;", "owners line 2: no guards in their place"),
}


def check_without(checks, program, room):
    """Looks at what pages say where no accounts are known."""
    path, schedule = f"{TOP}/examples/guarded.cap", f"{TOP}/examples/guarded.schedule"
    for name, (case, says) in {**OTHERS, **LIARS}.items():
        other = f"{room}/by-{name}"
        with open(other, "w", encoding="utf-8") as file:
            derives = "derive) echo '[\"caper\",1,0]'; echo '[\"end\",0]'; exit 0;;" if not case.startswith("derive") else ""
            file.write(f'#!/bin/sh\ncase "$1" in {case} {derives} *) exec {program} "$@";; esac\n')
        os.chmod(other, 0o755)
        status, page, wrong = tool("run", path, schedule, "--program", other)
        if name in LIARS:
            checks.same(f"run by {name}", (status, page, says in wrong), (125, "", True))
            continue
        checks.same(f"run by {name}", (status, wrong), (0, ""))
        found = Page(page)
        checks.same(f"run by {name}: says", found.says, f"owners aren't known: {says}")
        checks.same(f"run by {name}: owners", COLOURED.findall(page.split("<main>")[1]), [])


# ---- the browser


def check_owner_browser(checks, path, room, pictures):
    """Clicks steps of a run with accounts, and reads who owns what."""
    with Browser(path) as it:
        it.size(1100, 720)
        it.open(f"{room}/guarded.schedule.html")
        regions = "[...document.querySelectorAll('#regions code')].map(x => x.textContent).join('|')"
        lines = "[...document.querySelectorAll('#threads .state')].map(x => x.innerText).join('|')"
        checks.same("regions at the start", it.value(regions), "")
        marked = "document.querySelector('[aria-current=step]').id"
        checks.true("main at the start", it.value(lines).startswith("0\nmain: nothing\n39:3"))
        for number, bar, parts in [
            (2, "", ["make: 10 |-> 0, 11 |-> 0"]),
            (3, "1 Guarded(10; 0)", ["main: 1@LOCK[1/1]\n", "1\nGuarded(10; 0): 10 |-> 0, 11 |-> 0, 1@UNLOCK"]),
            (8, "1 Guarded(10; 1)", ["lock: 11 |-> 0, 1@LOCK[1/8] * UNLOCK with r = 1, p = 1/8", "Guarded(10; 1): 10 |-> 1"]),
            (34, "1 Guarded(10; 0)", ["0\nended", "1\nended", "Guarded(10; 0): 10 |-> 0, 11 |-> 2, 1@UNLOCK"]),
        ]:
            it.value(f"document.getElementById('step-{number}').click()")
            checks.same(f"the row after a click on step {number}", it.value(marked), f"step-{number}")
            checks.same(f"regions at step {number}", it.value(regions), bar)
            said = it.value(lines)
            checks.same(f"owners at step {number}", [x for x in parts if x not in said], [])
        changed = "document.querySelectorAll('#regions .changed').length"
        for number, wanted in [(3, 1), (4, 0), (8, 1), (9, 0)]:
            it.value(f"document.getElementById('step-{number}').click()")
            checks.same(f"states that change in step {number}", it.value(changed), wanted)
        owner = "document.querySelector('#step-8 td.owned:last-child .owner').textContent"
        checks.same("the owner of cell 11 in step 8", it.value(owner), "0 lock")
        colours = "[8, 19].map(x => getComputedStyle(document.querySelector(`#step-${x} td:last-child`)).backgroundColor)"
        both = it.value(f"{colours}.join('|')").split("|")
        checks.true("other owners have other colours", both[0] != both[1])
        it.key("Home")
        checks.same("regions at the start again", it.value(regions), "")
        checks.same("what the console says", it.errors(), [])
        checks.same("what is asked for", len(it.requests()), 1)
        it.looks("light", "print")
        bar = "getComputedStyle(document.getElementById('regions')).display"
        checks.same("on paper the bar is away", it.value(bar), "none")
        it.looks("light")
        if pictures:
            it.size(1120, 700)
            it.open(f"{room}/guarded.schedule.html", "#step-16")
            it.picture(f"{pictures}/guarded-light-screen.png")
