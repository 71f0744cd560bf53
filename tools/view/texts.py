"""Texts that caper prints, read by the grammar of each: schedules, what `replay`, `stray`, `verify`, `derive`,
`outline` and `owners` say, and refusals. The grammars are here in one place; LINE stands for its end by a line feed,
NUMBER is decimal without leading zeros, with `-` where it may be negative, and within 128 signed bits.

    schedule = "start" { NUMBER } LINE { "cell" ADDRESS NUMBER LINE } { "step" THREAD [ NUMBER ] LINE } "end" LINE
    stray    = schedule | "stray: none in" COUNT LINE | refusal
    replay   = { K THREAD L:C EVENT LINE } last LINE | refusal
    EVENT    = "set" V | "read" A V | "write" A V | "cas" A BIT | "faa" A V | "dispose" A | "alloc" B | "call"
             | "fork" THREAD | "branch" BIT | "assert" | "return" V | "end" V | "fault" A | "failed"
    last     = "ended" K | "stopped" K | "not enabled" K | "wide" K
    verdicts = { KIND NAME: VERDICT LINE } [ "main: precondition empty" LINE ] "proved" K "of" N LINE | refusal
    KIND     = "region" | "function"
    VERDICT  = "proved" | "spent" N | "deep 1000" | "wide" NUMBER NUMBER | "rows 4096" | "open" L:C "needs" WANT L:C
    WANT     = "fact" | "cell" | "region" | "guard" | "move" | "state"
    nodes    = '["caper",1,' T "]" LINE { NODE LINE } '["end",' N "]" LINE | "derivation too long" LINE | verdicts
    NODE     = a line of JSON: an array of a rule's word and its arguments
    outline  = { "function" NAME LINE { "at" L:C LINE { state LINE } } } | "rejected node" K LINE
             | "rejected shape" K LINE | refusal
    state    = "state rows [" ROWS "] store [" STORE "] cells [" CELLS "] facts [" FACTS "] guards [" GUARDS "]", of
               each any number, with "; " between two
    ROWS     = TERM ( " <= 0" | " < 0" | " = 0" | " != 0" )
    STORE    = NAME " = " TERM
    CELLS    = TERM " |-> " TERM
    FACTS    = NAME "(" TERM { ", " TERM } "; " TERM ")"
    GUARDS   = TERM "@" ( NAME [ "[" TERM "]" ] | ( "src " | "tok " ) NAME "[" TERM "]" | NAME "{" TERM ".." [ TERM ] "}" )
    TERM     = "0" | PART { " + " PART }, the constant if it isn't 0, then NUMBER "*v" K by ascending K
    owners   = "start" LINE account { K THREAD L:C EVENT LINE account } last LINE | "start" LINE "wide 0" LINE
             | "rejected node" K LINE | "rejected shape" K LINE | refusal; it never stops at a fault
    account  = { "region" N NAME "(" [ A { ", " A } "; " ] S "): " PART LINE } { frame LINE }
    frame    = "thread" THREAD "frame" F ": " PART [ " with " NAME " = " VALUE { ", " NAME " = " VALUE } ]
    PART     = "nothing" | HELD { ", " HELD }, cells by ascending address, then guards by ascending region
    HELD     = ADDRESS " |-> " V | N "@" ATOM { " * " ATOM }
    ATOM     = NAME | NAME "[" SHARE "]" | ( "src " | "tok " ) NAME "[" N "]" | NAME "{" N ".." [ N ] "}"
    SHARE    = N "/" N, in lowest terms, above 0 and at most 1
    VALUE    = NUMBER | SHARE
    refusal  = "refused start" | "refused" L:C: CAUSE | "refused schedule line" K
             | "refused schedule: more than 100000 entries" | "refused: file too long" | "cannot read" FILE
             | "refused derivation line" K | "refused derivation: no end"
             | "refused derivation: more than 1000000 nodes", one LINE
    usage    = "usage: caper" and the words of all commands, with " | " between two, one LINE

What a text says has to fit together too: addresses ascend, steps are counted from 1, a thread that steps has begun
and has not ended, a run that stopped ends with its fault, the verdicts are as many as the last line counts, and so are
the nodes of a derivation. The regions of an account ascend, and its frames are those of ascending threads, each from 0.

A text that is none of these is refused by `Unknown`, which names the text, the line and what was not known there."""

import json
import math
import re
from dataclasses import dataclass, field
from fractions import Fraction

WIDTH = 2**127
THREADS = 2**32
ENTRIES = 100000
# The kinds of an event's arguments; b is 0 or 1, n a number, t a thread.
EVENTS = {
    "set": "n",
    "read": "nn",
    "write": "nn",
    "cas": "nb",
    "faa": "nn",
    "dispose": "n",
    "alloc": "n",
    "call": "",
    "fork": "t",
    "branch": "b",
    "assert": "",
    "return": "n",
    "end": "n",
    "fault": "n",
    "failed": "",
}
FAULTS = ("fault", "failed")
NAME = "[A-Za-z][A-Za-z0-9_]*"
# The words of the rules (docs/RULES.md).
RULES = (
    "absurd clash set alloc assert if loop turn call fork return enter act pick shift settle keep give fact cases cell"
    " region guard convert create made"
).split()
VERDICTS = [
    r"proved",
    r"spent [1-9][0-9]*",
    r"deep 1000",
    r"wide (0|-?[1-9][0-9]*) (0|-?[1-9][0-9]*)",
    r"rows 4096",
    r"open [1-9][0-9]*:[1-9][0-9]* needs (fact|cell|region|guard|move|state) [1-9][0-9]*:[1-9][0-9]*",
]
CAUSES = [
    r"bad byte",
    r"literal too long",
    r"text too long",
    r"unexpected token",
    r"nested too deep",
    r"unknown name [A-Za-z][A-Za-z0-9_]*",
    r"name [A-Za-z][A-Za-z0-9_]* twice",
    r"wrong number of arguments",
    r"wrong sort",
    r"product of two names",
    r"no main",
    r"main asks for more than cells",
    r"region states itself",
    r"limit (functions|regions|parameters|guards|variables|alloc|width)",
]
REFUSALS = [
    (r"refused start", 2),
    (rf"refused [1-9][0-9]*:[1-9][0-9]*: ({'|'.join(CAUSES)})", 2),
    (r"refused schedule line [1-9][0-9]*", 2),
    (r"refused schedule: more than 100000 entries", 2),
    (r"refused: file too long", 2),
    (r"refused derivation line [1-9][0-9]*", 2),
    (r"refused derivation: (no end|more than 1000000 nodes)", 2),
    (r"cannot read .+", 4),
]


class Unknown(Exception):
    """A text that isn't of its grammar: its name, the line from 1, that line, and what is wrong."""

    def __init__(self, name, line, text, why):
        self.name, self.line, self.text, self.why = name, line, text, why
        super().__init__(f"{name} line {line}: {why}: {text!r}" if text is not None else f"{name} line {line}: {why}")


@dataclass
class Refusal:
    """One line that refuses, with the status that caper ends with."""

    line: str
    status: int


@dataclass
class Schedule:
    """The arguments of main, the cells at the start, and the entries: a thread, and a base or None."""

    arguments: list = field(default_factory=list)
    cells: list = field(default_factory=list)
    entries: list = field(default_factory=list)


@dataclass
class Step:
    """A step: its number, its thread, the place of its statement, and the event with its arguments."""

    number: int
    thread: int
    place: tuple
    event: str
    arguments: tuple

    def said(self):
        """The event as it is printed."""
        return " ".join([self.event, *map(str, self.arguments)])


@dataclass
class Replay:
    """A run: its steps, and its end, a word of `ended`, `stopped`, `not enabled`, `wide` with its number."""

    steps: list
    end: str
    count: int

    def fault(self):
        """The place of the fault, where the run stopped."""
        return self.steps[-1].place if self.end == "stopped" else None


@dataclass
class Verdicts:
    """A line for each unit: kind, name, verdict; whether main's precondition is said empty; how many are proved."""

    units: list
    empty: bool
    proved: int


@dataclass(frozen=True)
class Open:
    """An `open` verdict: the place of the statement, what it needs, and the place of the item."""

    statement: tuple
    need: str
    item: tuple


@dataclass
class Derivation:
    """The trees of a derivation, those without nodes among them, by their number, and the nodes, a list of a rule's
    word and its arguments each."""

    trees: int
    nodes: list


@dataclass(frozen=True)
class Term:
    """A linear term: its constant, and the coefficients of its variables, ascending, none of them 0."""

    constant: int
    parts: tuple


@dataclass(frozen=True)
class Row:
    """A row: a term, and how it is to 0: `<=`, `<`, `=` or `!=`."""

    term: Term
    kind: str


@dataclass(frozen=True)
class Fact:
    """A fact: its type, its region, its further arguments and its state."""

    type: str
    region: Term
    arguments: tuple
    state: Term


@dataclass(frozen=True)
class Guard:
    """A guard that is held: its region, its kind (`` unique, `share`, `src`, `tok`, `span`), its name, and its amount, or
    where its span begins, and where it ends, which is None without an end. In an outline these are terms, in an account
    numbers."""

    region: Term
    kind: str
    name: str
    amount: Term = None
    last: Term = None


@dataclass(frozen=True)
class State:
    """What is known at a statement: rows, values by name, cells, facts and guards."""

    rows: tuple
    store: tuple
    cells: tuple
    facts: tuple
    guards: tuple


@dataclass
class Point:
    """A statement of an outline: its function, its place, and the states of the nodes that stand there, in preorder."""

    function: str
    place: tuple
    states: list


@dataclass(frozen=True)
class Part:
    """What a region or a frame owns: cells as pairs of address and value, and guards, those of one region together."""

    cells: tuple
    guards: tuple

    def said(self):
        """The part as it is printed."""
        held = [f"{address} |-> {value}" for address, value in self.cells]
        for number in dict.fromkeys(it.region for it in self.guards):
            held.append(f"{number}@" + " * ".join(atom_text(it) for it in self.guards if it.region == number))
        return ", ".join(held) or "nothing"


@dataclass(frozen=True)
class Shared:
    """A region of an account: its number, its type, its further arguments, its state, and its part."""

    number: int
    type: str
    arguments: tuple
    state: int
    part: Part

    def said(self):
        """The region without its part, as it is printed."""
        arguments = ", ".join(map(str, self.arguments))
        return f"region {self.number} {self.type}({arguments}{'; ' if arguments else ''}{self.state})"


@dataclass(frozen=True)
class Owning:
    """A frame of an account: its thread, its number from the bottom, its part, and its fixed names with their values."""

    thread: int
    frame: int
    part: Part
    names: tuple

    def said(self):
        """The fixed names as they are printed."""
        return ", ".join(f"{name} = {value_text(value)}" for name, value in self.names)


@dataclass(frozen=True)
class Account:
    """An account of a configuration: its regions, and its frames."""

    regions: tuple
    frames: tuple

    def text(self):
        """The lines of the account."""
        lines = [f"{it.said()}: {it.part.said()}" for it in self.regions]
        for it in self.frames:
            said = f" with {it.said()}" if it.names else ""
            lines.append(f"thread {it.thread} frame {it.frame}: {it.part.said()}{said}")
        return "".join(f"{it}\n" for it in lines)


@dataclass
class Owned:
    """A run with its accounts: that of the start, and the one after each step."""

    run: Replay
    accounts: list


class Lines:
    """The lines of a text, one after the other."""

    def __init__(self, name, text):
        self.name, self.at = name, 0
        self.lines = text.split("\n")
        if self.lines.pop() != "":
            raise Unknown(name, len(self.lines) + 1, text.rsplit("\n", 1)[-1], "no line feed at the end")

    def more(self):
        """Whether there is a line."""
        return self.at < len(self.lines)

    def ahead(self):
        """The next line, which stays."""
        return self.lines[self.at] if self.more() else None

    def take(self):
        """The next line."""
        self.at += 1
        if self.at > len(self.lines):
            raise Unknown(self.name, self.at, None, "the text ends too early")
        return self.lines[self.at - 1]

    def wrong(self, why):
        """Refuses the line that was taken."""
        raise Unknown(self.name, self.at, self.lines[self.at - 1], why)

    def finish(self):
        """Refuses a line that is left."""
        if self.more():
            self.take()
            self.wrong("a line behind the last")


def number_of(word):
    """The number that a word spells, or None."""
    if not re.fullmatch(r"0|-?[1-9][0-9]{0,39}", word):
        return None
    value = int(word)
    return value if -WIDTH <= value < WIDTH else None


def thread_of(word):
    """The thread that a word spells, or None."""
    value = number_of(word)
    return value if value is not None and 0 <= value < THREADS else None


def count_of(word):
    """A whole number of any size from 0, or None."""
    return int(word) if re.fullmatch(r"0|[1-9][0-9]{0,39}", word) else None


def place_of(word):
    """The line and column that a word spells, or None."""
    found = re.fullmatch(r"([1-9][0-9]{0,9}):([1-9][0-9]{0,9})", word)
    return (int(found[1]), int(found[2])) if found else None


def place_text(place):
    """A place as it is printed."""
    return f"{place[0]}:{place[1]}"


def refusal_of(text):
    """The refusal that a text is, or None."""
    for form, status in REFUSALS:
        if re.fullmatch(form + r"\n", text):
            return Refusal(text[:-1], status)
    return None


# ---- schedules


def entry_of(lines, words):
    """The entry that a line's words say behind `step`."""
    thread = thread_of(words[0]) if 1 <= len(words) <= 2 else None
    base = number_of(words[1]) if len(words) == 2 else None
    if thread is None or (len(words) == 2 and base is None):
        lines.wrong("no entry")
    return thread, base


def cell_of(lines, words, last):
    """The cell that a line's words say behind `cell`."""
    both = [number_of(it) for it in words]
    if len(both) != 2 or None in both:
        lines.wrong("no cell")
    if both[0] <= last:
        lines.wrong("addresses are positive and ascend")
    return tuple(both)


def schedule(text, name="schedule"):
    """The schedule that a text spells."""
    lines, it = Lines(name, text), Schedule()
    words = lines.take().split(" ")
    it.arguments = [number_of(word) for word in words[1:]]
    if words[0] != "start" or None in it.arguments:
        lines.wrong("no `start` with numbers")
    last = 0
    while True:
        words = lines.take().split(" ")
        if words == ["end"]:
            break
        if words[0] == "cell" and not it.entries:
            it.cells.append(cell_of(lines, words[1:], last))
            last = it.cells[-1][0]
        elif words[0] == "step":
            if len(it.entries) == ENTRIES:
                lines.wrong(f"more than {ENTRIES} entries")
            it.entries.append(entry_of(lines, words[1:]))
        else:
            lines.wrong("no line of a schedule in its place")
    lines.finish()
    return it


def schedule_text(it):
    """The canonical text of a schedule."""
    lines = [" ".join(["start", *map(str, it.arguments)])]
    lines += [f"cell {address} {value}" for address, value in it.cells]
    lines += [f"step {thread}" if base is None else f"step {thread} {base}" for thread, base in it.entries]
    return "\n".join([*lines, "end", ""])


def stray(text):
    """What `stray` says: a schedule, the number of schedules none of which faults, or a refusal."""
    found = re.fullmatch(r"stray: none in ([1-9][0-9]{0,3})\n", text)
    if found:
        return int(found[1])
    return refusal_of(text) or schedule(text, "stray")


# ---- runs


def arguments_of(lines, event, words):
    """The arguments of an event."""
    forms = EVENTS.get(event)
    if forms is None:
        lines.wrong(f"no event that is known: {event}")
    values = [{"n": number_of, "t": thread_of, "b": number_of}[form](word) for form, word in zip(forms, words)]
    if len(words) != len(forms) or None in values:
        lines.wrong(f"no arguments of {event}")
    if any(form == "b" and value not in (0, 1) for form, value in zip(forms, values)):
        lines.wrong(f"{event} says 0 or 1")
    return tuple(values)


def step_of(lines, number, running):
    """The step that the line spells, of a thread that runs."""
    words = lines.take().split(" ")
    if len(words) < 4 or words[0] != str(number):
        lines.wrong(f"no step {number}")
    thread, place = thread_of(words[1]), place_of(words[2])
    if thread is None or place is None:
        lines.wrong("no thread and place")
    step = Step(number, thread, place, words[3], arguments_of(lines, words[3], words[4:]))
    if not (thread < len(running) and running[thread]):
        lines.wrong(f"thread {thread} doesn't run")
    if step.event == "fork":
        if step.arguments[0] != len(running):
            lines.wrong(f"a new thread is thread {len(running)}")
        running.append(True)
    if step.event == "end":
        running[thread] = False
    return step


def replay(text):
    """What `replay` says: a run, or a refusal."""
    refused = refusal_of(text)
    if refused:
        return refused
    lines, steps, running = Lines("replay", text), [], [True]
    while re.match(r"[0-9]", lines.ahead() or ""):
        if steps and steps[-1].event in FAULTS:
            lines.take()
            lines.wrong("a step behind a fault")
        steps.append(step_of(lines, len(steps) + 1, running))
    return finished(lines, steps)


def finished(lines, steps):
    """The run of these steps, which ends with the next line."""
    end, _, count = lines.take().rpartition(" ")
    wanted = {"ended": len(steps), "stopped": len(steps), "not enabled": len(steps) + 1, "wide": len(steps) + 1}
    if end not in wanted:
        lines.wrong("no last line that is known")
    if count != str(wanted[end]):
        lines.wrong(f"the number is {wanted[end]} here")
    if (end == "stopped") != (bool(steps) and steps[-1].event in FAULTS):
        lines.wrong("a run stops at a fault, and only there")
    lines.finish()
    return Replay(steps, end, wanted[end])


# ---- verdicts


def verdicts(text):
    """What `verify` says: verdicts, or a refusal."""
    refused = refusal_of(text)
    if refused:
        return refused
    lines, units, empty = Lines("verify", text), [], False
    while not re.match(r"proved ", lines.ahead() or ""):
        line = lines.take()
        if empty:
            lines.wrong("a line behind the one on main's precondition")
        if line == "main: precondition empty":
            empty = True
            continue
        found = re.fullmatch(r"(region|function) ([A-Za-z][A-Za-z0-9_]*): (.*)", line)
        if not found:
            lines.wrong("no line of a unit")
        if not any(re.fullmatch(form, found[3]) for form in VERDICTS):
            lines.wrong("no verdict that is known")
        units.append((found[1], found[2], found[3]))
    proved = sum(verdict == "proved" for _, _, verdict in units)
    if lines.take() != f"proved {proved} of {len(units)}":
        lines.wrong(f"the verdicts are {proved} of {len(units)} proved")
    lines.finish()
    return Verdicts(units, empty, proved)


def open_of(verdict):
    """What an `open` verdict says, or None for another one."""
    words = verdict.split(" ")
    return Open(place_of(words[1]), words[3], place_of(words[4])) if words[0] == "open" else None


def lacks(text, command):
    """Whether a text is the usage line of a caper that doesn't have this command."""
    found = re.fullmatch(r"usage: caper ([^\n]*)\n", text)
    return bool(found) and all(it.split(" ")[0] != command for it in found[1].split(" | "))


# ---- derivations


def json_of(lines):
    """The array that the next line spells, which begins with a word."""
    try:
        array = json.loads(lines.take())
    except ValueError:
        lines.wrong("no JSON")
    if not (isinstance(array, list) and array and isinstance(array[0], str)):
        lines.wrong("no array with a word")
    return array


def derivation(text):
    """What `derive` says: a derivation, verdicts, or a refusal. A derivation that is too long is None."""
    if text == "derivation too long\n":
        return None
    if not text.startswith("["):
        return verdicts(text)
    lines, nodes = Lines("derive", text), []
    first = json_of(lines)
    if first[:2] != ["caper", 1] or len(first) != 3 or not isinstance(first[2], int):
        lines.wrong("no first line of a derivation")
    while (array := json_of(lines))[0] != "end":
        if array[0] not in RULES:
            lines.wrong(f"no rule that is known: {array[0]}")
        nodes.append(array)
    if array != ["end", len(nodes)]:
        lines.wrong(f"the nodes are {len(nodes)} here")
    lines.finish()
    return Derivation(first[2], nodes)


# ---- outlines


def term_of(lines, text):
    """The term that a text spells."""
    constant, parts = 0, []
    for number, part in enumerate(text.split(" + ")):
        found = re.fullmatch(r"(-?[1-9][0-9]*)\*v(0|[1-9][0-9]*)", part)
        if found:
            parts.append((int(found[2]), int(found[1])))
        elif number == 0 and count_of(part.removeprefix("-")) is not None and part != "-0" and (part != "0" or text == "0"):
            constant = int(part)
        else:
            lines.wrong(f"no term: {text}")
    if any(a[0] >= b[0] for a, b in zip(parts, parts[1:])):
        lines.wrong(f"the variables of {text} don't ascend")
    return Term(constant, tuple(parts))


def row_of(lines, text):
    """The row that a text spells."""
    found = re.fullmatch(r"(.*) (<=|<|=|!=) 0", text)
    if not found:
        lines.wrong(f"no row: {text}")
    return Row(term_of(lines, found[1]), found[2])


def value_of(lines, text):
    """The name and the term that a text spells."""
    found = re.fullmatch(rf"({NAME}) = (.*)", text)
    if not found:
        lines.wrong(f"no value of a name: {text}")
    return found[1], term_of(lines, found[2])


def held_of(lines, text):
    """The address and the value of the cell that a text spells."""
    address, arrow, value = text.partition(" |-> ")
    if not arrow:
        lines.wrong(f"no cell: {text}")
    return term_of(lines, address), term_of(lines, value)


def fact_of(lines, text):
    """The fact that a text spells."""
    found = re.fullmatch(rf"({NAME})\(([^;]*); ([^;]*)\)", text)
    if not found:
        lines.wrong(f"no fact: {text}")
    region, *arguments = [term_of(lines, it) for it in found[2].split(", ")]
    return Fact(found[1], region, tuple(arguments), term_of(lines, found[3]))


def guard_of(lines, text):
    """The guard that a text spells."""
    region, _, atom = text.partition("@")
    found = re.fullmatch(rf"(?:(src|tok) )?({NAME})(?:\[(.*)\]|{{(.*)\.\.(.*)}})?", atom)
    if not found or (found[1] and found[3] is None):
        lines.wrong(f"no guard: {text}")
    of, name = term_of(lines, region), found[2]
    if found[4] is not None:
        return Guard(of, "span", name, term_of(lines, found[4]), term_of(lines, found[5]) if found[5] else None)
    if found[3] is not None:
        return Guard(of, found[1] or "share", name, term_of(lines, found[3]))
    return Guard(of, "", name)


def state_of(lines):
    """The state that the next line spells."""
    parts = [rf"{kind} \[([^\[\]]*(?:\[[^\]]*\][^\[\]]*)*)\]" for kind in STATE]
    found = re.fullmatch("state " + " ".join(parts), lines.take())
    if not found:
        lines.wrong("no state")
    return State(
        *(
            tuple(reader(lines, it) for it in (FACTS_APART if kind == "facts" else APART).split(group) if it)
            for (kind, reader), group in zip(STATE.items(), found.groups())
        )
    )


APART = re.compile("; ")
# A fact has a semicolon of its own, inside its parentheses.
FACTS_APART = re.compile(r"(?<=\)); ")
STATE = {"rows": row_of, "store": value_of, "cells": held_of, "facts": fact_of, "guards": guard_of}


def is_rejected(text):
    """Whether a text says that a derivation isn't accepted."""
    return bool(re.fullmatch(r"rejected (node|shape) [1-9][0-9]*\n", text))


def outline(text):
    """What `outline` says: the points of all functions, or a refusal."""
    refused = refusal_of(text)
    if refused:
        return refused
    if is_rejected(text):
        return Refusal(text[:-1], 1)
    lines, points, function = Lines("outline", text), [], None
    while lines.more():
        if lines.ahead().startswith("state ") and points and points[-1].function == function:
            points[-1].states.append(state_of(lines))
            continue
        word, _, rest = lines.take().partition(" ")
        if word == "function" and re.fullmatch(NAME, rest):
            function = rest
        elif word == "at" and function and place_of(rest):
            points.append(Point(function, place_of(rest), []))
        else:
            lines.wrong("no line of an outline in its place")
    return points


# ---- accounts


def share_of(word):
    """The fraction that a word spells, or None."""
    numerator, slash, denominator = word.partition("/")
    over, under = count_of(numerator), count_of(denominator)
    if not (slash and over and under and over <= under and math.gcd(over, under) == 1):
        return None
    return Fraction(over, under)


def share_text(share):
    """A fraction as it is printed."""
    return f"{share.numerator}/{share.denominator}"


def value_text(value):
    """The value of a fixed name as it is printed."""
    return share_text(value) if isinstance(value, Fraction) else str(value)


def atom_text(guard):
    """A guard of an account as it is printed behind its region."""
    if guard.kind == "span":
        return f"{guard.name}{{{guard.amount}..{'' if guard.last is None else guard.last}}}"
    if guard.kind == "share":
        return f"{guard.name}[{share_text(guard.amount)}]"
    return f"{guard.kind} {guard.name}[{guard.amount}]" if guard.kind else guard.name


def atom_of(lines, region, text):
    """The guard of a region that a text spells."""
    found = re.fullmatch(rf"(?:(src|tok) )?({NAME})(?:\[([^\]]*)\]|{{([^.]*)\.\.([^}}]*)}})?", text)
    if not found or (found[1] and found[3] is None):
        lines.wrong(f"no guard: {text}")
    kind, name, amount, first, last = found.groups()
    if first is not None:
        ends = count_of(first), count_of(last) if last else None
        if ends[0] is None or (last and (ends[1] is None or ends[1] <= ends[0])):
            lines.wrong(f"no span: {text}")
        return Guard(region, "span", name, *ends)
    if amount is None:
        return Guard(region, "", name)
    value = count_of(amount) if kind else share_of(amount)
    if value is None:
        lines.wrong(f"no amount: {text}")
    return Guard(region, kind or "share", name, value)


def part_of(lines, text):
    """The part that a text spells."""
    cells, guards = [], []
    for held in [] if text == "nothing" else text.split(", "):
        address, arrow, value = held.partition(" |-> ")
        if arrow:
            cells.append((number_of(address), number_of(value)))
            if None in cells[-1] or cells[-1][0] < 1 or guards or (len(cells) > 1 and cells[-2][0] >= cells[-1][0]):
                lines.wrong(f"no cell in its place: {held}")
            continue
        word, at, atoms = held.partition("@")
        region = count_of(word)
        if not at or not region or (guards and guards[-1].region >= region):
            lines.wrong(f"no guards in their place: {held}")
        guards += [atom_of(lines, region, it) for it in atoms.split(" * ")]
    return Part(tuple(cells), tuple(guards))


def shared_of(lines):
    """The region that the next line spells, with its part."""
    found = re.fullmatch(rf"region ([0-9]+) ({NAME})\((?:([^;)]*); )?([^;)]*)\): (.*)", lines.take())
    if not found:
        lines.wrong("no region")
    number, state = count_of(found[1]), number_of(found[4])
    arguments = tuple(number_of(it) for it in found[3].split(", ")) if found[3] is not None else ()
    if not number or state is None or None in arguments:
        lines.wrong("no number, arguments and state of a region")
    return Shared(number, found[2], arguments, state, part_of(lines, found[5]))


def owning_of(lines):
    """The frame that the next line spells, with its part and its fixed names."""
    found = re.fullmatch(r"thread ([0-9]+) frame ([0-9]+): (.*?)(?: with (.*))?", lines.take())
    thread, frame = (thread_of(found[1]), count_of(found[2])) if found else (None, None)
    if thread is None or frame is None:
        lines.wrong("no frame")
    names = []
    for it in found[4].split(", ") if found[4] is not None else []:
        name, equals, word = it.partition(" = ")
        value = number_of(word) if "/" not in word else share_of(word)
        if not equals or not re.fullmatch(NAME, name) or value is None:
            lines.wrong(f"no value of a name: {it}")
        names.append((name, value))
    return Owning(thread, frame, part_of(lines, found[3]), tuple(names))


def account_of(lines):
    """The account that the next lines spell."""
    regions, frames = [], []
    while (lines.ahead() or "").startswith("region "):
        regions.append(shared_of(lines))
        if len(regions) > 1 and regions[-2].number >= regions[-1].number:
            lines.wrong("the numbers of regions ascend")
    while (lines.ahead() or "").startswith("thread "):
        it, before = owning_of(lines), frames[-1] if frames else None
        frames.append(it)
        if it.frame != (before.frame + 1 if before and before.thread == it.thread else 0):
            lines.wrong("the frames of a thread are counted from 0")
        if before and before.thread > it.thread:
            lines.wrong("the threads ascend")
    return Account(tuple(regions), tuple(frames))


def owners(text):
    """What `owners` says: a run with its accounts, or a refusal."""
    refused = refusal_of(text)
    if refused:
        return refused
    if is_rejected(text):
        return Refusal(text[:-1], 1)
    lines, steps, running = Lines("owners", text), [], [True]
    if lines.take() != "start":
        lines.wrong("no `start`")
    if lines.ahead() == "wide 0":
        lines.take()
        lines.finish()
        return Owned(Replay([], "wide", 0), [])
    accounts = [account_of(lines)]
    while re.match(r"[0-9]", lines.ahead() or ""):
        steps.append(step_of(lines, len(steps) + 1, running))
        if steps[-1].event in FAULTS:
            lines.wrong("a fault, which a proved program doesn't come to")
        accounts.append(account_of(lines))
    return Owned(finished(lines, steps), accounts)


def owners_text(it):
    """The canonical text of a run with its accounts."""
    text = "start\n" + "".join(account.text() for account in it.accounts[:1])
    for step, account in zip(it.run.steps, it.accounts[1:]):
        text += f"{step.number} {step.thread} {place_text(step.place)} {step.said()}\n{account.text()}"
    return f"{text}{it.run.end} {it.run.count}\n"
