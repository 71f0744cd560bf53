"""Checks of the views of a proof: outlines, `tools/view/stuck` and `tools/view/page` (tools/check_views says which)."""

import glob
import itertools
import json
import os
import random
import re
import tempfile
from fractions import Fraction

from view_checks import TOP, Elements, check_lines, short, text_of, tool

import texts
from asserted import names_in
from browser import Browser
from calls import call, read
from edited import Edited
from machine import holds, value
from proof import Trees
from rows import Line, Linear, settled, shown
from source import program_of
from states import Reading, linear
from tokens import tokens_of

WITHOUT = "this caper has no command outline"


def lacks_outline(program):
    """Whether a caper has no `outline`."""
    return texts.lacks(call(program, "outline")[0], "outline")


def examples():
    """The programs of the gallery and of docs/ANSWERS.md."""
    return sorted(glob.glob(f"{TOP}/examples/**/*.cap", recursive=True))


def gallery():
    """The programs of the gallery."""
    return sorted(glob.glob(f"{TOP}/examples/*.cap"))


# ---- outlines


def spelled_term(term):
    """The text of a term."""
    parts = [str(term.constant)] if term.constant or not term.parts else []
    return " + ".join(parts + [f"{coefficient}*v{name}" for name, coefficient in term.parts])


def spelled_guard(guard):
    """The text of a guard."""
    text = f"{spelled_term(guard.region)}@"
    if guard.kind == "span":
        last = "" if guard.last is None else spelled_term(guard.last)
        return f"{text}{guard.name}{{{spelled_term(guard.amount)}..{last}}}"
    amount = "" if guard.amount is None else f"[{spelled_term(guard.amount)}]"
    return f"{text}{guard.kind + ' ' if guard.kind in ('src', 'tok') else ''}{guard.name}{amount}"


def spelled_fact(fact):
    """The text of a fact."""
    inside = ", ".join(map(spelled_term, (fact.region, *fact.arguments)))
    return f"{fact.type}({inside}; {spelled_term(fact.state)})"


def spelled_state(state):
    """The line of a state."""
    groups = {
        "rows": [f"{spelled_term(it.term)} {it.kind} 0" for it in state.rows],
        "store": [f"{name} = {spelled_term(it)}" for name, it in state.store],
        "cells": [f"{spelled_term(a)} |-> {spelled_term(b)}" for a, b in state.cells],
        "facts": list(map(spelled_fact, state.facts)),
        "guards": list(map(spelled_guard, state.guards)),
    }
    return "state " + " ".join(f"{name} [{'; '.join(it)}]" for name, it in groups.items())


def spelled(points):
    """The text of an outline. A function without statements has none, as each body ends with a return."""
    lines, last = [], None
    for it in points:
        lines += [f"function {it.function}"] if it.function != last else []
        lines += [f"at {texts.place_text(it.place)}", *map(spelled_state, it.states)]
        last = it.function
    return "".join(f"{it}\n" for it in lines)


def told_by(program, command, path, room, *more):
    """A derivation and what a command says by it, or None where not all is proved."""
    said, status = call(program, "derive", path)
    if status:
        return None
    with tempfile.NamedTemporaryFile("w", dir=room, encoding="utf-8") as file:
        file.write(said)
        file.flush()
        return said, call(program, command, path, file.name, *more)[0]


def outlined(program, path, room):
    """A derivation and its outline as texts, or None where not all is proved."""
    return told_by(program, "outline", path, room)


def check_states(checks, program, pool, room):
    """Reads the outlines of all examples that are proved, and puts the rules of their derivations in their places."""
    paths = [it for it in examples() if "/refused-" not in it]
    for path, found in zip(paths, pool.map(lambda it: outlined(program, it, room), paths)):
        if found:
            check_outline(checks, path, *found)
    check_wrong_outlines(checks)


def check_outline(checks, path, derived, said):
    """Compares an outline, and the trees that it makes of a derivation, with the texts and the source."""
    name, source, derivation = short(path), program_of(read(path)), texts.derivation(derived)
    points = texts.outline(said)
    checks.same(f"{name}: outline is written again", spelled(points), said)
    wanted = [(f.name, it.place) for f in source.functions.values() for it in f.statements()]
    checks.same(f"{name}: points", [(it.function, it.place) for it in points], wanted)
    checks.same(f"{name}: nodes", len(derivation.nodes), derived.count("\n") - 2)
    trees = Trees(source, derivation, points)
    checks.same(f"{name}: rules", [it.rule for it in trees.nodes], re.findall(r'(?m)^\["(\w+)"', derived)[1:-1])
    checks.same(f"{name}: trees", len(trees.trees), derivation.trees)
    checks.same(f"{name}: states", sum(it.state is not None for it in trees.nodes), said.count("\nstate "))
    checks.same(f"{name}: trees without the outline", shapes(Trees(source, derivation)), shapes(trees))
    for it in trees.nodes:
        if it.state is not None:
            check_reading(checks, name, source, trees, it)
        if it.stands and it.rule not in ("absurd", "turn"):
            wanted = {"loop": ("while",), "if": ("if",), "call": ("call",), "fork": ("fork",), "return": ("return",)}.get(it.rule)
            checks.true(f"{name}: {it.rule} stands at its statement", wanted is None or it.statement.kind in wanted)


# So many values of its variables are tried for a state.
TRIES = 40


def check_reading(checks, name, source, trees, node):
    """Tries values: those that meet a state's rows meet what is shown of it, and the other way round where no variable was
    left out."""
    reading = Reading(source, trees.function_of(node), node.state, trees.is_body(node))
    if reading.impossible:
        return
    before = [(linear(it.term), it.kind) for it in node.state.rows]
    after = [(it.term, it.kind) for it in reading.lines]
    told = dict(reading.told)
    names = {x for it in [*(it for it, _ in before), *told.values()] for x in it.names()}
    free = sorted(names - set(told), key=str)
    kept = {x for it, _ in after for x in it.names()} | reading.visible()
    draw, wrong = random.Random(str(node.state)), []
    for _ in range(TRIES):
        values = {it: draw.choice(SHARES if it in reading.shares else NUMBERS) for it in free}
        for variable, term in reversed(reading.told):
            values[variable] = valued(term, values)
        first, then = meets(before, values), meets(after, values)
        if first != then and (first or kept >= set(free)):
            wrong.append(values)
    checks.same(f"{name}: what is shown at {node.statement.place}", wrong[:1], [])


SHARES, NUMBERS = [Fraction(it, 4) for it in range(1, 5)], range(-1, 5)


def valued(term, values):
    """A term's value; a variable of which nothing is said is 0."""
    return term.constant + sum(coefficient * values.get(name, 0) for name, coefficient in term.parts)


def meets(rows, values):
    """Whether values meet rows."""
    found = [(valued(term, values), kind) for term, kind in rows]
    return all({"<=": it <= 0, "<": it < 0, "=": it == 0, "!=": it != 0}[kind] for it, kind in found)


def shapes(trees):
    """What is known of nodes beside their states."""
    return [(it.parent, it.tree, it.stands, it.about, it.side) for it in trees.nodes]


def check_wrong_outlines(checks):
    """Refuses outlines and derivations that are wrong in one line."""
    state = "state rows [1 + -1*v0 <= 0] store [x = 1*v0] cells [1*v0 |-> 0] facts [R(1*v1, 1*v0; 2)] guards [1*v1@G[1*v2]]"
    good = f"function f\nat 3:1\n{state}\nat 4:1\nfunction main\nat 6:1\n{state}\n"
    texts.outline(good)
    for old, new, line in [
        ("function f", "function 1", 1),
        ("function f", "procedure f", 1),
        ("at 3:1", "at 3", 2),
        ("1 + -1*v0", "1 + -1*v0 + 2", 3),
        ("1 + -1*v0", "-1*v3 + 1*v0", 3),
        ("1 + -1*v0", "0 + -1*v0", 3),
        ("<= 0", ">= 0", 3),
        ("x = 1*v0", "x : 1*v0", 3),
        ("1*v0 |-> 0", "1*v0 -> 0", 3),
        ("R(1*v1, 1*v0; 2)", "R(1*v1, 1*v0, 2)", 3),
        ("1*v1@G[1*v2]", "1*v1@src G", 3),
        ("1*v1@G[1*v2]", "1*v1@own G[1*v2]", 3),
        ("cells [", "heap [", 3),
        ("at 4:1", "state rows []", 4),
        ("function main\nat 6:1\n", "function main\n", 6),
    ]:
        checks.refuses(f"an outline with {new!r} for {old!r}", texts.outline, good.replace(old, new, 1), line)
    checks.same("a rejected derivation", texts.outline("rejected node 3\n").status, 1)
    good = '["caper",1,2]\n["set"]\n["return"]\n["end",2]\n'
    texts.derivation(good)
    for old, new, line in [
        ('"caper",1', '"caper",2', 1),
        ('["set"]', '["leap"]', 2),
        ('["set"]', '{"set":1}', 2),
        ('["set"]', '["set"', 2),
        ('["end",2]', '["end",3]', 4),
        ('["end",2]\n', '["end",2]\n["set"]\n', 5),
        ('["end",2]\n', "", 4),
    ]:
        checks.refuses(f"a derivation with {new!r} for {old!r}", texts.derivation, good.replace(old, new, 1), line)
    checks.same("another derivation", texts.derivation("derivation too long\n"), None)


# ---- rows


def line(text):
    """A line of small integers: `x - 2y + 1 <= 0` as `1 -2:y 1:x <=`."""
    *parts, kind = text.split(" ")
    terms = [it.split(":") for it in parts if ":" in it]
    return Line(Linear.of(sum(int(it) for it in parts if ":" not in it), [(name, int(it)) for it, name in terms]), kind)


def check_rows(checks):
    """What is left of rows, by thinking."""
    for said, names, shares, wanted in [
        (["1 -1:x <=", "-1:x <="], "x", "", ["1 -1:x <="]),
        (["-1 1:x <=", "-1:x <=", "1:x !="], "x", "", ["-1 1:x <=", "-1:x <=", "1:x !="]),
        (["1:x -1:y <=", "1:y -1:z <=", "1:x -1:z <="], "xyz", "", ["1:x -1:y <=", "1:y -1:z <="]),
        (["1:x -1:h <=", "1:h -1:z <="], "xz", "", ["1:x -1:z <="]),
        (["1 1:x -1:y <=", "1:x -1:y !="], "xy", "", ["1 1:x -1:y <="]),
        (["-1:p <", "-1 1:p <=", "-1 1:p !="], "p", "p", ["-1:p <", "-1 1:p <=", "-1 1:p !="]),
        (["-1:p <", "-1:p <="], "p", "p", ["-1:p <"]),
        (["0 <=", "-3 <=", "1 !="], "x", "", []),
    ]:
        left = shown([line(it) for it in said], set(names), set(shares))
        checks.same(f"what is left of {said}", left, [line(it) for it in wanted])
    for said, wanted_lines, told in [
        (["-1:x 1:y =", "-3 1:y <="], ["-3 1:x <="], [("y", "1:x")]),
        (["-2 1:y ="], [], [("y", "2")]),
        (["1:x -1:y <=", "-1:x 1:y <="], [], [("y", "1:x")]),
        (["1:x 1:y -1 =", "1:y -1:z ="], [], [("z", "1:y"), ("y", "1 -1:x")]),
    ]:
        left, found = settled([line(it) for it in said], lambda name: "xyz".index(name))
        terms = [(name, line(f"{it} <=").term) for name, it in told]
        checks.same(f"what is told by {said}", (left, found), ([line(it) for it in wanted_lines], terms))
    edited = Edited("abc\ndef\n", [(1, 2, "XX"), (4, 4, "YY"), (5, 7, "")])
    checks.same("an edited text", edited.text, "aXXc\nYYd\n")
    for at, origin, is_put in [(0, 0, False), (1, 1, True), (2, 1, True), (3, 2, False), (5, 4, True), (7, 4, False), (8, 7, False)]:
        checks.same(f"where byte {at} was", (edited.origin(at), edited.is_put(at)), (origin, is_put))


# ---- what is stuck


# What is told of wrong programs, by thinking: pieces of text that stand there in this order.
TOLD = {
    "examples/lock-wrong.cap": ["S   28", "I    7", "SLock(r, x; s)", "case 0: x |-> 0 &*& r@UNLOCK", "case 1: x |-> 1", "guards   none"],
    "examples/open.cap": ["needs fact 6:10", "in which it doesn't follow"],
    "examples/gate-unstable.cap": ["`ADD[_] : n ~> n + 1` of `Count` breaks it", "Count(c, y; 0): from 0 to 1"],
    "examples/ticket-wrong.cap": ["`at TICKET[n] : n ~> n + 1` of `TLock` breaks it", "from k to k + 1"],
    "examples/slots-wrong.cap": ["S   31", "in which it isn't held", "t >= 3", "cells    none", "r@at TICKET[t]"],
    "examples/stack-wrong.cap": ["S   23", "in which it isn't held", "cells    head |->", "guards   none"],
    "examples/added-wrong.cap": ["needs move 6:20", "S   20", "Counter(r, x;", "r@INC[p]"],
    "examples/release-wrong.cap": ["S   43", "r@tok REF"],
    "examples/trylock-wrong.cap": ["needs fact 34:10", "m = n + 1", "open 31:3 needs cell 31:3", "in which it isn't held", "b = 0", "case 0:", "case 1: x |-> 1"],
    "examples/twolocks-wrong.cap": ["can't be told", "open 35:5 needs cell 35:5", "Account(s, y;"],
    "examples/counter.cap": ["function add: open 3:3", "cells    none", "function main: open 11:3", "in which it doesn't follow"],
    "examples/answers/fact-return-wrong.cap": ["b < a", "open 4:3 needs fact 2:41", "a <= b"],
    "examples/answers/later-wrong.cap": ["is not what is lacking", "open 8:34 needs fact 8:41", "in which it doesn't follow", "c = 0"],
    "examples/answers/fact-loop-wrong.cap": ["where the loop is reached", "i = 0"],
    "examples/answers/cell-call-wrong.cap": ["S    6", "cells    x + 1 |-> 0"],
    "examples/answers/region-contract-wrong.cap": ["`UNLOCK : 1 ~> 0` of `Lock` breaks it", "Lock(r, x; 1): from 1 to 0"],
    "examples/answers/fact-contract-wrong.cap": ["`ensures` of `read` is not stable", "`ADD[_] : n ~> n + 1` of `Count` breaks it", "from n to n + 1"],
    "examples/answers/move-case-wrong.cap": ["Case `n` of `Twin` is not stable", "of `Count` breaks it", "from n to n + 1"],
    "examples/answers/guard-order-wrong.cap": ["no action is at fault"],
    "examples/answers/region-statement-wrong.cap": ["where the loop is reached", "`SET : 0 ~> 1` of `Flag` breaks it", "from 0 to 1"],
    "examples/answers/state-return-wrong.cap": ["x |-> 0"],
    "examples/answers/wide-wrong.cap": ["no state is told", "A number is too wide"],
    "examples/answers/rows-wrong.cap": ["no state is told", "There are too many rows"],
    "examples/answers/deep-wrong.cap": ["no state is told", "A tree is too deep"],
    "examples/answers/empty-wrong.cap": ["main: precondition empty", "Nothing meets the precondition of main"],
}
# Programs that are no example, with what is told of them.
OTHERS = {
    "turn": (
        "function f(n) requires n >= 9; { i := 0;\n while (i < n) invariant i <= 5; { i := i + 1; } }\nfunction main() { }\n",
        ["f: open 2:2 needs fact 2:26", "after a turn", "i <= 6"],
    ),
    "line": (
        "function f(a) { if (a = 0) { assert a = 1; } else { assert a = 0; } }\nfunction main() { }\n",
        ["f: open 1:30 needs fact 1:37", "a = 0", "with this cut off: open 1:53 needs fact 1:60", "a != 0"],
    ),
    "callee": (
        "region R(r, x) { guards G; interpretation { n : x |-> n; } actions { G : n ~> n + 1; } }\n"
        "function g(x) requires R(r, x; 0); { }\nfunction main() { x := alloc(1); g(x); assert x = 0; }\n",
        ["function g: open", "`G : n ~> n + 1` of `R` breaks it", "from 0 to 1", "function main", "can't be told: the contract of g is not proved"],
    ),
    "both": (
        "region R(r, x) { guards G * H; interpretation { n : x |-> n; } actions { G : 0 ~> 1; H : 0 ~> 2 when 0 = 0; } }\n"
        "function f(x) requires R(r, x; 0) &*& r@G; { }\nfunction main() { }\n",
        ["`H : 0 ~> 2 when 0 = 0` of `R` breaks it", "R(r, x; 0): from 0 to 2"],
    ),
    "wait": (
        "function f(a) { x := 1; while (x < a) invariant x <= 7; { x := x + 1; }\n assert x = a; y := 2; assert y = a; }\nfunction main() { }\n",
        ["after a turn", "x <= 8", "assert x = a", "x <= 7", "a <= x"],
    ),
}


def verdict_lines(said):
    """The lines of what `verify` says on units that are not proved."""
    return [it for it in said.splitlines() if re.match("region |function ", it) and not it.endswith(": proved")]


def check_stuck(checks, program, pool, room):
    """Asks where the search stopped in each example that isn't proved."""
    paths = [it for it in examples() if "/refused-" not in it]
    others = []
    for name, (text, pieces) in OTHERS.items():
        others.append((f"{room}/{name}.cap", pieces))
        with open(others[-1][0], "w", encoding="utf-8") as file:
            file.write(text)

    def asked(path):
        return call(program, "verify", path)[0], tool("stuck", path, "--program", program)

    every = paths + [it for it, _ in others]
    for path, (said, found) in zip(every, pool.map(asked, every)):
        wanted = dict(others).get(path, TOLD.get(short(path), []))
        check_told(checks, path, said, *found, wanted, lacks_outline(program))
    check_stuck_words(checks, program, room)


def check_told(checks, path, said, status, told, wrong, wanted, is_lacking):
    """Compares what is told of a program with what `verify` says, with the source, and with what is wanted."""
    name, lines = f"stuck {short(path)}", verdict_lines(said)
    empty = "main: precondition empty\n" in said
    checks.same(f"{name}: wrong", wrong, "")
    checks.same(f"{name}: status", status, int(bool(lines) or empty))
    if not lines and not empty:
        checks.same(f"{name}: says", told, "all is proved\n")
        return
    parts = dict(re.findall(r"(?ms)^((?:region|function|main)[^\n]*)\n(.*?)(?=^\S|\Z)", told))
    checks.same(f"{name}: units", list(parts), lines + ["main: precondition empty"] * empty)
    for unit, part in parts.items():
        check_part(checks, f"{name}: {unit.split(':')[0]}", path, unit, part)
    at = 0
    for piece in [] if is_lacking else wanted:
        found = told.find(piece, at)
        checks.true(f"{name}: {piece!r} stands there", found >= 0)
        at = max(at, found)
    if is_lacking and " open " in told and "is not stable" not in told:
        checks.true(f"{name}: names the command that is lacking", WITHOUT in told)


def check_part(checks, name, path, unit, part):
    """Compares what is told of a unit with the lines of the source, and with docs/ANSWERS.md."""
    sections = re.findall(r'docs/ANSWERS.md, "([^"]*)"', part)
    known = re.findall(r"(?m)^### (.*)$", text_of(f"{TOP}/docs/ANSWERS.md"))
    checks.true(f"{name}: its section is there", sections and set(sections) <= set(known))
    found = re.search(r"open (\d+):(\d+) needs (\w+) (\d+):(\d+)$", unit)
    if not found:
        return
    places, need = ((int(found[1]), int(found[2])), (int(found[4]), int(found[5]))), found[3]
    checks.true(f"{name}: the section is on its need", sections[0].startswith(f"{need.capitalize()} "))
    source = text_of(path).split("\n")
    for label, (row, column) in zip("SI", places):
        mark = re.search(rf"(?m)^  {label} +{row} \| (.*)\n +\| ([ \t]*)(~+)$", part)
        checks.true(f"{name}: {label} is marked", mark)
        if mark:
            checks.same(f"{name}: the line of {label}", mark[1], source[row - 1])
            checks.same(f"{name}: the column of {label}", len(mark[2]) + 1, column)
            if label == "I":
                marked = source[row - 1][column - 1 : column - 1 + len(mark[3])]
                named = "".join(part.split("docs/")[0].split("`")[1::2])
                checks.true(f"{name}: what is lacking is named", "".join(marked.split()) in "".join(named.split()))
    has_more = re.search(r"(?m)^  at S|breaks it$|^  (what holds here can't|no action)", part)
    checks.true(f"{name}: states, an action, or why not", has_more)
    groups = re.findall(r"(?m)^    (numbers|cells|regions|guards) ", part)
    checks.same(f"{name}: groups", groups, ["numbers", "cells", "regions", "guards"] * part.count("\n  at S"))


def check_stuck_words(checks, program, room):
    """Bad words and files, and how `stuck` and `page` end."""
    with open(f"{room}/bad.cap", "w", encoding="utf-8") as file:
        file.write("function main() { # }")
    lock = f"{TOP}/examples/lock.cap"
    for name, shows in (("stuck", "Tells where"), ("page", "Shows a proof")):
        for words, wanted, said in [
            ([], 3, shows),
            ([lock, f"{room}/o.html", "more"], 3, shows),
            ([lock, "--budget", "3"], 3, shows),
            ([f"{room}/none.cap"], 4, "cannot read"),
            ([f"{room}/bad.cap"], 2, "refused 1:19: bad byte"),
        ]:
            status, out, wrong = tool(name, *words, "--program", program)
            checks.same(f"{name} {' '.join(map(os.path.basename, words))}", (status, said in out + wrong), (wanted, True))
        status, _, wrong = tool(name, lock, f"--program={room}/none")
        checks.same(f"{name} by no program", (status, "is no program" in wrong), (125, True))
    status, _, wrong = tool("page", lock, f"{room}/none/o.html", "--program", program)
    checks.same("page that can't be written", (status, "cannot write" in wrong), (5, True))


# ---- pages


class ProofPage(Elements):
    """The elements of a page of a proof: their number by class, its source, its data, and what states say."""

    def __init__(self, text):
        self.count, self.source, self.data, self.places, self.states, self.nodes = {}, [], "", [], {}, []
        super().__init__(text)

    def begun(self, name, had):
        """Counts the classes of an element."""
        for it in (had.get("class") or "").split():
            self.count[name, it] = self.count.get((name, it), 0) + 1
        if name == "div" and "source" in self.classes():
            self.source.append("")
        if had.get("class") == "statement":
            self.places.append(had["data-place"])
        if had.get("class") == "states":
            self.states[had["data-place"]] = 0
        if had.get("class") == "state" and name == "article" and "states" in self.classes():
            self.states[list(self.states)[-1]] += 1
        if "data-node" in had:
            self.nodes.append((list(self.states)[-1], int(had["data-node"])))

    def said(self, names, data):
        """A line of the source, or the data."""
        if any(had.get("id") == "data" for _, had in self.open):
            self.data += data
        if "code" in names and "source" in self.classes():
            self.source[-1] += data


def blocks_of(text, word):
    """The blocks behind a word in a text without comments: for each the number of semicolons in no further bracket."""
    found, words = [], [it.text for it in tokens_of(text)]
    for at, it in enumerate(words):
        if it != word or words[at + 1] != "{":
            continue
        depth, count = 0, 0
        for one in words[at + 1 :]:
            depth += (one in "([{") - (one in ")]}") if one else 0
            count += one == ";" and depth == 1
            if depth == 0:
                break
        found.append(count)
    return found


def numbers_near(region):
    """Small numbers, and those near the numbers of a region type's text."""
    terms = [it.state for it in region.cases] + [it for one in region.actions for it in (one.source, one.target)]
    compared = [it for one in region.cases for it in compared_in(one)] + [it for one in region.actions for it in one.conditions]
    said = {int(it) for term in terms + [it for one in compared for it in one[1:]] for it in re.findall(r"\d+", str(term))}
    return sorted({near for it in said for near in (it - 1, it, it + 1)} | set(range(-1, 7)))


def compared_in(case):
    """The comparisons that a case has to meet."""
    return case.conditions + [it.parts for it in case.items if it.kind == "comparison"]


def valuations(names, numbers):
    """All values of names."""
    for values in itertools.product(numbers, repeat=len(names)):
        yield dict(zip(names, values))


def names_of(terms):
    """The names of terms, each once."""
    return list(dict.fromkeys(name for it in terms for name in names_in(it)))


def counted_arrows(region):
    """The arrows of a region type, by trying values: of each action the pairs of cases of which it leads from one to the
    other."""
    numbers, count = numbers_near(region), 0
    all_terms = [it for one in region.cases for it in [one.state, *(x for c in compared_in(one) for x in c[1:])]]
    all_terms += [it for one in region.actions for it in [one.source, one.target, *(x for c in one.conditions for x in c[1:])]]
    fixed = [it for it in names_of(all_terms) if it in region.parameters]

    def reached(comparisons, terms):
        names = [it for it in names_of([*terms, *(x for c in comparisons for x in c[1:])]) if it not in fixed]
        return {
            (*(given[it] for it in fixed), *(value(values, it) for it in terms))
            for given in valuations(fixed, range(-1, 6))
            for values in ({**given, **it} for it in valuations(names, numbers))
            if all(holds(values, it) for it in comparisons)
        }

    cases = [reached(compared_in(it), [it.state]) for it in region.cases]
    for action in region.actions:
        moves = reached(action.conditions, [action.source, action.target])
        count += len({
            (source, target)
            for *given, a, b in moves
            for source, ones in enumerate(cases) if (*given, a) in ones
            for target, others in enumerate(cases) if (*given, b) in others
        })
    return count


HOSTILE = b"""// <script>alert(1)</script> & "quotes" \xc3\xbc \xff </textarea><!-- ]]>
region R(r, x) { guards G; // </svg><img src=http://example.org/x onerror=alert(1)>
  interpretation { 0 : x |-> 0; 1 : x |-> 1 &*& 0 < 1; } actions { G : 0 ~> 1; } }
function g(x, n) requires R(r, x; _) &*& n < 3; { y := [x]; // </code><b onclick=alert(1)>
  if (y < n) { assert y
    < 2; } else { assert n > 5; }
}
function main() { }
"""


def check_proofs(checks, program, pool, room):
    """Makes and compares the pages of the gallery, and of a program with hostile comments."""
    hostile = f"{room}/<u>&.cap"
    with open(hostile, "wb") as file:
        file.write(HOSTILE)

    def made(path):
        out = f"{room}/{os.path.basename(path)}.html"
        status, said, wrong = tool("page", path, out, "--program", program)
        return out, status, said, wrong, call(program, "verify", path)[0], outlined(program, path, room)

    is_lacking, paths = lacks_outline(program), [*gallery(), hostile]
    for path, (out, status, said, wrong, verdicts, found) in zip(paths, pool.map(made, paths)):
        name = f"page {os.path.basename(path)}"
        checks.same(f"{name}: status", (status, said), (0, ""))
        checks.same(f"{name}: says", wrong, f"page: {WITHOUT}, so no states are shown\n" if is_lacking else "")
        if status == 0:
            check_proof(checks, name, path, text_of(out), verdicts, None if is_lacking else found)
    status, page, _ = tool("page", hostile, "--program", program)
    checks.same("a page of a proof on standard output", (status, page), (0, text_of(f"{room}/<u>&.cap.html")))


def check_proof(checks, name, path, text, verdicts, found):
    """Compares a page with the source, the verdicts, and where all is proved with the derivation and the outline."""
    page, source = ProofPage(text), program_of(read(path))
    checks.same(f"{name}: faults of the HTML", page.faults, [])
    checks.same(f"{name}: what is outside", page.outside, [])
    check_lines(checks, name, path, page.source)
    places = [texts.place_text(it.place) for it in source.statements()]
    checks.same(f"{name}: statements", list(dict.fromkeys(page.places)), places)
    checks.same(f"{name}: panels of statements", list(page.states), places)
    plain = re.sub(r"//[^\n]*", "", source.text)
    checks.same(f"{name}: graphs", page.count.get(("figure", "graph"), 0), len(blocks_of(plain, "interpretation")))
    checks.same(f"{name}: boxes", page.count.get(("g", "box"), 0), sum(blocks_of(plain, "interpretation")))
    arrows = sum(map(counted_arrows, source.regions.values()))
    checks.same(f"{name}: arrows", page.count.get(("g", "arrow"), 0), arrows)
    units = verdicts.splitlines()[:-1]
    count = sum(it.startswith(("region ", "function ")) for it in units)
    checks.same(f"{name}: verdicts", page.count.get(("code", "verdict"), 0), count)
    checks.same(f"{name}: units that are proved", page.count.get(("code", "proved"), 0), verdicts.count(": proved\n"))
    is_open = verdicts.count(": open ")
    checks.same(f"{name}: units that are open", page.count.get(("article", "stuck"), 0), is_open)
    checks.same(f"{name}: red", (("span", "stopped") in page.count, ("span", "lacking") in page.count), (bool(is_open),) * 2)
    data = json.loads(page.data)
    checks.true(f"{name}: the first statement", data["first"] in places)
    for place, number in page.nodes:
        parent, at, _ = data["nodes"][number]
        checks.true(f"{name}: the node of a state at {place}", at == place and parent < number)
    if found:
        check_all_proved(checks, name, page, data, *found)


def check_all_proved(checks, name, page, data, derived, said):
    """Compares the nodes and states of a page with a derivation and its outline."""
    rules = re.findall(r'(?m)^\["(\w+)"', derived)[1:-1]
    checks.same(f"{name}: nodes", len(data["nodes"]), len(rules))
    told = [re.search(rf"(?:^|: ){rule}(?: |$)", text) for rule, (_, _, text) in zip(rules, data["nodes"])]
    checks.true(f"{name}: rules", all(told))
    checks.same(f"{name}: nodes of trees", sorted(it for some in data["trees"] for it in some), list(range(len(rules))))
    have = {texts.place_text(it.place): len(it.states) for it in texts.outline(said)}
    checks.true(f"{name}: no more states than the outline has", all(it <= have[place] for place, it in page.states.items()))
    checks.true(f"{name}: states at the first statements", page.states[next(iter(page.states))] > 0)


# ---- the browser


SHOWN = "[...document.querySelectorAll('.states')].filter(x => x.offsetHeight).map(x => x.dataset.place).join()"
SAID = "document.querySelector('.states.now').innerText"
MARKED = "[...new Set([...document.querySelectorAll('.statement.now')].map(x => x.dataset.place))].join()"


def click(it, place):
    """Clicks a statement, where it stands on the screen."""
    at = it.value(
        f"(function () {{ const x = document.querySelector('.statement[data-place=\"{place}\"]'); x.scrollIntoView({{block: 'center'}});"
        " const r = x.getClientRects()[0]; return [r.left + 3, r.top + r.height / 2]; })()"
    )
    it.click(*at)


def check_proof_browser(checks, path, room, is_lacking, pictures):
    """Clicks through pages of proofs."""
    with Browser(path) as it:
        it.size(1200, 800)
        if not is_lacking:
            check_clicks(checks, it, room)
        if pictures:
            it.size(1000, 640)
            it.open(f"{room}/ticket.cap.html", "#at-26-3")
            it.picture(f"{pictures}/proof.png")
            it.size(1200, 800)
        for name in sorted(os.listdir(room)):
            if name.endswith(".html"):
                it.open(f"{room}/{name}")
                it.key("End")
                last = it.value("[...document.querySelectorAll('.statement')].pop().dataset.place")
                checks.same(f"{name}: the last statement", (it.value(MARKED), it.value(SHOWN)), (last, last))
                it.value("document.querySelectorAll('details').forEach(x => { x.open = true; })")
                checks.same(f"{name}: the console", it.errors(), [])
                checks.same(f"{name}: what is asked for", len(it.requests()), 1)
                checks.same(f"{name}: no script of the program", it.value("document.querySelectorAll('script').length"), 2)


def check_clicks(checks, it, room):
    """Clicks statements, and reads their states."""
    it.open(f"{room}/lock.cap.html")
    checks.same("at the start", (it.value(MARKED), it.value(SHOWN)), ("17:3", "17:3"))
    click(it, "23:3")
    checks.same("after a click", (it.value(MARKED), it.value(SHOWN)), ("23:3", "23:3"))
    said = it.value(SAID)
    for piece in ("state 1 of 2", "b = 1", "r@UNLOCK", "state 2 of 2", "b = 0", "SLock(r, x; 1)"):
        checks.true(f"the states say {piece}", piece in said)
    it.value("document.querySelector('.states.now details summary').click()")
    rules = it.value("[...document.querySelectorAll('.states.now details')][0].innerText")
    for piece in ("enter SLock", "SLock in case 0: give", "it swaps: pick SLock in case 1, by LOCK[_] : 0 ~> 1", "if"):
        checks.true(f"the rules say {piece}", piece in rules)
    for key, place in [("j", "23:16"), ("k", "23:3"), ("ArrowUp", "22:3"), ("Home", "17:3"), ("End", "37:1"), ("j", "37:1")]:
        it.key(key)
        checks.same(f"after {key}", (it.value(MARKED), it.value(SHOWN)), (place, place))
    it.value("document.querySelector('.statement[data-place=\"31:12\"]').focus()")
    it.key("Enter")
    checks.same("after Enter", it.value(SHOWN), "31:12")
    click(it, "28:3")
    checks.true("the write of unlock has its guard", "r@UNLOCK" in it.value(SAID))
    it.open(f"{room}/lock.cap.html", "#at-31-12")
    checks.same("opened at 31:12", it.value(SHOWN), "31:12")
    it.open(f"{room}/lock-wrong.cap.html")
    checks.same("an open page begins at S", (it.value(MARKED), it.value(SHOWN)), ("28:3", "28:3"))
    checks.same("I is marked", it.value("document.querySelector('.lacking').textContent"), "r@UNLOCK")
    checks.true("what is stuck is said", "given r@UNLOCK" in it.value("document.querySelector('.stuck').innerText"))
    it.scripts(False)
    it.open(f"{room}/lock.cap.html")
    checks.same("without scripts all states are there", it.value(SHOWN).count(","), it.value("document.querySelectorAll('.states').length") - 1)
    it.scripts(True)
    it.open(f"{room}/lock.cap.html")
    it.looks("light", "print")
    checks.true("on paper the source is there", it.value("document.querySelector('.source').offsetHeight > 400"))
    it.looks("light")
