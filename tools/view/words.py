"""What an `open` answer says, in words, as docs/ANSWERS.md has it: what is lacking, and which section tells more."""

from dataclasses import dataclass

from asserted import item_at, joined
from tokens import tokens_of

KINDS = {
    "read": "the read",
    "write": "the write",
    "cas": "the compare-and-swap",
    "faa": "the fetch-and-add",
    "dispose": "the disposal",
    "while": "the loop",
    "return": "the return",
    "assert": "the assertion",
}


@dataclass
class Asked:
    """What stands at the place of an item: its text and pieces of lines, where it is, `case`, `requires`, `ensures`,
    `invariant` or `statement`, and whose it is: a function, a statement, or a region type and a case."""

    text: str
    pieces: list
    where: str
    owner: object


@dataclass
class Stands:
    """Where a statement's place is: `statement`, `call` (a fork and a return too), `contract` or `case`, with its pieces of
    lines, the function or the region type, and the statement, the loop or the case; of a contract its word."""

    where: str
    pieces: list
    unit: object
    at: object = None
    word: str = ""


SECTIONS = {
    "statement": "at a statement",
    "call": "at a call or a return",
    "contract": "in a contract or an invariant",
    "case": "in a case",
}
# Answers that are not `open`, by their first word: what they say, and the section on them.
OTHERS = {
    "spent": ("the search came to the end of its budget", "The budget is spent"),
    "deep": ("some goal stood too deep", "A tree is too deep"),
    "wide": ("two numbers were met whose product or sum leaves 128 bits", "A number is too wide"),
    "rows": ("an elimination met too many rows", "There are too many rows"),
    "empty": ("no arguments and cells meet the precondition of main", "Nothing meets the precondition of main"),
}
ELSEWHERE = {("move", "call"), ("move", "contract"), ("state", "contract"), ("state", "case")}


def section_of(need, stands):
    """The section of docs/ANSWERS.md on a need at such a place."""
    where = "elsewhere" if (need, stands.where) in ELSEWHERE else SECTIONS[stands.where]
    return f"{need.capitalize()} {where}"


def stands_of(program, unit, place):
    """Where the place of a statement is in a unit, or None where none is known."""
    kind, name = unit
    if kind == "region":
        region = program.regions[name]
        case = next((it for it in region.cases if it.place == place), None)
        return case and Stands("case", program.pieces(case.start, case.start + len(case.state_text)), region, case)
    function = program.functions[name]
    for word, items, loop in contracts_of(function):
        item = item_at(items, place)
        if item:
            return Stands("contract", program.pieces(item.start, item.end), function, loop, word)
    for it in function.statements():
        if it.place == place:
            return Stands("call" if it.kind in ("call", "fork", "return") else "statement", it.head, function, it)
    return None


def contracts_of(function):
    """The assertions of a function: a word, the items, and the loop of an invariant."""
    yield "requires", function.requires, None
    yield "ensures", function.ensures, None
    for it in function.loops():
        yield "invariant", it.invariant, it


def asked_of(program, place):
    """What stands at the place of an item, or None where nothing is known there."""

    def asked(start, end, where, owner):
        text = joined([it.text for it in tokens_of(program.text[start:end])[:-1]])
        return Asked(text, program.pieces(start, end), where, owner)

    for region in program.regions.values():
        for case in region.cases:
            item = item_at(case.items, place)
            if item:
                return asked(item.start, item.end, "case", (region, case))
            if case.place == place:
                return asked(case.start, case.start + len(case.state_text), "case", (region, case))
    for function in program.functions.values():
        for word, items, _ in contracts_of(function):
            item = item_at(items, place)
            if item:
                return asked(item.start, item.end, word, function)
        for it in function.statements():
            if it.place == place:
                return Asked(program.words_of(it), it.head, "statement", it)
            if it.kind == "assert" and it.asserts[0] == place:
                return asked(*it.asserts[1:], "statement", it)
    return None


def said(need, stands, asked):
    """What is lacking, as a sentence."""
    text = f"`{asked.text}`"
    if stands.where in ("contract", "case"):
        return unstable(need, stands, text)
    if need in ("move", "state"):
        return of_state(need, stands, asked, text)
    return f"{asker(stands, asked, text)}, {LACKS[need, asked.where == 'statement']}."


LACKS = {
    ("fact", True): "and that doesn't follow from what is known here",
    ("fact", False): "and that doesn't follow from what is known here",
    ("cell", True): "and no such cell is held, nor does a region that is known here by a fact own it in each of its cases",
    ("cell", False): "and no such cell is held here, or it holds another value",
    ("region", False): "and no known fact meets that: none of this region, or one with other arguments, or in a state"
    " that isn't known to be this, or a loose one",
    ("guard", False): "and that guard isn't held here, or not as much of it",
}


def done(stands):
    """What a statement does, in words."""
    statement = stands.at
    if statement.kind in ("call", "fork"):
        name = statement.parts[1] if statement.kind == "call" else statement.parts[0]
        return f"the {statement.kind} of `{name}`"
    return KINDS.get(statement.kind, "the statement")


def asker(stands, asked, text):
    """Who asks for an item, in words."""
    what = done(stands)
    if asked.where == "statement":
        return f"{capital(what)} asks for {text}" if stands.at.kind == "assert" else f"{capital(what)} {text} needs its cell"
    if asked.where == "case":
        region, case = asked.owner
        which = f"`{region.name}` in case `{case.state_text}`"
        if stands.at.kind in ("read", "write", "cas", "faa", "dispose"):
            return f"After {what} {which} would be closed: it then has to be given {text}"
        return f"At {what} no known fact fits, so {which} would be made: it then has to be given {text}"
    if asked.where == "invariant":
        return f"Where {what} is reached, and after each turn, its invariant asks for {text}"
    if asked.where == "ensures":
        return f"At {what} `ensures` promises {text}"
    return f"{capital(what)} asks for {text}"


def of_state(need, stands, asked, text):
    """The sentence on a state or a move."""
    region, case = asked.owner
    which = f"`{region.name}` in case {text}"
    if need == "move":
        return (
            f"After {done(stands)} {which} fits what is there, but no action leads there from the state before, with the"
            " guards that were held before the step, and with its `when`."
        )
    return f"At {done(stands)} {which} would be made, and its state or its `when` doesn't follow from what is known here."


def unstable(need, stands, text):
    """The sentence on an assertion that isn't stable."""
    if stands.where == "case":
        what = f"Case `{stands.at.state_text}` of `{stands.unit.name}`"
    elif stands.word == "invariant":
        what = f"The invariant of the loop at {stands.at.place[0]}:{stands.at.place[1]}"
    else:
        what = f"`{stands.word}` of `{stands.unit.name}`"
    then = {
        "fact": f"{text} need not hold",
        "cell": f"there need not be {text}",
        "region": f"{text} need not be met",
        "guard": f"there need not be {text}",
        "move": f"the state {text} need not be what it was",
        "state": f"{text} need not follow",
    }
    return f"{what} is not stable: it is given, others act, and then {then[need]}."


def capital(text):
    """A text with a capital letter."""
    return text[:1].upper() + text[1:]
