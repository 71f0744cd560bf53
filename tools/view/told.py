"""What is lacking, as lines of text: the source with its marks, the words, and the states in groups."""

from texts import place_text
from words import OTHERS

GROUPS = ("numbers", "cells", "regions", "guards")
# What is said of a state that was asked whether it has what is wanted.
HAS = {
    None: "",
    ("fact", True): ", in which it follows",
    ("fact", False): ", in which it doesn't follow",
    ("cell", True): ", in which it is held",
    ("cell", False): ", in which it isn't held",
}


def marked(program, label, pieces):
    """Lines of the source with a label, and below each its marks."""
    lines = []
    for number, start, end in pieces:
        line = program.lines[number - 1]
        before = "".join("\t" if it == "\t" else " " for it in line[: start - 1])
        lines += [f"  {label} {number:4} | {line}", f"         | {before}{'~' * (end - start)}"]
        label = " " * len(label)
    return lines


def state_lines(state):
    """The groups of a state as lines."""
    lines = []
    for group in GROUPS:
        found = getattr(state, group)
        told = [it for one in found for it in region_lines(one)] if group == "regions" else found
        lines += [f"    {name:8} {it}" for name, it in zip([group, *[""] * len(told)], told or ["none"])]
    return lines


def region_lines(region):
    """A fact, and what the cases would own that may be meant."""
    fact, cases = region
    return [fact, *(f"  {text}" for _, text in cases)]


def states_lines(label, states):
    """The states at a place as lines."""
    lines, where = [], f"at S, {label}" if label else "at S"
    for number, state in enumerate(states, 1):
        which = where if len(states) == 1 else f"{where}, state {number} of {len(states)}"
        lines += [f"  {which}{HAS[state.has]}:", *state_lines(state)]
    return lines


def broken_lines(broken):
    """What an action does to an assertion, as lines."""
    action = broken.action
    lines = [f"  {place_text(action.place)} {broken.text()} breaks it"]
    for fact, source, target in broken.moves:
        lines.append(f"    {fact}: from {source} to {target}")
    return lines


def stop_lines(program, stop):
    """What is lacking at one place, as lines."""
    lines = []
    if stop.stands is not None and stop.asked is not None:
        lines += marked(program, "S", stop.stands.pieces) + marked(program, "I", stop.asked.pieces)
        lines.append(f'  {stop.said} (docs/ANSWERS.md, "{stop.section}")')
    for it in stop.breaks:
        lines += broken_lines(it)
    lines += [f"  {it}" for it in stop.notes]
    for label, states in stop.states:
        lines += states_lines(label, states)
    return lines


def stuck_lines(program, stuck):
    """Where a unit stops, as lines."""
    lines = [f"{stuck.unit[0]} {stuck.unit[1]}: {stuck.verdict}"]
    for number, stop in enumerate(stuck.stops):
        if number:
            open_ = stop.open
            lines.append(f"  with this cut off: open {place_text(open_.statement)} needs {open_.need} {place_text(open_.item)}")
        lines += stop_lines(program, stop)
    return lines


def other_lines(what, verdict):
    """An answer that is not `open`, as lines."""
    said, section = OTHERS[verdict.split(" ")[0]]
    return [what, f'  no state is told: {said} (docs/ANSWERS.md, "{section}")']


def told(program, verdicts, units):
    """Where all units stop, as a text, and what else isn't proved."""
    stops, parts = {it.unit: it for it in units}, []
    for kind, name, verdict in verdicts.units:
        if (kind, name) in stops:
            parts.append(stuck_lines(program, stops[kind, name]))
        elif verdict != "proved":
            parts.append(other_lines(f"{kind} {name}: {verdict}", verdict))
    if verdicts.empty:
        parts.append(other_lines("main: precondition empty", "empty"))
    return "\n\n".join("\n".join(it) for it in parts) + "\n" if parts else "all is proved\n"
