"""The graph of a region type as SVG: a box for each case with what it owns, an arrow for each action between two cases
that it may lead from and to, with its guards."""

import math
from html import escape

from frame import colour, tag
from proof import action_text
from rows import Line, contradict, line_of, linear_of, number, settled

# Sizes: of a character, a line of text, the room round a box, and between two lanes of arrows.
CHARACTER, HEIGHT, ROOM, LANE = 7.3, 17, 14, 16
WIDEST = 64


def in_case(case, variable):
    """What numbers tell of a case: its conditions, and the comparisons of its assertion."""
    amounts = [it.parts[3] for it in case.items if it.kind == "atom" and it.parts[1] == "share" and it.parts[3] is not None]
    shares = {name for it in amounts for name in linear_of(it, variable).names()}
    compared = [it.parts for it in case.items if it.kind == "comparison"]
    return [line_of(it, variable, shares) for it in case.conditions + compared]


def leads(region, action, source, target):
    """Whether an action may lead from one case to another, as far as numbers tell."""

    def named(mark):
        return lambda name: number(name if name in region.parameters else f"{mark}{name}")

    lines = [line_of(it, named("a "), ()) for it in action.conditions]
    for case, term, mark in ((source, action.source, "s "), (target, action.target, "t ")):
        state = linear_of(case.state, named(mark)).plus(linear_of(term, named("a ")), -1)
        lines += [Line(state, "="), *in_case(case, named(mark))]
    return not contradict(lines) and not is_fractional(lines)


def is_fractional(lines):
    """Whether an equality of whole numbers has fractions alone as solutions."""
    left, _ = settled([it for it in lines if it.kind == "="], str)
    parts = [(it.term.constant, [coefficient for _, coefficient in it.term.parts]) for it in left if it.kind == "="]
    return any(constant % math.gcd(*some) for constant, some in parts if some)


def arrows_of(region):
    """The arrows of a region type: an action's number, and the numbers of two cases."""
    return [
        (at, source, target)
        for at, action in enumerate(region.actions)
        for source, one in enumerate(region.cases)
        for target, other in enumerate(region.cases)
        if leads(region, action, one, other)
    ]


def wrapped(text):
    """A text in lines that aren't too wide, parted at blanks."""
    lines = [""]
    for word in text.split(" "):
        if lines[-1] and len(lines[-1]) + len(word) >= WIDEST:
            lines.append(f"  {word}")
        else:
            lines[-1] += f" {word}" if lines[-1] else word
    return lines


def case_lines(program, case):
    """The lines of a box: the state with its conditions, and each item."""
    when = f" when {case.conditions_text}" if case.conditions_text else ""
    items, last = [], None
    for it in case.items:
        if it.start != last:
            items += wrapped(" ".join(program.text[it.start : it.end].split()))
        last = it.start
    return [f"{case.state_text}{when}", *items]


def text_at(x, y, text, names=""):
    """A line of text."""
    return tag("text", escape(text), names, x=f"{x:.0f}", y=f"{y:.0f}")


def box_of(lines, top, width):
    """A case's box, and its height."""
    height = HEIGHT * len(lines) + ROOM
    shape = tag("rect", "", x="1", y=f"{top:.0f}", width=f"{width:.0f}", height=f"{height:.0f}", rx="6")
    said = [text_at(10, top + HEIGHT * (at + 1), it, "" if at else "state") for at, it in enumerate(lines)]
    return tag("g", shape + "".join(said), "box"), height


def arrow_of(at, source, target, lane, label, text):
    """An arrow from one height to another at the right of the boxes, with its label."""
    (x, first), last = source, target[1]
    bend = f"M {x:.0f} {first:.0f} C {lane:.0f} {first:.0f} {lane:.0f} {last:.0f} {x + 8:.0f} {last:.0f}"
    head = f"M {x:.0f} {last:.0f} l 9 -4 v 8 z"
    line = tag("path", "", "line", d=bend) + tag("path", "", "head", d=head)
    return tag("g", line + text_at(label[0], label[1], text), f"arrow {colour(at)}")


def graph_of(program, region):
    """The graph of a region type."""
    boxes = [case_lines(program, it) for it in region.cases]
    arrows = arrows_of(region)
    width = max([len(it) for lines in boxes for it in lines] + [8]) * CHARACTER + 20
    shapes, spans, top = [], [], 4
    for lines in boxes:
        shape, height = box_of(lines, top, width)
        shapes.append(shape)
        spans.append((top, height))
        top += height + 22
    heights = ends_of(arrows, spans)
    labels, bottom = labels_of(arrows, heights)
    right = width + 40 + LANE * len(arrows)
    for key, (action, _, _) in enumerate(arrows):
        lane, ends = width + 30 + LANE * (key + 1), [(width + 1, heights[key, it]) for it in (0, 1)]
        shapes.append(arrow_of(action, *ends, lane, (right, labels[key]), action_text(region.actions[action])))
    longest = max([len(action_text(region.actions[action])) for action, _, _ in arrows] + [0])
    return figure_of(region, "".join(shapes), right + longest * CHARACTER + 8, max(top, bottom + 10))


def ends_of(arrows, spans):
    """At which height each arrow begins and ends, by its number and 0 or 1: at a case's box one below the other."""
    ends, heights = [[] for _ in spans], {}
    for at, (_, source, target) in enumerate(arrows):
        ends[source].append((at, 0))
        ends[target].append((at, 1))
    for (begin, height), some in zip(spans, ends):
        for at, key in enumerate(sorted(some)):
            heights[key] = begin + height * (at + 1) / (len(some) + 1)
    return heights


def labels_of(arrows, heights):
    """At which height the label of each arrow stands, one below the other, and where the last one does."""
    labels, bottom = {}, 0
    for key in sorted(range(len(arrows)), key=lambda it: heights[it, 0] + heights[it, 1]):
        bottom = max(bottom + HEIGHT, (heights[key, 0] + heights[key, 1]) / 2 + 4)
        labels[key] = bottom
    return labels, bottom


def figure_of(region, shapes, width, height):
    """A region type's figure."""
    title = f"{region.name}({', '.join(region.parameters)}), guards {region.guards}"
    size = {"width": f"{width:.0f}", "height": f"{height:.0f}"}
    picture = tag("svg", shapes, viewBox=f"0 0 {width:.0f} {height:.0f}", **size, role="img", aria_label=title)
    return tag("figure", tag("figcaption", tag("code", escape(title))) + picture, "graph", data_region=region.name)
