"""The page of a proof: one standalone HTML text with the source, the verdicts, what holds at each statement, the rules by
which that was come to, and the graph of each region type.

All states stand in the page as text. The script shows those of one statement, and of each the rules from the first of
its tree on. At an open unit the statement and the item of the answer are red in the source, with what `stuck` says."""

import re
from html import escape

from frame import document, tag
from graph import graph_of
from texts import place_text
from told import GROUPS, HAS, other_lines
from tokens import KEYWORDS, SECOND, tokens_of
from words import OTHERS

STYLE = """
main { flex: 1; min-height: 0; display: grid; grid-template-columns: minmax(0, 11fr) minmax(0, 9fr);
  grid-template-rows: minmax(0, 1fr); }
.source { overflow: auto; padding: 8px 0; font-size: 13px; line-height: 1.5; tab-size: 8; }
.source div { display: grid; grid-template-columns: 1.6em 3em 1fr; white-space: pre; width: max-content; min-width: 100%; }
.source .number { color: var(--dim); text-align: right; padding-right: 12px; user-select: none; }
.source .chip { text-align: center; font-weight: 700; user-select: none; }
.chip.proved, .verdict.proved { color: var(--t2); } .chip.not, .verdict.not { color: var(--fault); }
.keyword { color: var(--t3); } .literal { color: var(--t1); } .comment { color: var(--dim); font-style: italic; }
.type { color: var(--t4); }
.statement { cursor: pointer; border-radius: 3px; }
.statement:hover, .statement:focus-visible { background: color-mix(in srgb, var(--t0) 14%, transparent); outline: none; }
.statement.now { background: var(--mark); box-shadow: 0 0 0 2px var(--mark); }
.statement.now:has(.stopped) { background: none; box-shadow: 0 0 0 2px var(--fault); }
.lacking { text-decoration: underline wavy var(--fault); text-underline-offset: 3px; }
.stopped { background: color-mix(in srgb, var(--fault) 18%, transparent); }
aside { overflow: auto; border-left: 1px solid var(--line); background: var(--panel); padding: 4px 14px 20px; }
aside h2 { font-size: 13px; margin: 14px 0 4px; color: var(--dim); font-weight: 600; }
aside h2 code { color: var(--text); font-weight: 400; }
.stuck { border: 1px solid var(--fault); border-radius: 6px; padding: 4px 12px 8px; margin: 10px 0; }
.stuck p { margin: 4px 0; } .stuck h2 { color: var(--fault); }
.stuck ul { margin: 2px 0; padding-left: 18px; }
.state { border: 1px solid var(--line); border-radius: 6px; background: var(--back); margin: 6px 0; padding: 4px 10px; }
.state h3 { font-size: 12px; font-weight: 600; margin: 2px 0; color: var(--dim); }
dl { display: grid; grid-template-columns: 5em minmax(0, 1fr); margin: 2px 0; font-size: 13px; }
dt { color: var(--dim); } dd { margin: 0; }
dd code { display: block; white-space: pre-wrap; overflow-wrap: anywhere; }
dd code.case { padding-left: 1.5em; color: var(--dim); }
.note { color: var(--dim); }
.scripted .states { display: none; } .scripted .states.now { display: block; }
summary { cursor: pointer; color: var(--dim); font-size: 12px; }
.path { margin: 2px 0; padding-left: 2.6em; font-size: 12px; } .path code { white-space: pre-wrap; overflow-wrap: anywhere; }
.path .where { color: var(--dim); }
.verdicts { list-style: none; margin: 0; padding: 0; font-size: 13px; }
.graph { margin: 8px 0; padding: 8px 10px; border: 1px solid var(--line); border-radius: 6px; background: var(--back);
  overflow-x: auto; }
.graph figcaption { margin-bottom: 6px; }
svg text { font: 12px ui-monospace, "DejaVu Sans Mono", Menlo, Consolas, monospace; fill: var(--text); white-space: pre; }
svg .state { font-weight: 700; fill: var(--t0); }
svg rect { fill: var(--panel); stroke: var(--line); }
svg .line { fill: none; stroke: var(--c); stroke-width: 1.5; } svg .head { fill: var(--c); } svg .arrow text { fill: var(--c); }
@media (max-width: 900px) {
  main { grid-template-columns: minmax(0, 1fr); grid-template-rows: minmax(0, 1fr) minmax(0, 1fr); }
  aside { border-left: 0; border-top: 1px solid var(--line); } }
@media print {
  body, main { display: block; height: auto; overflow: visible; } .source, aside { overflow: visible; border: 0; }
  * { print-color-adjust: exact; -webkit-print-color-adjust: exact; } }
"""

SCRIPT = """
"use strict";
const data = JSON.parse(document.getElementById("data").textContent);
document.body.classList.add("scripted");
const spans = Array.from(document.querySelectorAll(".statement"));
const places = Array.from(new Set(spans.map(it => it.dataset.place)));
let now = null;
function made(tag, name, text) {
  const it = document.createElement(tag);
  if (name) it.className = name;
  it.textContent = text;
  return it;
}
function line(number) {
  const [, place, rule] = data.nodes[number];
  const it = document.createElement("li");
  it.append(made("code", "", rule));
  if (place) it.append(made("span", "where", "  " + place));
  return it;
}
function fill(details) {
  const list = details.querySelector("ol");
  if (!details.open || list.childElementCount) return;
  if (details.dataset.tree) {
    for (const number of data.trees[details.dataset.tree]) list.append(line(number));
    return;
  }
  const path = [];
  for (let number = Number(details.dataset.node); number >= 0; number = data.nodes[number][0]) path.push(number);
  for (const number of path.reverse()) list.append(line(number));
}
function show(place) {
  if (!places.includes(place)) return;
  now = place;
  for (const it of spans) it.classList.toggle("now", it.dataset.place === place);
  for (const it of document.querySelectorAll(".states")) it.classList.toggle("now", it.dataset.place === place);
  spans.find(it => it.dataset.place === place).scrollIntoView({block: "nearest", inline: "nearest"});
}
document.addEventListener("toggle", function (event) {
  if (event.target.matches("details")) fill(event.target);
}, true);
document.addEventListener("click", function (event) {
  const it = event.target.closest("[data-place]");
  if (it && it.closest(".source, .verdicts, .stuck")) show(it.dataset.place);
});
document.addEventListener("keydown", function (event) {
  if (event.ctrlKey || event.metaKey || event.altKey) return;
  if (event.key === "Enter" && event.target.matches(".statement")) show(event.target.dataset.place);
  const at = places.indexOf(now);
  const to = {j: at + 1, k: at - 1, ArrowDown: at + 1, ArrowUp: at - 1, Home: 0, End: places.length - 1}[event.key];
  if (to === undefined || event.target.matches("summary")) return;
  event.preventDefault();
  show(places[Math.max(0, Math.min(places.length - 1, to))]);
});
const asked = /^#at-([0-9]+)-([0-9]+)$/.exec(location.hash);
show(asked ? asked[1] + ":" + asked[2] : data.first);
"""


# ---- the source


def kinds_of(program):
    """The colour of each byte of the text that has one: a class by its first byte and the one behind it."""
    found, at, text = [], 0, program.text
    words = KEYWORDS + (SECOND if is_second(text) else [])
    for it in tokens_of(text):
        comments = re.finditer(r"//[^\n]*", text[at : it.at])
        found += [(at + one.start(), at + one.end(), "comment") for one in comments]
        at = it.end
        if it.text in words:
            found.append((it.at, it.end, "keyword"))
        elif it.text in program.regions:
            found.append((it.at, it.end, "type"))
        elif it.text[:1].isdigit():
            found.append((it.at, it.end, "literal"))
    return found


def is_second(text):
    """Whether a text is of the second version."""
    return [it.text for it in tokens_of(text)[:3]] == ["caper", "2", ";"]


def marks_of(program, stucks):
    """For each line the classes of its columns: a class, from, to."""
    marks = {}
    for start, end, name in kinds_of(program):
        for line, first, last in program.pieces(start, end):
            marks.setdefault(line, []).append((first, last, name))
    for stop in (it for stuck in stucks for it in stuck.stops if it.stands is not None and it.asked is not None):
        for pieces, name in ((stop.stands.pieces, "stopped"), (stop.asked.pieces, "lacking")):
            for line, first, last in pieces:
                marks.setdefault(line, []).append((first, last, name))
    return marks


def coloured(text, marks, start, end):
    """Columns of a line as HTML, in spans by their classes."""
    edges = {start, end} | {it for first, last, _ in marks for it in (first, last) if start < it < end}
    html, edges = "", sorted(edges)
    for first, last in zip(edges, edges[1:]):
        names = sorted({name for a, b, name in marks if a <= first and last <= b})
        part = escape(text[first - 1 : last - 1])
        html += tag("span", part, " ".join(names)) if names else part
    return html


def source_of(program, stucks, chips):
    """The source, each statement's head in spans with its place."""
    pieces = {}
    for statement in program.statements():
        for line, start, end in statement.head:
            pieces.setdefault(line, []).append((start, end, place_text(statement.place)))
    lines, marks = [], marks_of(program, stucks)
    for number, text in enumerate(program.lines, 1):
        if number == len(program.lines) and not text:
            break
        html, at, mine = "", 1, marks.get(number, [])
        for start, end, place in sorted(pieces.get(number, [])):
            html += coloured(text, mine, at, start)
            html += tag("span", coloured(text, mine, start, end), "statement", data_place=place, tabindex="0")
            at = end
        html += coloured(text, mine, at, max(at, len(text) + 1))
        chip = chips.get(number, tag("span", "", "chip"))
        lines.append(tag("div", chip + tag("span", str(number), "number") + tag("code", html)))
    return tag("section", "\n".join(lines), "source", aria_label="source")


# ---- the panel


def code_of(text, names=""):
    """A text as code."""
    return tag("code", escape(text), names)


def region_of(region):
    """A fact, and what its cases would own that may be meant."""
    fact, cases = region
    return code_of(fact) + "".join(code_of(text, "case") for _, text in cases)


def group_of(name, lines):
    """A group of a state."""
    return tag("dt", name) + tag("dd", "".join(lines) or tag("code", "none"))


def groups_of(state):
    """The groups of a state."""
    html = ""
    for name in GROUPS:
        found = getattr(state, name)
        html += group_of(name, map(region_of if name == "regions" else code_of, found))
    return tag("dl", html)


def state_of(here, at, count):
    """A state at a statement."""
    title = numbered(at, count) + HAS[here.state.has] if here.state else numbered(at, count, "way")
    path = tag("details", tag("summary", "rules that lead here") + tag("ol", "", "path"), data_node=str(here.node))
    said = groups_of(here.state) if here.state else ""
    return tag("article", tag("h3", escape(title)) + said + path, "state")


def numbered(at, count, what="state"):
    """A state's name among so many."""
    return f"{what} {at} of {count}" if count > 1 else what


def states_of(program, gathered, statement):
    """The states at a statement, those that say the same as one before left out."""
    place, found = statement.place, []
    for it in gathered.states.get(place, []):
        if it.state is None or it.state not in [one.state for one in found]:
            found.append(it)
    html = tag("h2", f"at {place_text(place)} " + tag("code", escape(program.words_of(statement))))
    html += "".join(state_of(it, at, len(found)) for at, it in enumerate(found, 1))
    if not found:
        html += tag("p", "no state: it isn't reached, or nothing is told of it", "note")
    if place in gathered.impossible:
        html += tag("p", f"{gathered.impossible[place]} more that contradict themselves", "note")
    return tag("section", html, "states", data_place=place_text(place), id=f"at-{place[0]}-{place[1]}")


def quoted(text):
    """A sentence, with what stands in backquotes as code."""
    return re.sub("`([^`]*)`", r"<code>\1</code>", escape(text))


def stop_of(stop):
    """What is lacking at one place; states of a loop that stand at its statement for two causes."""
    html = ""
    if stop.said:
        html += tag("p", quoted(stop.said))
        html += tag("p", escape(f'docs/ANSWERS.md, "{stop.section}"'), "note")
    html += "".join(
        tag("p", quoted(f"{place_text(it.action.place)} {it.text()} breaks it:"), "break")
        + tag("ul", "".join(tag("li", tag("code", escape(f"{fact}: from {a} to {b}"))) for fact, a, b in it.moves))
        for it in stop.breaks
    )
    html += "".join(tag("p", escape(it), "note") for it in stop.notes)
    for label, states in stop.states:
        html += "".join(
            tag("article", tag("h3", escape(f"{label}, {numbered(at, len(states))}")) + groups_of(it), "state")
            for at, it in enumerate(states, 1)
            if label
        )
    return html


def stuck_of(stuck):
    """Where a unit stops."""
    html = tag("h2", tag("code", escape(f"{stuck.unit[0]} {stuck.unit[1]}: {stuck.verdict}")))
    for number, stop in enumerate(stuck.stops):
        if number:
            at = stop.open
            html += tag("h2", f"with this cut off: open {place_text(at.statement)} needs {at.need} {place_text(at.item)}")
        html += stop_of(stop)
    place = place_text(stuck.stops[0].open.statement)
    return tag("article", html, "stuck", data_place=place)


def first_line(program, unit):
    """The line in which a unit begins."""
    kind, name = unit
    it = program.regions[name] if kind == "region" else program.functions[name]
    return program.text.count("\n", 0, it.start) + 1


def first_place(program, unit):
    """The place of a unit's first statement, or nothing."""
    return place_text(program.functions[unit[1]].body[0].place) if unit[0] == "function" else ""


def verdicts_of(program, verdicts, gathered):
    """The verdicts, and below each the trees of its unit."""
    lines = []
    for kind, name, verdict in verdicts.units:
        trees = [(at, of, numbers) for at, (unit, of, numbers) in enumerate(gathered.trees) if unit == (kind, name)]
        names = "verdict proved" if verdict == "proved" else "verdict not"
        said = tag("code", escape(f"{kind} {name}: {verdict}"), names, data_place=first_place(program, (kind, name)))
        said += "".join(
            tag("details", tag("summary", escape(f"{of}: {len(numbers)} rules")) + tag("ol", "", "path"), data_tree=str(at))
            for at, of, numbers in trees
        )
        if verdict.split(" ")[0] in OTHERS:
            said += tag("p", escape(other_lines("", verdict)[1]), "note")
        lines.append(tag("li", said))
    return tag("ul", "".join(lines), "verdicts")


def chips_of(program, verdicts):
    """A mark for the line in which each unit begins."""
    chips = {}
    for kind, name, verdict in verdicts.units:
        proved = verdict == "proved"
        mark = "\u2713" if proved else "\u2717"
        chip = tag("span", mark, "chip proved" if proved else "chip not", title=f"{kind} {name}: {verdict}")
        chips[first_line(program, (kind, name))] = chip
    return chips


def data_of(program, gathered, stucks):
    """What the script needs."""
    nodes = [(parent, place_text(place) if place else "", text) for parent, place, text in gathered.nodes]
    statements = [place_text(it.place) for it in program.statements()]
    stops = [place_text(stuck.stops[0].open.statement) for stuck in stucks]
    first = next((it for it in stops if it in statements), statements[0])
    return {"nodes": nodes, "trees": [numbers for _, _, numbers in gathered.trees], "first": first}


def page_of(program, verdicts, stucks, gathered, name):
    """The page of a proof. The name is that of the file."""
    said = f"{verdicts.proved} of {len(verdicts.units)} proved" + ", nothing meets main's precondition" * verdicts.empty
    bad = verdicts.empty or verdicts.proved < len(verdicts.units)
    keys = (
        "A click on a statement, or <kbd>j</kbd> and <kbd>k</kbd>, shows what holds in front of it. Red: the statement at which"
        " the search stopped, and wavy what it lacked there."
    )
    panel = "".join(map(stuck_of, stucks))
    panel += "".join(tag("p", escape(it), "note") for it in gathered.notes)
    panel += "\n".join(states_of(program, gathered, it) for it in program.statements())
    panel += "".join(tag("h2", "region types") for _ in list(program.regions)[:1])
    panel += "\n".join(graph_of(program, it) for it in program.regions.values())
    panel += tag("h2", "units and their rules") + verdicts_of(program, verdicts, gathered)
    body = (
        f"<header><h1>{escape(name)} {tag('span', escape(said), 'bad' if bad else '')}</h1>\n{tag('p', keys, 'keys')}</header>\n"
        f"<main>\n{source_of(program, stucks, chips_of(program, verdicts))}\n{tag('aside', panel)}\n</main>"
    )
    return document(f"{name}: {said}", STYLE, body, data_of(program, gathered, stucks), SCRIPT)
