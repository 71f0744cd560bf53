"""The page of a run: one standalone HTML text with a strip of the threads, the heap after each step, and the source.

The strip is a table: a row a step behind a row for the start, a column a thread, a column a region with its state, then a
column for each address that the run comes to. A heap cell has two lines, its value and its owner, in whose colour it is.
Regions and owners are those of the accounts of the run, where there are some. The table alone is what is printed, and
needs no script. The script marks a row, and what the threads stand at after it, and who owns what: keys and clicks move
it."""

from dataclasses import dataclass
from html import escape

from frame import COLOURS, colour, document, tag
from machine import Differs, Machine
from texts import FAULTS, place_text

# A page of more cells than so many is refused.
CELLS = 100000
# With more threads than so many their columns are narrow.
MANY = 4
# The colours of regions, light and dark.
REGIONS = [
    ("#b8860b", "#e0b84c"),
    ("#2f8f8f", "#6fd0cc"),
    ("#c2447a", "#f58fb8"),
    ("#5b7f1f", "#a8cc62"),
    ("#8a5a44", "#d3a088"),
    ("#5560c0", "#a5aef5"),
]
LIGHT, DARK = ("".join(f"--g{at}: {both[k]}; " for at, both in enumerate(REGIONS)) for k in (0, 1))

STYLE = (
    f":root {{ {LIGHT}}} @media (prefers-color-scheme: dark) {{ :root {{ {DARK}}} }}\n"
    + " ".join(f".g{at} {{ --c: var(--g{at}); }}" for at in range(len(REGIONS)))
    + "\n"
    + " ".join(f".by-t{at} {{ --o: var(--t{at}); }}" for at in range(COLOURS))
    + "\n"
    + " ".join(f".by-g{at} {{ --o: var(--g{at}); }}" for at in range(len(REGIONS)))
    + """
main { flex: 1; min-height: 0; display: grid; grid-template-columns: fit-content(calc(100vw - 34em)) minmax(0, 1fr);
  grid-template-rows: minmax(0, 1fr); }
.strip { overflow: auto; scroll-padding: 72px 8px 16px 64px; }
aside { display: flex; flex-direction: column; min-height: 0; border-left: 1px solid var(--line);
  background: var(--panel); }
table { border-collapse: separate; border-spacing: 0; font-size: 13px; }
thead { position: sticky; top: 0; z-index: 2; }
thead th { background: var(--panel); border-bottom: 1px solid var(--line); padding: 3px 8px; text-align: left;
  vertical-align: bottom; white-space: nowrap; }
thead tr:first-child th { font-weight: normal; color: var(--dim); border-bottom: 0; }
thead th.thread { color: var(--c); border-bottom: 3px solid var(--c); min-width: 10em; }
thead th.at { text-align: center; font-size: 12px; min-width: 3em; border-bottom: 3px solid var(--line); }
th.heap, .first { border-left: 1px solid var(--line); }
tbody th { color: var(--dim); font-weight: normal; text-align: right; padding: 3px 10px 3px 16px; vertical-align: top;
  position: sticky; left: 0; z-index: 1; background: var(--back); border-top: 1px solid transparent; }
thead tr:first-child th:first-child { position: sticky; left: 0; z-index: 1; }
tbody td { padding: 3px 8px; vertical-align: top; border-top: 1px solid transparent; }
tbody tr { cursor: pointer; }
td code { display: block; white-space: pre; }
td.step { background: color-mix(in srgb, var(--c) 13%, transparent); box-shadow: inset 4px 0 0 var(--c); }
td.step .event { color: var(--c); font-weight: 600; }
td.step .words { color: var(--dim); font-size: 12px; max-width: 26em; overflow: hidden; text-overflow: ellipsis; }
.many td.step .words { max-width: 13em; } .many thead th.thread { min-width: 6em; }
td.lane { background: linear-gradient(var(--c), var(--c)) 1px 0 / 2px 100% no-repeat; }
td.cell { text-align: center; min-width: 3em; }
td.cell b { font-weight: normal; display: inline-block; min-width: 1.8em; padding: 0 3px; border: 1px solid transparent;
  border-radius: 4px; }
td.cell .owner { display: block; min-height: 1.2em; font-size: 11px; color: var(--dim); white-space: nowrap; }
td.owned { background: color-mix(in srgb, var(--o) 16%, transparent); }
td.owned .owner { color: var(--o); }
thead th.region { color: var(--c); border-bottom: 3px solid var(--c); font-size: 12px; text-align: center; }
thead th.region code { display: block; }
td.region { text-align: center; color: var(--c); }
td.region.changed { font-weight: 700; box-shadow: inset 0 0 0 1px var(--c); }
tr.now td.owned { background-color: color-mix(in srgb, var(--o) 34%, var(--back)) !important; }
#regions { flex: none; padding: 4px 16px; border-bottom: 1px solid var(--line); background: var(--panel); max-height: 5.2em;
  overflow: auto; }
#regions:empty { display: none; }
#regions code { display: inline-block; margin: 1px 8px 1px 0; padding: 0 6px; border-radius: 3px; color: var(--c);
  border: 1px solid var(--c); background: color-mix(in srgb, var(--c) 14%, transparent); }
#regions code.changed { background: var(--c); color: var(--back); }
td.absent b { color: var(--line); }
td.read b { border: 1px dashed var(--c); color: var(--c); }
td.wrote b { border-color: var(--c); background: var(--c); color: var(--back); font-weight: 600; }
td.missed b { border: 1px solid var(--fault); color: var(--fault); font-weight: 600; }
tr.fault td.step { background: var(--fault); box-shadow: none; }
tr.fault td.step code { color: var(--back) !important; }
tr.fault th { color: var(--fault); font-weight: 600; }
tr.now th, tr.now td:not(.step) { background-color: var(--mark); }
tr.now th { color: var(--text); font-weight: 600; box-shadow: inset 4px 0 0 var(--text); }
tr.now td, tr.now th { border-top: 1px solid var(--text); border-bottom: 1px solid var(--text); }
tfoot td { padding: 6px 16px; color: var(--dim); border-top: 1px solid var(--line); }
#threads { padding: 8px 12px; border-bottom: 1px solid var(--line); max-height: 42%; overflow: auto; flex: none; }
.state { display: grid; grid-template-columns: 2.2em minmax(0, 1fr); padding: 3px 0; }
.state b, .chip { background: var(--c); color: var(--back); border-radius: 3px; padding: 0 5px; font-size: 12px;
  font-weight: 600; justify-self: start; align-self: start; }
.state code { display: block; white-space: pre-wrap; overflow-wrap: anywhere; font-size: 12px; }
.state .where { color: var(--dim); }
.state.ended { opacity: 0.6; }
.state .owns { color: var(--c); }
.source { flex: 1; overflow: auto; padding: 8px 0; font-size: 12px; line-height: 1.55; tab-size: 8; }
.source div { display: grid; grid-template-columns: 4.4em 3em 1fr; white-space: pre; width: max-content; min-width: 100%; }
.source .chips { text-align: right; padding-right: 4px; }
.source .chip { font-size: 10px; padding: 0 4px; margin-left: 2px; }
.source .number { color: var(--dim); text-align: right; padding-right: 12px; user-select: none; }
.source span.next { background: color-mix(in srgb, var(--c) 22%, transparent); border-radius: 3px; }
.source span.done { outline: 2px solid var(--c); outline-offset: 1px; border-radius: 2px; }
.source span.bad { background: var(--fault); color: var(--back); outline-color: var(--fault); }
@media (max-width: 900px) {
  main { grid-template-columns: minmax(0, 1fr); grid-template-rows: minmax(0, 3fr) minmax(0, 2fr); }
  aside { border-left: 0; border-top: 1px solid var(--line); } }
@media print {
  aside, .keys, #regions { display: none; } main, body { display: block; height: auto; overflow: visible; }
  .strip { overflow: visible; } body { font-size: 9pt; } table { font-size: 8pt; } td.step .words { font-size: 7pt; }
  thead, thead tr:first-child th:first-child, tbody th { position: static; } tbody tr { break-inside: avoid; }
  tr.now th, tr.now td { border-color: transparent; } tr.now td.first { border-left-color: var(--line); }
  tr.now th, tr.now td:not(.step, .owned) { background-color: transparent; }
  tr.now td.owned { background-color: color-mix(in srgb, var(--o) 16%, transparent) !important; }
  tr.now th { box-shadow: none; font-weight: normal; color: var(--dim); }
  tr.fault.now th { color: var(--fault); }
  * { print-color-adjust: exact; -webkit-print-color-adjust: exact; } }
"""
)

SCRIPT = """
"use strict";
const data = JSON.parse(document.getElementById("data").textContent);
const rows = Array.from(document.querySelectorAll("tbody tr"));
const spans = new Map();
for (const span of document.querySelectorAll(".source [data-place]")) {
  const place = span.dataset.place;
  spans.set(place, (spans.get(place) || []).concat(span));
}
// What each thread is at after each row: what changed at a row, and else what it was before.
const states = [];
for (const changed of data.changes) {
  const before = states.length ? states[states.length - 1] : [];
  const after = before.slice();
  for (const [thread, state] of changed) after[thread] = state;
  states.push(after);
}
// Who owns what after each row, in the same way: regions, and the frames of each thread; nothing where no account is.
const owned = [];
for (const changed of data.owned) {
  if (!changed) { owned.push(null); continue; }
  const before = owned.length ? owned[owned.length - 1] : {regions: [], threads: []};
  const after = {regions: before.regions.slice(), threads: before.threads.slice(), changed: new Set()};
  for (const [number, region] of changed.regions) {
    const old = after.regions[number - 1];
    if (!old || old.said !== region.said) after.changed.add(number);
    after.regions[number - 1] = region;
  }
  for (const [thread, count, frames] of changed.threads) {
    after.threads[thread] = (after.threads[thread] || []).slice(0, count);
    for (const [frame, owns] of frames) after.threads[thread][frame] = owns;
  }
  owned.push(after);
}
let now = -1;
function made(tag, name, text) {
  const it = document.createElement(tag);
  it.className = name;
  it.textContent = text;
  return it;
}
function colour(thread) {
  return "t" + thread % data.colours;
}
function colour_of_region(number) {
  return "g" + number % data.region_colours;
}
// The line of a frame or a region: what it is, what it owns, and the values of its fixed names.
function owning(said, owns, names) {
  const line = made("code", "", said + ": ");
  line.append(made("span", "owns", owns));
  if (names) line.append(made("span", "where", " with " + names));
  return line;
}
function show_regions(panel, account) {
  const bar = document.getElementById("regions");
  bar.textContent = "";
  if (!account) return;
  account.regions.forEach(function (region, at) {
    const name = colour_of_region(at + 1);
    bar.append(made("code", name + (account.changed.has(at + 1) ? " changed" : ""), at + 1 + " " + region.said));
    const line = made("div", "state region " + name, "");
    line.append(made("b", "", String(at + 1)));
    const said = document.createElement("div");
    said.append(owning(region.said, region.owns));
    line.append(said);
    panel.append(line);
  });
}
function is_in_view(it) {
  const line = it.getBoundingClientRect();
  const panel = it.closest(".source").getBoundingClientRect();
  return line.top >= panel.top && line.bottom <= panel.bottom;
}
function mark(place, thread, name) {
  for (const span of spans.get(place) || []) span.classList.add(name, colour(thread));
}
function show(row) {
  row = Math.max(0, Math.min(rows.length - 1, row));
  if (row === now) return;
  if (now >= 0) {
    rows[now].classList.remove("now");
    rows[now].removeAttribute("aria-current");
  }
  now = row;
  rows[now].classList.add("now");
  rows[now].setAttribute("aria-current", "step");
  for (const group of spans.values()) for (const span of group) span.className = "";
  for (const it of document.querySelectorAll(".source .chips")) it.textContent = "";
  const panel = document.getElementById("threads");
  panel.textContent = "";
  const step = data.steps[now];
  const account = owned[now];
  let seen = null;
  states[now].forEach(function (state, thread) {
    const line = made("div", "state " + colour(thread) + (state.next ? "" : " ended"), "");
    line.append(made("b", "", String(thread)));
    const said = document.createElement("div");
    const frames = account && state.next ? account.threads[thread] || [] : [];
    if (!frames.length) said.append(made("code", "", state.stack || "ended"));
    for (const [name, owns, names] of frames) said.append(owning(name, owns, names));
    if (state.next) said.append(made("code", "where", state.next + "  " + state.words));
    if (state.values) said.append(made("code", "where", state.values));
    line.append(said);
    panel.append(line);
    if (!state.next) return;
    mark(state.next, thread, "next");
    const first = (spans.get(state.next) || [])[0];
    if (!first) return;
    first.closest("div").querySelector(".chips").append(made("span", "chip " + colour(thread), String(thread)));
    if (!seen || (step && step.thread === thread)) seen = first;
  });
  show_regions(panel, account);
  for (const it of [rows[now], rows[now].querySelector(".read, .wrote, .missed"), rows[now].querySelector(".step")]) {
    if (it) it.scrollIntoView({block: "nearest", inline: it === rows[now] ? "start" : "nearest"});
  }
  if (step) {
    for (const span of spans.get(step.place) || []) span.className = "";
    mark(step.place, step.thread, "done");
    if (step.fault) mark(step.place, step.thread, "bad");
    seen = (spans.get(step.place) || [])[0] || seen;
  }
  if (seen && !is_in_view(seen)) seen.scrollIntoView({block: "center", inline: "nearest"});
}
document.addEventListener("keydown", function (event) {
  if (event.ctrlKey || event.metaKey || event.altKey) return;
  const to = {ArrowDown: now + 1, j: now + 1, ArrowUp: now - 1, k: now - 1, PageDown: now + 10, PageUp: now - 10,
    Home: 0, End: rows.length - 1}[event.key];
  if (to === undefined) return;
  event.preventDefault();
  show(to);
});
rows.forEach(function (row, number) {
  row.addEventListener("click", function () { show(number); });
});
const asked = /^#step-([0-9]+)$/.exec(location.hash);
show(asked ? Number(asked[1]) : 0);
"""


class TooLarge(Exception):
    """A page would have too many cells."""


@dataclass
class Owners:
    """Who owns what after a row: regions by number, the frames of each thread, each with its function, what it owns and
    its fixed names, and for each cell its owner, as it is shown and with its colour."""

    regions: dict
    threads: list
    cells: dict


@dataclass
class Row:
    """What a row shows: its step (none at the start), its statement, its touch, the heap, how threads stand, and who owns
    what, where an account tells."""

    step: object
    statement: object
    touch: object
    heap: dict
    states: list
    owners: object = None


def state_of(program, machine, thread):
    """How a thread stands: its frames, its next statement, and the values of its top frame."""
    frames, statement = machine.threads[thread], machine.ahead(thread)
    if not frames:
        return {}
    return {
        "stack": " \u203a ".join(it.function.name for it in frames),
        "next": place_text(statement.place),
        "words": program.words_of(statement),
        "values": ", ".join(f"{name} = {value}" for name, value in frames[-1].values.items()),
    }


def region_colour(number):
    """The class with the colour of a region."""
    return f"g{number % len(REGIONS)}"


def owners_of(machine, account):
    """Who owns what by an account, which has to be one of the frames that there are."""
    wanted = [(thread, at) for thread, frames in enumerate(machine.threads) for at in range(len(frames))]
    if [(it.thread, it.frame) for it in account.frames] != wanted:
        raise Differs("owners has an account of other frames")
    owners = Owners({it.number: it for it in account.regions}, [[] for _ in machine.threads], {})
    for it in account.regions:
        for address, _ in it.part.cells:
            owners.cells[address] = f"{it.number} {it.type}", region_colour(it.number)
    for it in account.frames:
        name = machine.threads[it.thread][it.frame].function.name
        owners.threads[it.thread].append((name, it.part.said(), it.said()))
        for address, _ in it.part.cells:
            owners.cells[address] = f"{it.thread} {name}", colour(it.thread)
    return owners


def follow(program, schedule, run, accounts):
    """The rows of a run, by the machine, which has to agree with what the replay says."""
    machine = Machine(program, schedule)
    rows = [Row(None, None, None, dict(machine.heap), [(0, state_of(program, machine, 0))])]
    if accounts:
        rows[0].owners = owners_of(machine, accounts[0])
    for step, (thread, base) in zip(run.steps, schedule.entries):
        try:
            statement, touch = machine.step(thread, base)
        except Differs as it:
            raise Differs(f"step {step.number}: {it}") from None
        made = thread, statement.place, touch.event, touch.arguments
        if made != (step.thread, step.place, step.event, step.arguments):
            text = " ".join([place_text(statement.place), touch.event, *map(str, touch.arguments)])
            raise Differs(f"step {step.number}: the replay says {place_text(step.place)} {step.said()}, the text {text}")
        changed = [thread, len(machine.threads) - 1] if touch.event == "fork" else [thread]
        states = [(it, state_of(program, machine, it)) for it in changed]
        rows.append(Row(step, statement, touch, dict(machine.heap), states))
        if step.number < len(accounts):
            rows[-1].owners = owners_of(machine, accounts[step.number])
        if len(rows) * (len(machine.threads) + len(machine.heap)) > CELLS:
            raise TooLarge(f"a page has at most {CELLS} cells, and this run has more")
    return rows, machine


def columns_of(rows):
    """The addresses that a run comes to, ascending; those at which an allocation or a gap begins."""
    addresses, firsts = set(rows[0].heap), set(rows[0].heap)
    for row in rows[1:]:
        if row.touch.event == "alloc":
            addresses.update(row.touch.writes)
            firsts.add(row.touch.writes[0])
        if row.touch.event == "fault":
            addresses.add(row.touch.arguments[0])
            firsts.add(row.touch.arguments[0])
    return sorted(addresses), firsts


def cell_of(row, address, first):
    """A heap cell: its value after the step, how the step touched it, and its owner."""
    names = ["cell"] + ["first"] * first
    touch = row.touch
    if touch and touch.event == "fault" and address == touch.arguments[0]:
        names.append("missed")
    elif address not in row.heap:
        names.append("absent")
    if touch and address in touch.reads:
        names += ["read", colour(row.step.thread)]
    if touch and address in touch.writes:
        names += ["wrote", colour(row.step.thread)]
    text, by = row.owners.cells.get(address, ("", None)) if row.owners else ("", None)
    names += ["owned", f"by-{by}"] if by else []
    value = str(row.heap.get(address, "absent" if "missed" in names else "\u00b7"))
    return tag("td", tag("b", escape(value)) + tag("span", escape(text), "owner"), " ".join(names))


def region_of(row, before, number, first):
    """The cell of a region: its state after the step, marked where the step changed or made it."""
    region = row.owners.regions.get(number) if row.owners else None
    names = ["region", region_colour(number)] + ["first"] * first
    if region is None:
        return tag("td", "", " ".join(names))
    old = before.owners.regions.get(number) if before else None
    names += ["changed"] if old is None or old.state != region.state else []
    return tag("td", str(region.state), " ".join(names))


def lane_of(program, row, thread, alive):
    """A thread's cell: its step, or the line of a thread that runs, or nothing."""
    if row.step and row.step.thread == thread:
        words = program.words_of(row.statement)
        event = tag("code", escape(f"{place_text(row.step.place)} {row.step.said()}"), "event")
        return tag("td", event + tag("code", escape(words), "words", title=words), f"step {colour(thread)}")
    return tag("td", "", f"lane {colour(thread)}" if thread in alive else "")


def head_of(began, regions, addresses, firsts):
    """The head of the table: threads with the functions that they began with, regions, and addresses."""
    count, heap = len(began), len(addresses)
    groups = tag("th", "step", rowspan=2) + tag("th", "threads", colspan=count)
    if regions:
        groups += tag("th", "regions", "heap", colspan=len(regions))
    if heap:
        groups += tag("th", "heap after the step", "heap", colspan=heap)
    cells = "".join(
        tag("th", f"{thread} {escape(name)}", f"thread {colour(thread)}", scope="col") for thread, name in enumerate(began)
    )
    for at, it in enumerate(regions):
        said = tag("code", escape(f"{it.number} {it.type}")) + tag("code", f"({', '.join(map(str, it.arguments))})")
        cells += tag("th", said, f"region {region_colour(it.number)}{'' if at else ' first'}", scope="col")
    cells += "".join(tag("th", str(it), "at first" if it in firsts else "at", scope="col") for it in addresses)
    return tag("thead", tag("tr", groups) + "\n" + tag("tr", cells))


def rows_of(program, rows, threads, regions, addresses, firsts):
    """The rows of the table."""
    alive, lines = {0}, []
    for number, row in enumerate(rows):
        step = row.step
        cells = tag("th", str(number) if step else "start", scope="row")
        cells += "".join(lane_of(program, row, it, alive) for it in range(threads))
        before = rows[number - 1] if number and row.owners else None
        cells += "".join(region_of(row, before, it.number, not at) for at, it in enumerate(regions))
        cells += "".join(cell_of(row, it, it in firsts) for it in addresses)
        if step and step.event == "fork":
            alive.add(step.arguments[0])
        if step and step.event == "end":
            alive.discard(step.thread)
        lines.append(tag("tr", cells, "fault" if step and step.event in FAULTS else "", id=f"step-{number}"))
    return tag("tbody", "\n".join(lines))


def source_of(program):
    """The lines of the source, each statement's head in a span with its place."""
    pieces = {}
    for statement in program.statements():
        for line, start, end in statement.head:
            pieces.setdefault(line, []).append((start, end, place_text(statement.place)))
    lines = []
    for number, text in enumerate(program.lines, 1):
        if number == len(program.lines) and not text:
            break
        html, at = "", 0
        for start, end, place in sorted(pieces.get(number, [])):
            html += escape(text[at : start - 1]) + tag("span", escape(text[start - 1 : end - 1]), data_place=place)
            at = end - 1
        html += escape(text[at:])
        lines.append(tag("div", tag("span", "", "chips") + tag("span", str(number), "number") + tag("code", html)))
    return tag("section", "\n".join(lines), "source", aria_label="source")


def end_of(run):
    """How the run ends, as a sentence, and whether it's bad."""
    steps = f"{run.count} step{'' if run.count == 1 else 's'}"
    if run.end == "stopped":
        last = run.steps[-1]
        what = "the assertion fails" if last.event == "failed" else f"address {last.arguments[0]} is absent"
        return f"stopped after {steps}: thread {last.thread} at {place_text(last.place)}, {what}", True
    if run.end == "ended":
        return f"ended after {steps}, at the end of the schedule", False
    why = "isn't enabled" if run.end == "not enabled" else "makes a number past 128 bits"
    return f"entry {run.count} {why}", True


def changed_owners(row, before):
    """What changed of who owns what since the row before, or nothing where no account tells."""
    if row.owners is None:
        return None
    old = before.owners if before else Owners({}, [], {})
    regions = [
        (number, {"said": it.said().split(" ", 2)[2], "owns": it.part.said()})
        for number, it in row.owners.regions.items()
        if old.regions.get(number) != it
    ]
    threads = []
    for thread, frames in enumerate(row.owners.threads):
        known = old.threads[thread] if thread < len(old.threads) else []
        more = [(at, it) for at, it in enumerate(frames) if known[at : at + 1] != [it]]
        if more or len(known) != len(frames):
            threads.append((thread, len(frames), more))
    return {"regions": regions, "threads": threads}


def data_of(rows):
    """What the script needs."""
    steps = [None] + [
        {"thread": it.step.thread, "place": place_text(it.step.place), "fault": it.step.event in FAULTS} for it in rows[1:]
    ]
    return {
        "colours": COLOURS,
        "region_colours": len(REGIONS),
        "changes": [it.states for it in rows],
        "steps": steps,
        "owned": [changed_owners(row, rows[at - 1] if at else None) for at, row in enumerate(rows)],
    }


def page_of(program, schedule, run, names, accounts, says):
    """The page of a run. The names are those of the file and of the schedule; the accounts are that of the start and those
    after steps, and may end before the run does; what the page says of them is a sentence."""
    rows, machine = follow(program, schedule, run, accounts)
    addresses, firsts = columns_of(rows)
    threads, regions = len(machine.threads), accounts[-1].regions if accounts else ()
    columns = 1 + threads + len(regions) + len(addresses)
    if len(rows) * columns > CELLS:
        raise TooLarge(f"a page has at most {CELLS} cells, and this run has more")
    began = ["main"] + [row.statement.parts[0] for row in rows[1:] if row.touch.event == "fork"]
    said, bad = end_of(run)
    keys = (
        "<kbd>\u2193</kbd> <kbd>j</kbd> next step, <kbd>\u2191</kbd> <kbd>k</kbd> one back, <kbd>Home</kbd> <kbd>End</kbd>,"
        " or a click on a row. Source: the step just made is framed, what comes next of each thread is shaded."
    )
    title = f"{names[0]} along {names[1]}"
    table = tag(
        "table",
        head_of(began, regions, addresses, firsts)
        + "\n"
        + rows_of(program, rows, threads, regions, addresses, firsts)
        + "\n"
        + tag("tfoot", tag("tr", tag("td", escape(said), colspan=columns))),
        "many" if threads > MANY else "",
    )
    body = (
        f"<header><h1>{escape(names[0])} <span>along {escape(names[1])}</span></h1>\n"
        f"{tag('p', escape(said), 'bad' if bad else '')}\n{tag('p', escape(says), 'says')}\n"
        f"{tag('p', keys, 'keys')}</header>\n"
        f"{tag('section', '', id='regions', aria_label='regions')}\n<main>\n{tag('div', table, 'strip')}\n"
        f'<aside>\n<section id="threads" aria-label="threads"></section>\n{source_of(program)}\n</aside>\n</main>'
    )
    return document(title, STYLE, body, data_of(rows), SCRIPT)
