"""Changes at random of what caper reads: of texts, of the lines of derivations, and of schedules."""

import json
import re

KEYWORDS = """region function requires ensures guards interpretation actions when fork if else while
invariant assert return alloc CAS true false src tok""".split()
SYMBOLS = "( ) { } [ ] , ; : := = != < <= > >= + - * % @ ? | |-> &*& ~> 1p _".split()
RELATIONS = ["=", "!=", "<", "<=", ">", ">="]
SHORT = re.compile(r"[A-Za-z_]\w?$", re.A)
# What stands before a statement or a conjunct.
BEFORE = ["{", "}", ";", ":", "&*&", "requires", "ensures", "invariant"]
# The words of a derivation's lines.
CHOICES = """absurd clash set alloc assert if loop turn call fork return enter act pick shift settle
keep give fact cases cell region guard convert create made leaf split caper end""".split()
# A token, with the blanks behind it.
TOKEN = re.compile(r"(?:\s+|//[^\n]*|[A-Za-z_]\w*|\d+p?|\|->|&\*&|~>|:=|<=|>=|!=|.)\s*", re.A | re.S)
DECIMAL = re.compile(r"-?\d{1,99}", re.A)
# The numbers about which widths end.
EDGES = [2**width + more for width in (0, 7, 8, 31, 32, 63, 64, 127, 128) for more in (-1, 0, 1)]
HOW_OFTEN = [1, 1, 1, 1, 2, 2, 3]


def drawn_number(draw, value, share):
    """A number near this one, or, with this share, about the end of a width."""
    if draw.random() >= share:
        return draw.choice([0, 1, 2, 3, value - 1, value + 1, value + 2, 2 * value, draw.randrange(12)])
    edge = draw.choice(EDGES)
    return edge if draw.random() < 0.7 else -edge


def rearranged(draw, items, more):
    """The items, one of which is lost, doubled, moved or exchanged, or one of `more` comes in."""
    items, more = list(items), more or items
    if not items:
        return [draw.choice(more)] if more else []
    at, to = draw.randrange(len(items)), draw.randrange(len(items))
    way = draw.randrange(6)
    if way == 0:
        del items[at]
    elif way == 1:
        items.insert(at, items[at])
    elif way == 2:
        items.insert(to, items.pop(at))
    elif way == 3:
        items[at], items[to] = items[to], items[at]
    elif way == 4:
        items[at] = draw.choice(more)
    else:
        items.insert(at, draw.choice(more))
    return items


def other_bytes(draw, text):
    """The text with a bit of a byte turned, a byte that is another or new, or a part lost or doubled."""
    at = draw.randrange(len(text) + 1)
    to = min(len(text), at + draw.choice([1, 1, 2, 5, 20]))
    new = chr(draw.choice([draw.randrange(256), draw.randrange(32, 127), 10, 13, 0]))
    way = draw.randrange(6)
    if way == 0 and at < len(text):
        return text[:at] + chr(ord(text[at]) ^ 1 << draw.randrange(8)) + text[at + 1 :]
    if way == 1:
        return text[:at] + new + text[at + 1 :]
    if way == 2:
        return text[:at] + new + text[at:]
    if way == 3:
        return text[:at] + text[to:]
    if way == 4:
        return text[:to] + text[at:]
    return text[:at] if draw.random() < 0.2 else text[:at] + text[to:]


def other_tokens(draw, text):
    """The text with its tokens rearranged; a new one is a word of the language or of the text."""
    tokens = TOKEN.findall(text)
    words = [word + " " for word in draw.choice([KEYWORDS, SYMBOLS])]
    return "".join(rearranged(draw, tokens, draw.choice([words, tokens])))


def other_lines(draw, text):
    """The text with its lines rearranged."""
    return "".join(rearranged(draw, re.findall(r"[^\n]*\n|[^\n]+", text), []))


def other_number(draw, text, share=0.4):
    """The text with another number."""
    numbers = list(DECIMAL.finditer(text))
    if not numbers:
        return text
    found = draw.choice(numbers)
    return text[: found.start()] + str(drawn_number(draw, int(found[0]), share)) + text[found.end() :]


def left_out(tokens, at):
    """The tokens without the statement about this place, or with `true` in place of the conjunct."""
    bare = [token.rstrip() for token in tokens]
    start = next((to + 1 for to in range(at - 1, -1, -1) if bare[to] in BEFORE), 0)
    end = next((to for to in range(at, len(tokens)) if bare[to] in ("{", "}", ";", "&*&")), None)
    if end is None or bare[end] in ("{", "}"):
        return tokens
    if start > 0 and bare[start - 1] in ("{", "}", ";"):
        return tokens[:start] + tokens[end + 1 :]
    return tokens[:start] + ["true"] + tokens[end:]


def other_meaning(draw, text):
    """The text with one change that mostly leaves it one: of a number, an operator or a short name, or a
    statement or conjunct is left out."""
    tokens = TOKEN.findall(text)
    words = [at for at, token in enumerate(tokens) if re.match(r"[\w=!<>+*-]", token, re.A)]
    if not words:
        return text
    at = draw.choice(words)
    token = tokens[at].rstrip()
    blanks = tokens[at][len(token) :]
    if token.isdecimal() and len(token) < 99:
        tokens[at] = str(draw.choice([0, 1, 2, int(token) + 1, max(0, int(token) - 1)])) + blanks
    elif token in RELATIONS:
        tokens[at] = draw.choice(RELATIONS) + blanks
    elif token in ("+", "-", "*"):
        tokens[at] = draw.choice("+-*") + blanks
    elif SHORT.match(token) and token not in KEYWORDS and draw.random() < 0.6:
        names = {tokens[other].rstrip() for other in words} - set(KEYWORDS)
        tokens[at] = draw.choice(sorted(filter(SHORT.match, names))) + blanks
    else:
        tokens = left_out(tokens, at)
    return "".join(tokens)


def any_change(draw, text):
    """The text with one change of any kind."""
    return draw.choice([other_bytes, other_tokens, other_tokens, other_lines, other_number])(draw, text)


def changed_text(draw, data, kind):
    """The text with some changes: mostly such that leave it one, except for `show`."""
    text = data.decode("latin-1")
    share = 0.3 if kind == "show" else 0.9
    for _ in range(draw.choice(HOW_OFTEN)):
        text = (other_meaning if draw.random() < share else any_change)(draw, text)
    return text.encode("latin-1")


def other_part(draw, value):
    """A number, or the decimal text of one, or a word of the lines, in place of this."""
    if isinstance(value, int):
        return drawn_number(draw, value, 0.1)
    if isinstance(value, str) and DECIMAL.fullmatch(value):
        return str(drawn_number(draw, int(value), 0.3))
    return draw.choice(CHOICES)


def other_value(draw, value):
    """A value of JSON in which one part is another."""
    if not isinstance(value, list):
        return other_part(draw, value)
    if value and draw.random() < 0.85:
        at = draw.randrange(len(value))
        return value[:at] + [other_value(draw, value[at])] + value[at + 1 :]
    return rearranged(draw, value, draw.choice([[], [0, 1, "1", [], ["leaf", []]]]))


def numbers_in(value):
    """Where numbers stand in a list of JSON: each time a list and the place in it."""
    for at, part in enumerate(value):
        if isinstance(part, list):
            yield from numbers_in(part)
        elif isinstance(part, int) or isinstance(part, str) and DECIMAL.fullmatch(part):
            yield value, at


def value_of(line):
    """The list that a line tells, if it tells one."""
    try:
        value = json.loads(line)
    except (ValueError, RecursionError):
        return None
    return value if isinstance(value, list) else None


def other_line(draw, line):
    """The line of a derivation with one change, mostly of a number."""
    value = value_of(line)
    if value is None or draw.random() < 0.1:
        return any_change(draw, line)
    places = list(numbers_in(value))
    if places and draw.random() < 0.7:
        some, at = draw.choice(places)
        some[at] = other_part(draw, some[at])
    else:
        value = other_value(draw, value)
    return json.dumps(value, separators=(",", ":"))


def lines_of(data):
    """The lines of a file, as text in which a character stands for each byte."""
    return data.decode("latin-1").removesuffix("\n").split("\n")


def file_of(draw, lines):
    """The file of these lines, of which the last one mostly has an end."""
    return ("\n".join(lines) + ("\n" if draw.random() < 0.95 else "")).encode("latin-1")


def within(draw, lines, change):
    """The lines, of which mostly those between the first and the last one are changed."""
    if len(lines) < 3 or draw.random() < 0.1:
        return change(lines)
    return lines[:1] + change(lines[1:-1]) + lines[-1:]


def counted(lines):
    """The lines, of which the last one tells their number."""
    return lines[:-1] + [f'["end",{len(lines) - 2}]']


def other_nodes(draw, lines, more):
    """Lines of a derivation, rearranged or with one of them changed; new ones are of `more`."""
    if not lines or draw.random() < 0.45:
        return rearranged(draw, lines, draw.choice([more, lines]))
    with_numbers = [at for at, line in enumerate(lines) if DECIMAL.search(line)]
    at = draw.choice(with_numbers) if with_numbers and draw.random() < 0.8 else draw.randrange(len(lines))
    return lines[:at] + [other_line(draw, lines[at])] + lines[at + 1 :]


def changed_proof(draw, data, other):
    """The lines of a derivation with some changes; new lines are of another one."""
    lines, more = lines_of(data), lines_of(other)
    for _ in range(draw.choice(HOW_OFTEN)):
        lines = within(draw, lines, lambda some: other_nodes(draw, some, more))
    # Mostly the count is right, so that lines aren't refused for it alone.
    if len(lines) > 1 and draw.random() < 0.9:
        lines = counted(lines)
    return file_of(draw, lines)


def drawn_entry(draw):
    """A line of a schedule for a step of one of the first threads."""
    base = "" if draw.random() < 0.7 else f" {draw.choice([1, 2, 10, 11, 20, *EDGES])}"
    return f"step {draw.choice([0, 0, 0, 1, 1, 2, 3])}{base}"


def other_entries(draw, lines):
    """Lines of a schedule, rearranged or with one of them changed."""
    how = draw.random()
    if not lines or how < 0.5:
        return rearranged(draw, lines, draw.choice([lines, [drawn_entry(draw)]]))
    at = draw.randrange(len(lines))
    if how < 0.9:
        line = other_number(draw, lines[at], 0.2)
    elif how < 0.95:
        line = " ".join(rearranged(draw, lines[at].split(" "), ["0", "1", "cell", "step", "-1"]))
    else:
        line = any_change(draw, lines[at])
    return lines[:at] + [line] + lines[at + 1 :]


def changed_schedule(draw, data):
    """A schedule with some changes."""
    lines = lines_of(data)
    for _ in range(draw.choice(HOW_OFTEN)):
        lines = within(draw, lines, lambda some: other_entries(draw, some))
    return file_of(draw, lines)
