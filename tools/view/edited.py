"""Changed texts of a program: parts of it are replaced, and what caper says of the rest is said of the program's places."""

import bisect
import os

import texts
from calls import Ends, NO_ANSWER, call, write_bytes
from proof import Trees
from source import program_of

# A loop without end, behind which nothing is left to be shown.
CUT = "while (0 = 0) { } "


class Lacking(Exception):
    """A command that the program doesn't have."""

    def __init__(self, command):
        super().__init__(f"this caper has no command {command}")


class Edited:
    """A text with some bytes replaced: edits are the first byte, the one behind the last, and the new text."""

    def __init__(self, text, edits):
        self.starts, self.pieces, at, made = [], [], 0, ""
        for start, end, new in sorted(edits):
            made = self.keep(made, text, at, start)
            self.piece(len(made), start, False)
            made, at = made + new, end
        self.text = self.keep(made, text, at, len(text))
        self.original = text

    def keep(self, made, text, start, end):
        """Goes on with bytes of the text."""
        self.piece(len(made), start, True)
        return made + text[start:end]

    def piece(self, at, origin, is_kept):
        """Notes where a piece begins."""
        self.starts.append(at)
        self.pieces.append((at, origin, is_kept))

    def origin(self, at):
        """The byte of the program that a byte here was, or before which it was put."""
        start, origin, is_kept = self.pieces[bisect.bisect_right(self.starts, at) - 1]
        return origin + at - start if is_kept else origin

    def is_put(self, at):
        """Whether a byte was put in."""
        return not self.pieces[bisect.bisect_right(self.starts, at) - 1][2]

    def place(self, place):
        """The place in the program of a place here."""
        return place_at(self.original, self.origin(byte_at(self.text, place)))


def byte_at(text, place):
    """The byte at a place."""
    at = 0
    for _ in range(place[0] - 1):
        at = text.index("\n", at) + 1
    return at + place[1] - 1


def place_at(text, at):
    """The place of a byte."""
    return text.count("\n", 0, at) + 1, at - text.rfind("\n", 0, at)


class Caper:
    """A caper with a room for files."""

    def __init__(self, program, room):
        self.program, self.room, self.said = program, room, {}

    def file(self, name, text):
        """Writes a file of the room."""
        path = os.path.join(self.room, name)
        write_bytes(path, text.encode("latin-1"))
        return path

    def verdicts(self, text):
        """What `verify` says of a text, which is asked once."""
        if text not in self.said:
            said = texts.verdicts(call(self.program, "verify", self.file("text.cap", text))[0])
            if isinstance(said, texts.Refusal):
                raise Ends(NO_ANSWER, f"a changed text is refused: {said.line}")
            self.said[text] = said
        return self.said[text]

    def asked(self, command, *words):
        """What a command says that a caper may lack."""
        said, _ = call(self.program, command, *words)
        if texts.lacks(said, command):
            raise Lacking(command)
        return said

    def derivation(self, text):
        """The derivation of a text, with its lines, or None where not all is proved."""
        said = self.asked("derive", self.file("text.cap", text))
        found = texts.derivation(said)
        return (found, said) if isinstance(found, texts.Derivation) else None

    def trees(self, text, is_outlined=True):
        """The trees of a text's derivation, or None where not all is proved."""
        found, points = self.derivation(text), None
        if found is None:
            return None
        if is_outlined:
            said = self.asked("outline", self.file("text.cap", text), self.file("text.proof", found[1]))
            points = texts.outline(said)
        if isinstance(points, texts.Refusal):
            raise Ends(NO_ANSWER, f"outline says {points.line!r} of what derive writes")
        return Trees(program_of(text.encode("latin-1")), found[0], points)


def calls_of(function):
    """The names of the functions that a function calls or forks."""
    statements = [it for it in function.statements() if it.kind in ("call", "fork")]
    return {it.parts[1] if it.kind == "call" else it.parts[0] for it in statements}


def facts_of(items):
    """The facts of items, those of sides too."""
    for it in items:
        if it.kind == "fact":
            yield it
        if it.kind == "conditional":
            yield from facts_of(it.parts[1] + it.parts[2])


def types_of(program, assertions):
    """The region types that assertions speak of, and those that these speak of in turn."""
    types, left = set(), [it.parts[0] for items in assertions for it in facts_of(items)]
    while left:
        name = left.pop()
        if name not in types:
            types.add(name)
            left += [it.parts[0] for case in program.regions[name].cases for it in facts_of(case.items)]
    return types


def alone(program, function):
    """Edits that leave of a program what one function needs: itself, the contracts of what it calls, and their types."""
    called = calls_of(function) - {function.name}
    kept = [function, *(program.functions[it] for it in called)]
    assertions = [items for it in kept for items in (it.requires, it.ensures)]
    types = types_of(program, assertions + [it.invariant for it in function.loops()])
    edits = [(it.body_start, it.body_end, f" {CUT}") for it in kept[1:]]
    return edits + without(program, types, [it.name for it in kept])


def alone_type(program, region):
    """Edits that leave of a program a region type, and those of which it speaks."""
    types = types_of(program, [case.items for case in region.cases])
    return without(program, types | {region.name}, [])


def without(program, types, functions):
    """Edits that leave of a program these region types and functions, and a `main`."""
    edits = [(it.start, it.end, "") for it in program.regions.values() if it.name not in types]
    for it in program.functions.values():
        if it.name not in functions:
            edits.append((it.start, it.end, "function main() { }" if it.name == "main" else ""))
    return edits
