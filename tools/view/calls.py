"""Calls of caper, for the tools that show what it says, and how these tools end."""

import os
import re
import subprocess
import sys

from texts import Unknown

TOP = os.path.dirname(os.path.dirname(os.path.dirname(os.path.abspath(__file__))))
SECONDS = 120
WORDS, UNREADABLE, UNWRITABLE, NO_ANSWER = 3, 4, 5, 125


class Ends(Exception):
    """A tool ends with this status, and says this."""

    def __init__(self, status, said):
        self.status = status
        super().__init__(said)


def program_at(path):
    """The program of this path, or the built one without one."""
    program = os.path.abspath(path or f"{TOP}/crates/caper/out/caper")
    if not os.access(program, os.X_OK) or os.path.isdir(program):
        raise Ends(NO_ANSWER, f"{program} is no program; tools/build builds it")
    return program


def named(path):
    """A file's name that is no option."""
    return f"./{path}" if path.startswith("-") else path


def call(program, *words):
    """What caper writes on standard output with these words, and its status."""
    try:
        it = subprocess.run(
            [program, *words], stdin=subprocess.DEVNULL, capture_output=True, timeout=SECONDS, check=False
        )
    except subprocess.TimeoutExpired:
        raise Ends(NO_ANSWER, f"{words[0]} takes more than {SECONDS} seconds") from None
    except OSError as error:
        raise Ends(NO_ANSWER, f"{program} does not run: {error.strerror}") from None
    text = it.stdout.decode("utf-8", errors="replace")
    if not text:
        said = it.stderr.decode(errors="replace").strip().splitlines()[:1]
        raise Ends(NO_ANSWER, f"{words[0]} ends with {it.returncode} and says nothing" + "".join(f": {x}" for x in said))
    return text, it.returncode


def read(path):
    """The bytes of a file."""
    try:
        with open(path, "rb") as file:
            return file.read()
    except OSError:
        raise Ends(UNREADABLE, f"cannot read {path}") from None


def write(path, text):
    """Writes a text to a file."""
    write_bytes(path, text.encode())


def write_bytes(path, data):
    """Writes bytes to a file."""
    try:
        with open(path, "wb") as file:
            file.write(data)
    except OSError:
        raise Ends(UNWRITABLE, f"cannot write {path}") from None


def put(text):
    """Writes a text on standard output."""
    try:
        if sys.stdout is None:
            raise OSError
        sys.stdout.buffer.write(text.encode())
        sys.stdout.flush()
    except OSError:
        if sys.stdout is not None:
            # What is left in the buffer would be tried again at the end.
            os.dup2(os.open(os.devnull, os.O_WRONLY), sys.stdout.fileno())
        raise Ends(UNWRITABLE, "cannot write the output") from None


def deliver(text, files):
    """Writes a text to the first of these files, or on standard output where there is none."""
    if files:
        write(files[0], text)
    else:
        put(text)


def shown_name(path):
    """A file's name without its folder, as a page may have it."""
    return os.fsencode(os.path.basename(path)).decode("utf-8", errors="replace")


def options_of(words, options):
    """The words that are no options, and the values of the options, `--name VALUE` or `--name=VALUE`, each once."""
    files, values, words = [], {}, list(words)
    while words:
        word = words.pop(0)
        if word == "--":
            return files + words, values
        name, equals, given = word.partition("=")
        if not word.startswith("-") or word == "-":
            files.append(word)
        elif name not in options or name in values or not (equals or words):
            raise Ends(WORDS, "")
        else:
            values[name] = given if equals else words.pop(0)
    return files, values


def whole(word, least, most):
    """The number that a word spells, within these."""
    if not (re.fullmatch("[1-9][0-9]{0,18}|0", word) and least <= int(word) <= most):
        raise Ends(WORDS, "")
    return int(word)


def end(tool, main, page):
    """Runs a tool's main, and ends with its status. Where the words are wrong the tool's page is shown."""
    try:
        sys.exit(main(sys.argv[1:]))
    except Ends as it:
        print(f"{tool}: {it}" if str(it) else page, file=sys.stderr)
        sys.exit(it.status)
    except Unknown as it:
        print(f"{tool}: {it}", file=sys.stderr)
        sys.exit(NO_ANSWER)
    except KeyboardInterrupt:
        sys.exit(130)
