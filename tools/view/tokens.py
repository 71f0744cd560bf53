"""The tokens of a program's text, and the terms that stand in it: what the readers of all its parts share.

These are both versions of the language (docs/LANGUAGE.md, "Tokens"): a text of the second one begins with `caper 2;`.
What isn't known here is refused by `Strange`, with its place. Columns count bytes, so a text is looked at byte by byte."""

import re
from dataclasses import dataclass

TOKEN = re.compile(
    r"[A-Za-z][A-Za-z0-9_]*|1p|[0-9]+|_|:=|!=|<=|>=|\|->|&\*&|~>|[(){}\[\],;:=<>+\-*%@?|]"
)
BLANK = re.compile(r"(?:[ \t\r\n]+|//[^\n]*)+")
KEYWORDS = (
    "region function requires ensures guards interpretation actions when fork if else while invariant assert return"
    " alloc CAS true false src tok"
).split()
# The further keywords of a text of the second version.
SECOND = "FAA dispose at from".split()
COMPARISONS = ("=", "!=", "<", "<=", ">", ">=")


class Strange(Exception):
    """A text that isn't known here, with its place."""

    def __init__(self, place, why):
        self.place = place
        super().__init__(f"{place[0]}:{place[1]}: {why}")


@dataclass
class Token:
    """A token with its place, from 1, and with the number of the bytes before it."""

    text: str
    line: int
    column: int
    at: int

    @property
    def end(self):
        """The number of the bytes up to its end."""
        return self.at + len(self.text)


def tokens_of(text):
    """The tokens of a text, in which each character is a byte."""
    at, line, begins, tokens = 0, 1, 0, []
    while True:
        blank = BLANK.match(text, at)
        if blank:
            feeds = blank[0].count("\n")
            if feeds:
                line, begins = line + feeds, text.rindex("\n", at, blank.end()) + 1
            at = blank.end()
        if at == len(text):
            return [*tokens, Token("", line, at - begins + 1, at)]
        found = TOKEN.match(text, at)
        if not found:
            raise Strange((line, at - begins + 1), "no token that is known")
        tokens.append(Token(found[0], line, at - begins + 1, at))
        at = found.end()


class Tokens:
    """The tokens of a text, one after the other."""

    def __init__(self, text):
        self.text, self.tokens, self.at, self.keywords = text, tokens_of(text), 0, KEYWORDS

    def version(self):
        """Passes over the words of the second version, where the text begins with them."""
        if self.ahead() == "caper":
            for word in ("caper", "2", ";"):
                self.take(word)
            self.keywords = KEYWORDS + SECOND

    def ahead(self, more=0):
        """The text of a token that comes."""
        return self.tokens[min(self.at + more, len(self.tokens) - 1)].text

    def place(self):
        """The place of the next token."""
        return self.tokens[self.at].line, self.tokens[self.at].column

    def take(self, *wanted):
        """The next token's text, which is one of these where some are given."""
        text = self.ahead()
        if text == "" or (wanted and text not in wanted):
            raise Strange(self.place(), f"{text or 'the end'!r} where {' or '.join(wanted) or 'more'} is expected")
        self.at += 1
        return text

    def name(self):
        """The next token, a name."""
        if not self.is_name():
            raise Strange(self.place(), f"{self.ahead()!r} is no name")
        return self.take()

    def is_name(self):
        """Whether the next token is a name."""
        return bool(re.match("[A-Za-z]", self.ahead())) and self.ahead() not in self.keywords

    def listed(self, one, mark=","):
        """One or more of these, with a mark between them."""
        found = [one()]
        while self.ahead() == mark:
            self.take()
            found.append(one())
        return found

    def head_from(self, first):
        """The pieces of lines of the tokens from this one to the one that was taken last."""
        pieces = {}
        for token in self.tokens[first : self.at]:
            start, _ = pieces.get(token.line, (token.column, None))
            pieces[token.line] = start, token.column + len(token.text)
        return [(line, start, end) for line, (start, end) in sorted(pieces.items())]

    # ---- terms: a term is a list of a sign and a list of factors, each a number, a name or a term

    def term(self):
        """A term."""
        sign = -1 if self.ahead() == "-" else 1
        if sign < 0:
            self.take()
        term = [(sign, self.product())]
        while self.ahead() in ("+", "-"):
            sign = 1 if self.take() == "+" else -1
            term.append((sign, self.product()))
        return term

    def product(self):
        """The factors of a product."""
        factors = [self.factor()]
        while self.ahead() == "*":
            self.take()
            factors.append(self.factor())
        return factors

    def factor(self):
        """A number, a name, or a term in parentheses."""
        if self.ahead() == "(":
            self.take()
            term = self.term()
            self.take(")")
            return term
        if self.ahead() == "1p":
            self.take()
            return 1
        return self.number() if self.ahead().isdigit() else self.name()

    def number(self):
        """The next token, a number."""
        if not self.ahead().isdigit():
            raise Strange(self.place(), f"{self.ahead()!r} is no number")
        return int(self.take().lstrip("0") or "0")

    def comparison(self):
        """A comparison."""
        return self.comparison_of(self.term())

    def comparison_of(self, left):
        """A comparison, the left side of which was read."""
        return self.take(*COMPARISONS), left, self.term()

    def arguments(self):
        """Terms in parentheses."""
        self.take("(")
        terms = []
        while self.ahead() != ")":
            if terms:
                self.take(",")
            terms.append(self.term())
        self.take(")")
        return terms
