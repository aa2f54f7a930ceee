"""Terms as trees whose parts have places, and the parts of a line that states something.

The program has read a text before anything here does, so a text that is no term has no tree and is no fault."""

import sys
from typing import List, NamedTuple, Optional, Tuple

from .tokens import Token, tokens

# A term nests at most 2,000 deep, and each level takes two calls.
sys.setrecursionlimit(max(sys.getrecursionlimit(), 20_000))

BINDERS = ("\\", "@")
ATOMS = ("sort", "name", "(")
STATEMENTS = ("assume", "define", "parameter", "theorem", "cut")


class Tree(NamedTuple):
    r"""A term. Its kind is `\`, `@`, `let`, `app`, `name` or `sort`; its text is the binder's name, or that of the leaf.

    The parts are numbered as in a path of the program. An arrow is a product with the binder `_`. Parentheses belong to
    the term in them."""

    kind: str
    start: int
    end: int
    parts: Tuple["Tree", ...] = ()
    text: str = ""

    def part(self, path: str) -> Optional["Tree"]:
        """The part to which a path leads, such as `1.0`, or `-` for the whole; nothing where it leads out of the term."""
        tree = self
        for step in [] if path == "-" else path.split("."):
            if int(step) >= len(tree.parts):
                return None
            tree = tree.parts[int(step)]
        return tree


class NoTerm(Exception):
    """The tokens are no term."""


class Parser:
    """Reads terms from a list of tokens, from left to right."""

    def __init__(self, found: List[Token], place: int = 0):
        self.tokens, self.place = found, place

    def kind(self) -> Optional[str]:
        """The kind of the next token."""
        return self.tokens[self.place].kind if self.place < len(self.tokens) else None

    def take(self, kind: Optional[str] = None) -> Token:
        if self.kind() is None or (kind and self.kind() != kind):
            raise NoTerm
        self.place += 1
        return self.tokens[self.place - 1]

    def term(self) -> Tree:
        if self.kind() in BINDERS:
            return self.binder()
        if self.kind() == "let":
            return self.local_definition()
        tree = self.atom()
        while self.kind() in ATOMS:
            argument = self.atom()
            tree = Tree("app", tree.start, argument.end, (tree, argument))
        if self.kind() == "->":
            self.take()
            body = self.term()
            return Tree("@", tree.start, body.end, (tree, body), "_")
        return tree

    def binder(self) -> Tree:
        sign, name = self.take(), self.take("name")
        self.take(":")
        domain = self.term()
        self.take(".")
        body = self.term()
        return Tree(sign.kind, sign.start, body.end, (domain, body), name.text)

    def local_definition(self) -> Tree:
        sign, name = self.take("let"), self.take("name")
        self.take(":=")
        definition = self.term()
        self.take(":")
        type_ = self.term()
        self.take("in")
        body = self.term()
        return Tree("let", sign.start, body.end, (definition, type_, body), name.text)

    def atom(self) -> Tree:
        token = self.take()
        if token.kind == "(":
            inner = self.term()
            return inner._replace(start=token.start, end=self.take(")").end)
        if token.kind not in ATOMS:
            raise NoTerm
        return Tree(token.kind, token.start, token.end, (), token.text)

    def term_or_none(self) -> Optional[Tree]:
        try:
            return self.term()
        except (NoTerm, RecursionError):
            return None


def parse(text: str) -> Optional[Tree]:
    """The term that the whole text is, or nothing where it is none."""
    parser = Parser(tokens(text))
    tree = parser.term_or_none()
    return tree if parser.kind() is None else None


class Statement(NamedTuple):
    """A line such as `define X : TYPE := TERM`, as far as it can be read. Its type or term is missing where it has none."""

    word: str
    name: Optional[Token] = None
    type: Optional[Tree] = None
    term: Optional[Tree] = None

    def part(self, part: str) -> Optional[Tree]:
        """The term that the program calls by this word, `type` or `term`."""
        return {"type": self.type, "term": self.term}.get(part)


def statement(text: str) -> Optional[Statement]:
    """What the line states, or nothing where it doesn't begin with a word of statements."""
    found = tokens(text)
    if not found or found[0].text not in STATEMENTS:
        return None
    parser = Parser(found, 1)
    if parser.kind() != "name":
        return Statement(found[0].text)
    name, type_, term = parser.take(), None, None
    if parser.kind() == ":":
        parser.take()
        type_ = parser.term_or_none()
    if parser.kind() == ":=":
        parser.take()
        term = parser.term_or_none()
    return Statement(found[0].text, name, type_, term)
