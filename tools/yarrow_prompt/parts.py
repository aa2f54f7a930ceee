"""The terms in a line of a session, by the words with which the program speaks of them; and those in its replies."""

from typing import Dict, List, NamedTuple, Optional

from yarrow_tools.terms import NoTerm, Parser, Tree, statement
from yarrow_tools.tokens import tokens

from .table import first_word

# So many names come after the word of a line, before its terms.
NAMES_BEFORE = {"instance": 2}


def terms_after(line: str, place: int) -> List[Tree]:
    """The terms from a token of the line on, with `;` between them, as far as they can be read."""
    parser = Parser(tokens(line), place)
    found: List[Tree] = []
    while parser.kind() is not None:
        term = parser.term_or_none()
        if term is None:
            break
        found.append(term)
        if parser.kind() != ";":
            break
        parser.take()
    return found


def terms_of(line: str) -> Dict[str, Tree]:
    """The terms of a line, each by its word: `term`, `type`, or `argument 1` and so on. The second term of `equal` has none of
    the program's."""
    stated = statement(line)
    if stated:
        return {word: tree for word, tree in (("type", stated.type), ("term", stated.term)) if tree}
    word = first_word(line)
    found = terms_after(line, 1 + NAMES_BEFORE.get(word, 0))
    if word == "instance":
        return {f"argument {number}": tree for number, tree in enumerate(found, 1)}
    return dict(zip(("type" if word == "convert" else "term", "other"), found))


def term_of(line: str, part: str) -> Optional[Tree]:
    """The term of a line that the program calls by this word."""
    return terms_of(line).get(part)


class Judged(NamedTuple):
    """A term and its type, in a reply."""

    term: str
    type: str


def judged(reply: str, start: int = 0) -> Optional[Judged]:
    """What a reply such as `TERM : TYPE` says, read from a token on; nothing, where it isn't read."""
    parser = Parser(tokens(reply), start)
    try:
        term = parser.term()
        return Judged(reply[term.start : term.end], reply[parser.take(":").end :].strip())
    except (NoTerm, RecursionError):
        return None


def defined(name: str, reply: str) -> Optional[Judged]:
    """The body and the type in what `show NAME` replies; nothing, where it has no body."""
    return judged(reply, 2) if reply.startswith(f"{name} := ") else None
