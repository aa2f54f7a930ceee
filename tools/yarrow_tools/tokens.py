"""The tokens of a line, with their places. docs/TERMS.md has the rules."""

from typing import List, NamedTuple

KEYWORDS = ("let", "in")
SIGNS = ("->", ":=", "\\", "@", ":", ".", "(", ")", ";")
BLANKS = " \t"


class Token(NamedTuple):
    """A token from the character `start` to before `end`. Its kind is `name`, `number`, `sort` or `bad`, or else its text."""

    kind: str
    start: int
    end: int
    text: str


def starts_identifier(sign: str) -> bool:
    return sign == "_" or sign.isidentifier()


def continues_identifier(sign: str) -> bool:
    return ("a" + sign).isidentifier()


def identifier_end(text: str, start: int) -> int:
    """The end of the identifier that begins at this place, or the place itself where none does."""
    end = start
    if end < len(text) and starts_identifier(text[end]):
        end += 1
        while end < len(text) and continues_identifier(text[end]):
            end += 1
    return end


def name_end(text: str, start: int) -> int:
    """The end of the name that begins at this place: identifiers, each after a dot that directly follows the one before."""
    end = identifier_end(text, start)
    if text[start:end] in KEYWORDS:
        return end
    while text[end : end + 1] == ".":
        part = identifier_end(text, end + 1)
        if part == end + 1 or text[end + 1 : part] in KEYWORDS:
            break
        end = part
    return end


def token_at(text: str, start: int) -> Token:
    """The token that begins at this place, which is no blank. A character that begins none is a token of the kind `bad`."""

    def token(kind: str, end: int) -> Token:
        return Token(kind, start, end, text[start:end])

    sign = text[start]
    for it in SIGNS:
        if text.startswith(it, start):
            return token(it, start + len(it))
    if sign in "*#":
        return token("sort", start + 1)
    if sign == "'":
        end = identifier_end(text, start + 1)
        return token("sort" if end > start + 1 and text[start + 1 : end] not in KEYWORDS else "bad", max(end, start + 1))
    if sign in "0123456789":
        end = start + 1
        while end < len(text) and text[end] in "0123456789":
            end += 1
        return token("number", end)
    if starts_identifier(sign):
        end = name_end(text, start)
        return token(text[start:end] if text[start:end] in KEYWORDS else "name", end)
    return token("bad", start + 1)


def tokens(text: str) -> List[Token]:
    """All tokens of the text, from left to right."""
    found, place = [], 0
    while place < len(text):
        if text[place] in BLANKS:
            place += 1
        else:
            found.append(token_at(text, place))
            place = found[-1].end
    return found


def character_place(text: str, byte: int) -> int:
    """How many characters come before this place, which counts the bytes of the text in UTF-8."""
    return len(text.encode("utf-8", "surrogateescape")[:byte].decode("utf-8", "ignore"))
