"""Lines that go on, comments after a declaration, and signs of mathematics, made into a module that the program reads.

Each byte keeps its place, counted from the start of its declaration's first line with each line feed counted, and each
declaration its line. So what is refused in the made module has a place in the text as it was written."""

import sys
from typing import List, Sequence

from .tokens import starts_identifier, continues_identifier

# Signs, with what is as long in UTF-8.
SIGNS = {"∀": "@  ", "→": "-> ", "□": "#  "}
# These are letters, so they are signs only where no letter comes before them; a name can then not begin with them.
LETTERS = {"λ": "\\ ", "Π": "@ "}

WORDS = (b"assume", b"define", b"parameter")
BLANKS = b" \t\r"


def without_comment(line: bytes) -> bytes:
    """The line with blanks for its comment, which `%` begins."""
    place = line.find(b"%")
    return line if place < 0 else line[:place] + b" " * (len(line) - place)


def with_signs(text: str, greek: bool, padded: bool = True) -> str:
    """The text with the signs of the program for those of mathematics; padded with blanks, so that each byte keeps its place."""
    made: List[str] = []
    before = " "
    for sign in text:
        inside = starts_identifier(before) or continues_identifier(before)
        written = SIGNS.get(sign) or (LETTERS.get(sign) if greek and not inside else None)
        made.append((written if padded else written.rstrip()) if written else sign)
        before = " " if greek and sign in LETTERS and not inside else sign
    return "".join(made)


def is_declaration(line: bytes) -> bool:
    """Whether the line begins with a word after which tokens come, so that blanks at its end mean nothing."""
    return line.split(b" ")[0].split(b"\t")[0] in WORDS


def is_passed_over(line: bytes) -> bool:
    """Whether the line has nothing but blanks and a comment."""
    return without_comment(line).strip(BLANKS) == b""


def goes_on(line: bytes) -> bool:
    """Whether the line goes on with the one before."""
    return line[:1] in (b" ", b"\t") and not is_passed_over(line)


def made_line(parts: Sequence[bytes], greek: bool) -> bytes:
    """One line of what was written in several, a blank for each line feed and for each carriage return before one."""
    line = b" ".join(without_comment(it[:-1] + b" " if it.endswith(b"\r") else it) for it in parts)
    text = with_signs(line.decode("utf-8", "surrogateescape"), greek)
    return (text if is_declaration(line) else text.rstrip()).encode("utf-8", "surrogateescape")


def joined(content: bytes, greek: bool = False) -> bytes:
    """The module that the text makes, with as many lines as the text."""
    lines = content.split(b"\n")
    made: List[bytes] = []
    place = 0
    while place < len(lines):
        if is_passed_over(lines[place]):
            made.append(lines[place] if lines[place].startswith(b"%") else b"")
            place += 1
            continue
        end = place + 1
        if is_declaration(lines[place]):
            following = end
            while following < len(lines) and (goes_on(lines[following]) or is_passed_over(lines[following])):
                following += 1
                end = following if goes_on(lines[following - 1]) else end
        made += [made_line(lines[place:end], greek)] + [b""] * (end - place - 1)
        place = end
    return b"\n".join(made)


def run(words: Sequence[str]) -> int:
    """`join [--greek] < SOURCE > MODULE.yar`"""
    if any(it != "--greek" for it in words):
        return 2
    sys.stdout.buffer.write(joined(sys.stdin.buffer.read(), "--greek" in words))
    sys.stdout.buffer.flush()
    return 0
