"""A line of a text with carets under the stretch that is spoken of."""

import os
import unicodedata
from typing import List, TextIO, Tuple

INDENT = "  "
NARROWEST = 20
USUAL = 80


def columns(text: str) -> int:
    """How many columns of a terminal the text takes."""
    return sum(0 if unicodedata.combining(it) else 2 if unicodedata.east_asian_width(it) in "WF" else 1 for it in text)


def window(text: str, start: int, room: int) -> Tuple[int, int]:
    """A stretch of the text that takes at most so many columns, and begins a quarter of them before this place, or earlier
    where the text ends."""
    first = start
    while first > 0 and columns(text[first - 1 : start]) <= room // 4:
        first -= 1
    while first > 0 and columns(text[first - 1 :]) <= room:
        first -= 1
    last = first
    while last < len(text) and columns(text[first : last + 1]) <= room:
        last += 1
    return first, last


def marked(text: str, start: int, end: int, width: int) -> List[str]:
    """The line with carets below the characters from `start` to before `end`. Of a line that is too wide a stretch is shown
    which begins a quarter of the width before the place."""
    room = max(NARROWEST, width) - len(INDENT)
    text = "".join(" " if it == "\t" or not it.isprintable() else it for it in text)
    end = max(end, start + 1)
    if columns(text) + (start >= len(text)) > room:
        first, last = window(text, start, room - 4)
        before, after = ".." if first else "", ".." if last < len(text) else ""
        start, end = start - first + len(before), min(end, last) - first + len(before)
        text = before + text[first:last] + after
    carets = "^" * max(1, columns(text[start:end]))
    return [INDENT + text, INDENT + " " * columns(text[:start]) + carets]


def width_of(stream: TextIO) -> int:
    """The columns of the terminal, or 80 where there is none or where it doesn't say."""
    try:
        width = os.get_terminal_size(stream.fileno()).columns
    except (OSError, ValueError):
        width = 0
    return max(NARROWEST, width) if width else USUAL
