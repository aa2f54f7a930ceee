"""The text of a module, by lines and by places in them."""

import os
from typing import FrozenSet, List, NamedTuple, Optional, Tuple

from .join import joined
from .terms import Statement, statement
from .tokens import character_place

MODULE = ".yar"
SOURCE = ".src"


def decoded(line: bytes) -> str:
    """The text of a line; each byte that is no part of a character of UTF-8 is kept as one sign."""
    return line.decode("utf-8", "surrogateescape")


def is_utf8(text: str) -> bool:
    try:
        text.encode("utf-8")
    except UnicodeEncodeError:
        return False
    return True


class Position(NamedTuple):
    """A stretch of one line. Lines and columns count from 1, columns in characters; the last column is in the stretch."""

    line: int
    column: int
    last: int

    def __str__(self) -> str:
        return f"{self.line}:{self.column}-{self.last}"


class Source:
    """A file of a module, `path` as the user wrote it. Where the file is M.src its lines are joined before they are checked,
    and `written` has them as they are in the file."""

    def __init__(self, path: str, content: bytes):
        self.path = path
        folder, file = os.path.split(path)
        self.folder = folder or "."
        self.module, ending = os.path.splitext(file)
        self.written = content.split(b"\n")
        checked = joined(content) if ending == SOURCE else content
        self.lines: List[str] = [decoded(it[:-1] if it.endswith(b"\r") else it) for it in checked.split(b"\n")]
        if self.lines[-1] == "":
            self.lines.pop()

    def line(self, number: int) -> str:
        """The checked line with this number, or nothing past the end."""
        return self.lines[number - 1] if 1 <= number <= len(self.lines) else ""

    def statement(self, number: int) -> Optional[Statement]:
        return statement(self.line(number))

    def position(self, number: int, start: int, end: int) -> Position:
        """Where a stretch of a checked line is in the file: in the same line, unless the line was joined of several."""
        text = self.line(number)
        row, before = self.row_of(number, len(text[:start].encode("utf-8", "surrogateescape")))
        written = decoded(self.written[row - 1].rstrip(b"\r")) if row <= len(self.written) else ""
        column = character_place(written, before)
        rest = max(1, len(written) - column)
        return Position(row, column + 1, column + min(max(1, end - start), rest))

    def row_of(self, number: int, byte: int) -> Tuple[int, int]:
        """The line of the file in which this byte of a checked line is, and its place there."""
        while number <= len(self.written) and byte > len(self.written[number - 1]) and number < len(self.written):
            byte -= len(self.written[number - 1]) + 1
            number += 1
        return number, byte

    def names_before(self, number: int) -> List[str]:
        """The names that lines before this one state."""
        found = [self.statement(it) for it in range(1, min(number, len(self.lines) + 1))]
        return [it.name.text for it in found if it and it.name]

    def line_of(self, name: str) -> Optional[int]:
        """The first line that states this name."""
        for number in range(1, len(self.lines) + 1):
            stated = self.statement(number)
            if stated and stated.name and stated.name.text == name:
                return number
        return None

    def assumed(self) -> FrozenSet[str]:
        """The names that the module assumes, or takes as parameters."""
        found = [self.statement(it) for it in range(1, len(self.lines) + 1)]
        return frozenset(it.name.text for it in found if it and it.name and it.word in ("assume", "parameter"))

    def uses(self) -> List[str]:
        return [it.split(" ")[1] for it in self.lines if it.startswith("uses ") and it.count(" ") == 1]


def module_path(word: str) -> str:
    """The file that a word of the command line means: MODULE, MODULE.yar or MODULE.src, with or without a folder."""
    return word if word.endswith((MODULE, SOURCE)) else word + MODULE


def read_source(path: str) -> Source:
    with open(path, "rb") as file:
        return Source(path, file.read())
