"""What is shown: lines that fit the screen, colours where they are wanted, and the transcript."""

import os
import re
from typing import Callable, Dict, List, Mapping, Optional, TextIO, Tuple

from yarrow_tools.screen import INDENT, columns, marked, width_of

# A reply with more characters is cut.
MOST = 20_000
COLOURS = {"caret": "31", "quiet": "2", "head": "1"}
SIGNS: Dict[str, str] = {"->": "→", "\\": "λ", "@": "Π", "#": "□"}
# Where a term is best folded: after an arrow, a dot or a sign of definition.
FOLDS = re.compile(r"(?<=->) |(?<=→) |(?<=\.) |(?<=:=) ")
WORDS = re.compile(" ")
# What comes after a line of which the rest isn't shown.
CUT = " .."


class NotWritten(BrokenPipeError):
    """Standard output could not be written."""


def fitting(text: str, width: int) -> str:
    """As much of the start of a text as takes at most so many columns."""
    taken = 0
    for place, sign in enumerate(text):
        taken += columns(sign)
        if taken > width:
            return text[:place]
    return text


def last_of(lines: List[str], line: str, indent: int, width: int) -> str:
    """What is left of a line once as many lines as it fills are put to the others."""
    while columns(line) > width:
        lines.append(fitting(line, width))
        line = " " * indent + line[len(lines[-1]) :]
    return line


def pieces_of(text: str, room: int, at: re.Pattern) -> List[str]:
    """The text in pieces, each of which may begin a line; where one takes more columns than there is room, its words are."""
    return [word for part in at.split(text) for word in ([part] if columns(part) <= room else part.split(" "))]


def folded(head: str, text: str, indent: int, width: int, at: re.Pattern = FOLDS) -> List[str]:
    """The text after its head, in lines that are no wider than the screen; those after the first have so many blanks before."""
    indent = min(indent, width // 2)
    lines: List[str] = []
    line, begins = last_of(lines, head, indent, width), True
    for piece in pieces_of(text, width - indent, at):
        if line.strip() and columns(line) + (not begins) + columns(piece) > width:
            lines.append(line.rstrip())
            line, begins = " " * indent, True
        line = last_of(lines, line + ("" if begins else " ") + piece, indent, width)
        begins = False
    return [*lines, line]


class Screen:
    """Where lines are written: a terminal, or a stream that isn't one. A transcript gets them without colours. `short` makes
    of a term's text what is shown of its names."""

    def __init__(self, out: TextIO, environment: Mapping[str, str] = os.environ):
        self.out = out
        self.short: Callable[[str], str] = str
        self.terminal = out.isatty()
        self.dumb = environment.get("TERM", "dumb") == "dumb"
        self.colour = self.terminal and not self.dumb and not environment.get("NO_COLOR")
        self.signs = "utf" in (out.encoding or "").lower().replace("-", "")
        self.unicode = self.raw = self.waiting = False
        self.transcript: Optional[TextIO] = None

    def width(self) -> int:
        return width_of(self.out)

    def write(self, text: str) -> None:
        try:
            self.out.write(text)
            self.out.flush()
        except OSError as fault:
            raise NotWritten from fault

    def put(self, line: str, style: str = "") -> None:
        """Shows a line, which is no wider than the screen already."""
        self.end_wait()
        self.write((f"\x1b[{COLOURS[style]}m{line}\x1b[0m" if self.colour and style else line) + "\n")
        self.note(line)

    def note(self, line: str) -> None:
        """Writes a line to the transcript alone: the terminal has shown it."""
        if self.transcript:
            self.transcript.write(line + "\n")
            self.transcript.flush()

    def wait(self, can_stop: bool) -> None:
        """Says once that the program works, where a person waits for it, who may stop it or not."""
        if self.terminal and not self.waiting:
            self.waiting = True
            self.write(f"computing{', Ctrl-C stops' if can_stop else ''} ..{chr(10) if self.dumb else ''}")

    def end_wait(self) -> None:
        if self.waiting:
            self.waiting = False
            self.write("" if self.dumb else "\r\x1b[K")

    def text(self, head: str, text: str, indent: int = 4, style: str = "") -> None:
        """Shows a line with terms in it, after its head."""
        size = len(text)
        if size > MOST:
            text = f"{text[:MOST]} .. ({size:,} characters)"
        for line in folded(head, self.in_signs(text), indent, self.width()):
            self.put(line, style)

    def term(self, head: str, text: str, indent: int = 4, style: str = "") -> None:
        """Shows a term, or a line with terms in it, after its head, with names as they may be read."""
        self.text(head, self.short(text) if len(text) <= MOST else text, indent, style)

    def brief(self, head: str, text: str) -> None:
        """Shows as much of a term as one line takes."""
        line = head + self.in_signs(self.short(text[:MOST]))
        room = self.width()
        self.put(line if columns(line) <= room else f"{fitting(line, room - len(CUT))}{CUT}", "quiet")

    def in_signs(self, text: str) -> str:
        """The text with the signs of mathematics, where they are wanted."""
        if self.unicode and self.signs:
            for sign, shown in SIGNS.items():
                text = text.replace(sign, shown)
        return text

    def say(self, *sentences: str, head: str = INDENT) -> None:
        """Shows sentences, each from a new line on, a little to the right."""
        for said in sentences:
            for line in folded(head, said, len(head), self.width(), WORDS):
                self.put(line)

    def tell(self, sentence: str) -> None:
        """Shows what the prompt has done, or asks to be known."""
        self.say(sentence, head="")

    def mark(self, line: str, stretch: Tuple[int, int]) -> None:
        """Shows a line with carets below a stretch of it."""
        shown, carets = marked(line, *stretch, self.width())
        self.put(shown)
        self.put(carets, "caret")
