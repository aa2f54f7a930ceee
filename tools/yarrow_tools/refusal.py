"""The line by which the program refuses a module, taken apart."""

import re
from typing import NamedTuple, Optional, Tuple

PART = r"(?P<part>type|term|goal|argument \d+) (?P<path>-|[0-9.]+) (?P<kind>NotASort|NotProduct|NoRule|NoAxiom|NotConvertible) (?P<values>.*)"
OF_A_LINE = ("BadFile", "Declaration", "NotBuilt")


class Refusal(NamedTuple):
    """A refusal of `module`. Its line counts from 1, and is missing where it speaks of none. `kind` is the word that says
    what is wrong, and `values` are the words after it; a flaw has the part of the line and the path in it, too."""

    module: str
    line: Optional[int]
    kind: str
    values: str = ""
    part: str = ""
    path: str = ""

    @property
    def words(self) -> Tuple[str, ...]:
        return tuple(self.values.split())

    @property
    def place(self) -> int:
        """The place in bytes, of a refusal that begins with one."""
        return int(self.words[0])


def refusal(printed: str) -> Optional[Refusal]:
    """The refusal that this line is, such as `refused mine Declaration 7 term 1.1 NoRule # *`; nothing where it is none."""
    words = printed.split(" ")
    if len(words) < 3 or words[0] != "refused":
        return None
    module, rest = words[1], words[2:]
    if rest[0] not in OF_A_LINE or len(rest) < 2:
        return Refusal(module, None, rest[0], " ".join(rest[1:]))
    return refusal_of_line(" ".join(rest[2:]) or rest[0], module, int(rest[1]))


def refusal_of_line(said: str, module: str = "", line: Optional[int] = None) -> Refusal:
    """What is refused of one line, such as `term 1.1 NoRule # *`."""
    flaw = re.fullmatch(PART, said)
    if flaw:
        return Refusal(module, line, flaw["kind"], flaw["values"], flaw["part"], flaw["path"])
    kind, _, values = said.partition(" ")
    return Refusal(module, line, kind, values)
