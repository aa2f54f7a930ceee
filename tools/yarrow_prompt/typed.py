"""What is typed, made into lines: comments, signs of mathematics, and lines that go on."""

from typing import Iterable, Iterator, List, Optional, Tuple

from yarrow_tools.join import with_signs
from yarrow_tools.tokens import BLANKS, Token, tokens

from .table import Flag, command_of

# A line whose last token is one of these can't be whole.
GOES_ON = ("->", ":=", ":", ";", "\\", "@", "let", "in")
LONGEST = 65_536


def is_own(text: str) -> bool:
    """Whether the line is one of the prompt alone, whose words may be names of files."""
    command = command_of(text)
    return command is not None and Flag.SENT not in command.flags


def read(text: str) -> str:
    """The line that was typed, without its comment and with the program's signs; nothing, where it only has a comment."""
    line = text.strip(BLANKS + "\r\n")
    if line.startswith("%") or is_own(line):
        return "" if line.startswith("%") else line
    return with_signs(line.partition("%")[0], greek=True, padded=False).strip(BLANKS)


def is_open(text: str) -> bool:
    """Whether the line can't be whole yet. One that has no command, or a sign that begins no token, is taken for whole."""
    line = read(text)
    command, found = command_of(line), tokens(line)
    if command is None or Flag.TERMS not in command.flags or any(it.kind == "bad" for it in found):
        return False
    depth = count(found, "(") - count(found, ")")
    if found[-1].kind == ".":
        # (a dot at the end is that of a binder, where there are as many binders as dots)
        return depth > 0 or count(found, "\\", "@") >= count(found, ".")
    return depth > 0 or found[-1].kind in GOES_ON


def count(found: List[Token], *kinds: str) -> int:
    return sum(it.kind in kinds for it in found)


def goes_on(line: str) -> bool:
    """Whether a line of a script goes on with the one before: it begins with a blank, and has something in it."""
    return line[:1] in tuple(BLANKS) and read(line) != ""


def without_comment(line: str) -> str:
    """The line without its comment, so that another may follow in the same line."""
    return line if is_own(line) else line.partition("%")[0]


def whole_lines(lines: Iterable[str], typed: bool = False) -> Iterator[Tuple[int, str]]:
    """The lines that have something in them, each with its number from 1; lines that go on are joined. Where they were typed,
    one goes on also if it can't be whole, unless an empty line comes after it."""
    number, held = 0, ""
    for place, line in enumerate(lines, 1):
        line = line.rstrip("\r\n")
        if held and (goes_on(line) or typed and read(line) != "" and is_open(held)):
            held = f"{without_comment(held).rstrip(BLANKS)} {line.strip(BLANKS)}"
        elif read(line) != "" or typed and line.strip(BLANKS) == "":
            if held:
                yield number, held
            number, held = place, line.strip(BLANKS)
    if held:
        yield number, held


def unsendable(line: str) -> Optional[str]:
    """Why a line can't be given to the program, whose rounds would lose count of it."""
    try:
        size = len(line.encode("utf-8"))
    except UnicodeEncodeError:
        return "This line is not UTF-8."
    if "\n" in line:
        return "This is more than one line."
    if size + len("@1 ") > LONGEST:
        return f"The line has {size:,} bytes, and at most {LONGEST - len('@1 '):,} are read."
    return None
