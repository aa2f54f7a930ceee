"""The lines that state something, each with its form."""

from typing import Mapping, NamedTuple

FORMS = {
    "uses": "uses M",
    "parameter": "parameter X : TERM",
    "assume": "assume X : TERM",
    "define": "define X := TERM, or define X : TERM := TERM",
}


class Language(NamedTuple):
    """What is said of the lines of a kind of text: their forms by their first words, and hints of where a line ends too
    early and of a comment in it."""

    forms: Mapping[str, str]
    unfinished: str = ""
    comment: str = ""


MODULE_FILE = Language(
    FORMS,
    "A declaration is one line; the command join makes one line of several.",
    "A comment is a line of its own; the command join takes comments after a declaration, too.",
)
