"""What is wrong with a line that the program refuses as `BadFile n Form`: one that may not come where it is."""

import difflib
import re
from typing import List, Optional, Tuple

from .notes import Note
from .source import Source, is_utf8
from .statements import FORMS
from .terms import statement
from .tokens import BLANKS

COMMENTS = ("--", "//", ";", "#", "(*", "/*")
OTHERS = {
    **dict.fromkeys(("definition", "def", "theorem", "lemma", "let", "fixpoint", "corollary", "example"), "define"),
    **dict.fromkeys(("axiom", "postulate", "hypothesis", "constant", "conjecture"), "assume"),
    **dict.fromkeys(("import", "require", "open", "include"), "uses"),
    **dict.fromkeys(("variable", "variables"), "parameter"),
}
LONGEST = 63


def without_blanks(text: str) -> str:
    return text.strip(BLANKS)


def body_before(source: Source, number: int) -> List[str]:
    """The lines before this one that count: those that aren't empty and begin with no `%`."""
    return [it for it in source.lines[: number - 1] if it and not it.startswith("%")]


def first_word(text: str) -> str:
    """The first word of a line, as far as its letters go."""
    found = re.match(r"[ \t]*([^\W\d][\w-]*)", text)
    return found[1] if found else ""


def is_far(body: List[str], word: str) -> bool:
    """Whether a line with this word comes too late after these lines."""
    after = {"uses": ("parameter", "assume", "define"), "parameter": ("assume", "define")}.get(word, ())
    return any(first_word(it) in after for it in body)


def head_sentence(source: Source, text: str, body: List[str]) -> Optional[str]:
    """Of a line that should be one of the first two."""
    if not body:
        return "The first line must be: yarrow-module 1"
    if len(body) == 1:
        return f"The second line must be: module {source.module}, as the file is called."
    return None


def end_sentence(text: str, body: List[str]) -> Optional[str]:
    """Of a line after the end, or of one that is nearly the end."""
    if "end" in body:
        return "Nothing may come after end."
    if first_word(text).lower() == "end":
        return "The last line must be: end"
    return None


def word_sentence(word: str, body: List[str]) -> Optional[str]:
    """Of a line by its first word."""
    small = word.lower()
    if small in OTHERS:
        return f"{word} is {OTHERS[small]} here: {FORMS[OTHERS[small]]}"
    if small in FORMS and word != small:
        return f"Words are written in small letters: {small}"
    if word in FORMS and is_far(body, word):
        return {"uses": "A line with uses comes before all parameters and declarations.", "parameter": "A parameter comes before all declarations."}[word]
    return None


def declaration_sentence(text: str, word: str) -> Optional[str]:
    """Of a line that begins with a word of the format."""
    if word not in FORMS:
        return None
    stated = statement(text)
    if stated and stated.name:
        if len(stated.name.text.encode()) > LONGEST:
            return f"The name of a declaration has at most {LONGEST} bytes, and this one has {len(stated.name.text.encode())}."
        if "." in stated.name.text:
            return "A declaration is called by a name without dots."
        if stated.name.text == "_":
            return "A declaration can't be called _."
    return f"The form of the line is: {FORMS[word]}"


def near_sentence(word: str) -> str:
    near = difflib.get_close_matches(word.lower(), list(FORMS) + ["end"], 1, 0.6)
    if near:
        return f"Did you mean {near[0]}?"
    return "No line begins so. After the first two lines a module has lines uses, parameter, assume and define, and then end."


def sentence(source: Source, number: int) -> str:
    """What is wrong with the line with this number, in the order in which a reader would see it."""
    text, body = source.line(number), body_before(source, number)
    if number > len(source.lines):
        if not body:
            return "The file is empty, and its first line must be: yarrow-module 1"
        return "The file ends, and its last line must be: end"
    word = first_word(text)
    if not is_utf8(text):
        return "This line is not UTF-8."
    if text.startswith("\ufeff"):
        return "The file begins with a byte-order mark, which must go: save it as UTF-8 without one."
    if without_blanks(text).startswith(COMMENTS):
        return "A comment is a line that begins with %."
    if without_blanks(text) == "":
        return "A line of blanks alone isn't empty: take the blanks out."
    if without_blanks(text).startswith("%"):
        return "A comment begins with % at the start of the line, without blanks before it."
    found = head_sentence(source, text, body) or end_sentence(text, body) or word_sentence(word, body)
    if not found and text[0] in BLANKS and word not in FORMS:
        found = "A declaration is one line, and this one begins with a blank. The command join makes one line of several."
    return found or declaration_sentence(text, word) or near_sentence(word)


def stretch(text: str) -> Tuple[int, int]:
    """What of the line a note speaks of: all of it without the blanks around it."""
    start = len(text) - len(text.lstrip(BLANKS))
    return (start, max(start + 1, len(text.rstrip(BLANKS)))) if without_blanks(text) else (0, max(1, len(text)))


def form_note(source: Source, number: int) -> Note:
    text = source.line(number)
    start, end = stretch(text)
    stated = statement(text)
    said = sentence(source, number)
    if stated and stated.name and said.startswith(("The name of", "A declaration is called", "A declaration can't")):
        start, end = stated.name.start, stated.name.end
    return Note(start, end, (said,))
