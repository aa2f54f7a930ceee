"""What is wrong with a line that is refused for its tokens, its grammar or its names."""

import difflib
import heapq
import os
from typing import List, Optional, Sequence, Tuple

from .notes import Note
from .statements import MODULE_FILE, Language
from .tokens import Token, character_place, tokens

WANTED = {
    "Term": "a term must begin",
    "Name": "the name of a binder must come",
    "Plain": "a name without dots must come",
    "Colon": "a ':' must come",
    "Dot": "a '.' must come",
    "Assign": "':=' must come",
    "In": "'in' must come",
    "Close": "a ')' must come",
    "End": "the line must end",
    "Number": "a number must come",
    "Semicolon": "a ';' must come",
}
INSTEAD = {
    "∀": "Write @x:A. B.",
    "Π": "Write @x:A. B.",
    "λ": "Write \\x:A. b.",
    ",": "A binder ends with a dot, as in @x:A. B.",
    "=": "A definition has := in it.",
    "→": "Write ->.",
    "⇒": "Write ->.",
    "□": "Write #.",
    "'": "A name has letters, digits and _; a ' begins a sort.",
    "-": "A - is part of -> alone; a name has letters, digits and _.",
    "\xa0": "It is a blank of another kind (a no-break space).",
    "[": "Parentheses are ( and ).",
    "{": "Parentheses are ( and ), and all arguments are written.",
    "∧": "Define it: connectives are names, as in and A B.",
    "¬": "Define it: connectives are names, as in not A.",
}
LETTERS = ("λ", "Π")
AS_SIGN = {"λ": "λ is a letter here: write \\x:A. b.", "Π": "Π is a letter here: write @x:A. B."}
HABITS = {**AS_SIGN, "fun": "Write \\x:A. b.", "forall": "Write @x:A. B."}
TYPES = ("Prop", "Set", "Type")
# So many names are looked at more closely, and so many closely, which takes long.
POSSIBLE, LIKELY = 500, 50
# In so many steps the start and the end of a name are made shorter until other names have them, too.
STEPS = 12


def token_from(found: Sequence[Token], place: int) -> Optional[Token]:
    return next((it for it in found if it.start == place), None)


def stretch(text: str, place: int) -> Tuple[int, int]:
    """The token that begins at a place of the line, or one sign where none does."""
    token = token_from(tokens(text), place)
    return (place, token.end) if token else (place, place + 1)


def bad_char(text: str, place: int, language: Language = MODULE_FILE) -> str:
    sign = text[place : place + 1]
    said = f"No token begins with '{sign}'."
    if text.startswith("=>", place):
        return f"{said} A function is \\x:A. b."
    hint = language.comment if sign == "%" else INSTEAD.get(sign, "")
    return f"{said} {hint}" if hint else said


def open_parenthesis(found: Sequence[Token], place: int) -> Optional[int]:
    """The place of the parenthesis that is still open here."""
    opened: List[int] = []
    for it in found:
        if it.start >= place:
            break
        if it.kind == "(":
            opened.append(it.start)
        elif it.kind == ")" and opened:
            opened.pop()
    return opened[-1] if opened else None


def dotted_name(found: Sequence[Token], place: int, known: Sequence[str]) -> Optional[Token]:
    """The last name before this place that has a dot in it and is unknown: perhaps it was meant as a binder's dot."""
    names = [it for it in found if it.kind == "name" and "." in it.text and it.start < place and it.text not in known]
    return names[-1] if names else None


def form_hint(before: Sequence[Token], wanted: str, language: Language) -> str:
    """The form of the line, where what was wanted is a part of it and not of a term."""
    word = before[0].text if before else ""
    of_the_form = wanted in ("Plain", "Colon", "Assign", "Number") and len(before) <= 2 or wanted in ("Term", "Name", "End") and len(before) == 1
    return f"The form of the line is: {language.forms[word]}" if word in language.forms and (of_the_form or wanted == "Semicolon") else ""


def hint_of(here: Optional[Token], before: Sequence[Token], wanted: str, language: Language) -> str:
    """What may help where `here`, after the tokens before it, isn't what was wanted."""
    if wanted in ("Plain", "Name") and here and here.kind in ("let", "in"):
        return f"{here.text} is a word of the language, and no name."
    if here and here.kind == "number" and wanted != "Number":
        return "A number is no term: define it."
    if here and here.kind in ("\\", "@", "let") and wanted not in ("Term", "Name"):
        return "As an argument, what begins with \\, @ or let is in parentheses."
    if wanted == "Colon" and here and here.kind == "name":
        return "A binder has one name and its type, as in \\x:A. \\y:A. b."
    if wanted == "Term" and not here and language.unfinished:
        return language.unfinished
    return form_hint(before, wanted, language)


def wanted_words(wanted: str, before: Sequence[Token]) -> str:
    """What must come, in words."""
    if wanted == "Name" and before and before[-1].kind == "name":
        return "a name must come"
    return WANTED.get(wanted, wanted)


def expected(text: str, place: int, wanted: str, known: Sequence[str], language: Language = MODULE_FILE) -> Note:
    """Of `Expected`: at this place, which counts characters, something else must come."""
    found = tokens(text)
    here = token_from(found, place)
    start, end = (place, here.end) if here else (place, place + 1)
    before = [it for it in found if it.start < place]
    said = f"{'Here' if here else 'The line ends, and here'} {wanted_words(wanted, before)}"
    dotted = dotted_name(found, place, known) if wanted == "Dot" else None
    opened = open_parenthesis(found, place) if wanted == "Close" else None
    if dotted:
        start, end = dotted.start, dotted.end
        parts = dotted.text.split(".")
        return Note(start, end, (f"{dotted.text} is read as one name: put a blank after the dot, as in {parts[0]}. {'.'.join(parts[1:])}",))
    if opened is not None:
        said += f", for the '(' in column {opened + 1}"
    if wanted == "End" and here and here is found[-1] and here.kind == ".":
        return Note(start, end, ("No dot ends a line.",))
    letter = next((it for it in before[-2:] if it.text.startswith(LETTERS)), None) if here and here.kind == ":" else None
    if letter:
        return Note(letter.start, letter.end, (AS_SIGN[letter.text[0]],))
    hint = hint_of(here, before, wanted, language)
    return Note(start, end, (f"{said}.", hint) if hint else (f"{said}.",))


def likeness(one: str, other: str) -> int:
    """Roughly how alike two names are: the signs that they share at their starts and ends, less the others of the longer one."""
    shared = len(os.path.commonprefix((one, other)))
    shared += len(os.path.commonprefix((one[shared:][::-1], other[shared:][::-1])))
    return 2 * shared - max(len(one), len(other))


def sharing(name: str, known: Sequence[str]) -> Sequence[str]:
    """The names that share as long a start with this one as any does, or as long an end; those of the two that are fewer, where there
    are many. In one text of all names these are found without a look at each."""
    text = "\n".join(("", *known, ""))
    sizes = range(len(name), 0, -max(1, len(name) // STEPS))
    start = next((name[:it] for it in sizes if "\n" + name[:it] in text), "\n")
    end = next((name[-it:] for it in sizes if name[-it:] + "\n" in text), "\n")
    begun, ended = text.count("\n" + start), text.count(end + "\n")
    starts = [it for it in known if it.startswith(start)] if begun <= max(ended, POSSIBLE) or not ended else []
    ends = [it for it in known if it.endswith(end)] if ended <= max(begun, POSSIBLE) or not begun else []
    return list(dict.fromkeys([*starts, *ends]))


def near_names(name: str, known: Sequence[str]) -> List[str]:
    signs = set(name)
    alike = known if len(known) <= POSSIBLE else sharing(name, known)
    possible = alike if len(alike) <= POSSIBLE else heapq.nsmallest(POSSIBLE, alike, key=lambda it: len(signs.symmetric_difference(it)))
    likely = possible if len(possible) <= LIKELY else heapq.nlargest(LIKELY, possible, key=lambda it: likeness(name, it))
    near = difflib.get_close_matches(name, likely, 2, 0.6)
    ending = f".{name}"
    return near + [it for it in known if it.endswith(ending) and it not in near][:2]


def unknown_name(module: str, name: str, known: Sequence[str], later: Optional[int], uses: Sequence[str]) -> str:
    """Of a name that is bound by nothing and declared nowhere before. `later` is the line that declares it, if one does."""
    first, dot, rest = name.partition(".")
    if later is not None:
        return f"{name} is declared later, in line {later}."
    if name in TYPES:
        return f"{name} is no sort here: the sort of types is *."
    if name in HABITS:
        return HABITS[name]
    if dot and first in (module, "_"):
        return f"Inside of its module it is called {rest}."
    if dot and first not in uses:
        return f"{name} is of another module, and there is no line: uses {first} (which is not built yet)"
    near = near_names(name, known)
    said = f"{name} is no binder and no declaration before this line."
    return f"{said} Near to it: {', '.join(near)}." if near else said


def place_in(text: str, byte: int) -> int:
    return min(character_place(text, byte), len(text))
