"""Each refusal of a module in sentences, with the line and the stretch of it that they speak of."""

from typing import NamedTuple, Optional

from . import forms, reading
from .flaws import Said, flaw_sentences, names_in_module, role, stretch, without_module
from .notes import Note
from .refusal import Refusal
from .source import Source
from .specs import systems_with

OF_THE_NAME = {
    "Taken": "{0} is declared already. Take another name.",
    "LongName": "This name has more than 128 bytes.",
}
OF_THE_LINE = {
    "TooDeep": "The term is nested deeper than 2,000.",
    "Deep": "A term on the way is deeper than 2,000 or larger than 1,000,000, or inference nests deeper than 4,000, or a comparison deeper than 2,000.",
    "Spent": "The module's budget of 1,000,000 units is used up here: this computes too long.",
    "NotBuilt": "Lines with uses and with parameter are not built yet.",
}
OF_THE_MODULE = {
    "ContextFull": "There are more than 200,000 declarations.",
    "NoModule": "The module {0} is not among the words of the command.",
    "NotLoaded": "The module {0} isn't loaded: it has parameters, or it comes later.",
    "CycleOfUses": "The modules use one another in a circle, in which is {0}.",
    "Loaded": "The label {0} is there already.",
}


class Explained(NamedTuple):
    """A note on a line of a module; the file's end is one line past its last."""

    line: int
    note: Note


def whole(text: str) -> Note:
    start, end = forms.stretch(text)
    return Note(start, end, ())


def of_reading(source: Source, line: int, refused: Refusal) -> Note:
    """Of a refusal of tokens, of grammar or of names, which has a place in bytes."""
    text, known = source.line(line), source.names_before(line)
    place = reading.place_in(text, refused.place)
    start, end = reading.stretch(text, place)
    if refused.kind == "Expected":
        return reading.expected(text, place, refused.words[1], known)
    if refused.kind == "BadChar":
        return Note(start, end, (reading.bad_char(text, place),))
    if refused.kind == "UnknownSort":
        return Note(start, end, (f"The system has no sort {refused.words[1]}.",))
    if refused.kind == "UnknownName":
        name = refused.words[1]
        later = source.line_of(name)
        said = reading.unknown_name(source.module, name, known, later if later and later > line else None, source.uses())
        return Note(start, end, (said,))
    if refused.kind == "TooDeep" and place >= len(text):
        return whole(text)._replace(sentences=(OF_THE_LINE["TooDeep"],))
    return Note(start, end, ({**OF_THE_NAME, "TooDeep": "2,000 parentheses are open here already."}[refused.kind],))


def of_a_flaw(source: Source, line: int, refused: Refusal) -> Note:
    """Of a flaw, which has a part of the line and a path in it."""
    stated = source.statement(line)
    term = stated.part(refused.part) if stated else None
    found = stretch(term, refused.path)
    what = "This" if found else f"The part {refused.path} of the {refused.part}"
    start, end = found or stretch(term, "-") or forms.stretch(source.line(line))
    said = Said(what, refused.kind, refused.values, role(term, refused.path))
    names = names_in_module(source.module, source.assumed(), term)
    return Note(start, end, flaw_sentences(said, names, systems_with))


def of_the_name(source: Source, line: int, refused: Refusal) -> Note:
    stated = source.statement(line)
    start, end = (stated.name.start, stated.name.end) if stated and stated.name else forms.stretch(source.line(line))
    name = without_module(refused.words[0], source.module)
    earlier = source.line_of(name)
    where = f" in line {earlier}" if earlier and earlier < line else ""
    return Note(start, end, (f"{name} is declared already{where}. Take another name.",))


def of_a_line(source: Source, line: int, refused: Refusal) -> Note:
    if refused.kind == "Form":
        return forms.form_note(source, line)
    if refused.kind in ("BadChar", "LongName", "Expected", "TooDeep", "UnknownName", "UnknownSort"):
        return of_reading(source, line, refused)
    if refused.part:
        return of_a_flaw(source, line, refused)
    if refused.kind == "Taken":
        return of_the_name(source, line, refused)
    said = OF_THE_LINE.get(refused.kind, f"{refused.kind} {refused.values}".strip())
    return whole(source.line(line))._replace(sentences=(said,))


def line_of_use(source: Source, refused: Refusal) -> Optional[int]:
    """The line `uses M` that a refusal without a line speaks of."""
    return next((number for number in range(1, len(source.lines) + 1) if refused.words and source.line(number) == f"uses {refused.words[0]}"), None)


def explained(source: Source, refused: Refusal) -> Explained:
    """The note on a refusal of the module of this source."""
    if refused.line is not None:
        return Explained(refused.line, of_a_line(source, refused.line, refused))
    line = line_of_use(source, refused) or 1
    said = OF_THE_MODULE.get(refused.kind, f"{refused.kind} {refused.values}".strip()).format(*refused.words or ("?",))
    return Explained(line, whole(source.line(line))._replace(sentences=(said,)))


def brief(note: Note) -> str:
    """The first sentence of a note, for a list."""
    return note.sentences[0] if note.sentences else ""
