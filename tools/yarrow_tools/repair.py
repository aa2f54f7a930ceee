"""A module's lines without what was refused, so that the program finds what else is."""

from typing import List, Set

from .forms import body_before, end_sentence, first_word
from .refusal import Refusal
from .source import Source
from .terms import Statement, statement
from .tokens import character_place, tokens

READING = ("BadChar", "LongName", "Expected", "TooDeep", "UnknownName", "UnknownSort")
AFTER_THE_HEAD = ("uses", "parameter", "assume", "define", "end")


class Copy:
    """The lines of a module, in which a refused definition with a type becomes an assumption, and other refused lines go.

    `missing` are the names of lines that went, and the modules of lines `uses` that did. `opaque` are the names whose
    definitions went, and those that are defined by them."""

    def __init__(self, source: Source):
        self.source = source
        self.lines: List[str] = list(source.lines)
        self.missing: Set[str] = set()
        self.opaque: Set[str] = set()

    @property
    def content(self) -> bytes:
        return "".join(it + "\n" for it in self.lines).encode("utf-8", "surrogateescape")

    def is_consequence(self, refused: Refusal) -> bool:
        """Whether the refusal may come of an earlier one alone: of a name that went, or of a definition that did."""
        if refused.kind == "UnknownName":
            name = refused.words[1]
            return name in self.missing or ("." in name and name.split(".")[0] in self.missing)
        if not refused.part:
            return False
        mentioned = {it.text.rpartition(".")[2] for it in tokens(refused.values) if it.kind == "name"}
        return bool(mentioned & self.all_opaque())

    def all_opaque(self) -> Set[str]:
        found = set(self.opaque)
        for line in self.lines:
            stated = statement(line)
            if found and stated and stated.name and any(it.kind == "name" and it.text in found for it in tokens(line)):
                found.add(stated.name.text)
        return found

    def repair(self, refused: Refusal) -> bool:
        """Takes out what is refused. False where nothing can be, so that the program would answer the same again."""
        if refused.line is None:
            return False
        before = list(self.lines)
        if refused.kind == "Form":
            self.repair_form(refused.line)
        elif refused.kind == "NotBuilt":
            self.repair_unbuilt(refused.line)
        else:
            self.repair_statement(refused.line, refused)
        return self.lines != before

    def repair_form(self, number: int) -> None:
        body, text = body_before(self.source, number), self.source.line(number)
        if number > len(self.lines):
            self.lines.append("end")
        elif not body or len(body) == 1:
            # (where one of the first two lines isn't there at all, the rest can't be looked at)
            if first_word(text) not in AFTER_THE_HEAD and not (not body and first_word(text) == "module"):
                self.lines[number - 1] = "yarrow-module 1" if not body else f"module {self.source.module}"
        elif "end" in body:
            self.lines[number - 1 :] = [""] * (len(self.lines) - number + 1)
        elif end_sentence(text, body):
            self.lines[number - 1] = "end"
        else:
            self.drop(number)

    def repair_unbuilt(self, number: int) -> None:
        stated = statement(self.lines[number - 1])
        if stated and stated.name and stated.type:
            self.lines[number - 1] = self.assumption(self.lines[number - 1], stated)
        else:
            self.drop(number)

    def repair_statement(self, number: int, refused: Refusal) -> None:
        text = self.lines[number - 1]
        stated = statement(text)
        if not stated or not stated.name or refused.kind == "Taken":
            self.lines[number - 1] = ""
        elif stated.word == "define" and stated.type and not self.is_of_the_type(text, stated, refused):
            self.lines[number - 1] = self.assumption(text, stated)
            self.opaque.add(stated.name.text)
        else:
            self.drop(number)

    def is_of_the_type(self, text: str, stated: Statement, refused: Refusal) -> bool:
        """Whether the refused place is in the type of the line, or before it."""
        if refused.part:
            return refused.part == "type"
        return refused.kind in READING and bool(stated.type) and character_place(text, refused.place) <= stated.type.end

    def assumption(self, text: str, stated: Statement) -> str:
        """The line as an assumption, whose type has the place that it had."""
        assert stated.type
        start = len(text) - len(text.lstrip())
        return text[:start] + "assume".ljust(len(stated.word)) + text[start + len(stated.word) : stated.type.end]

    def drop(self, number: int) -> None:
        """Empties the line; the name that it states, or the module that it uses, is missing from then on."""
        names = [it.text for it in tokens(self.lines[number - 1])[1:2] if it.kind == "name"]
        self.missing.update(names)
        self.lines[number - 1] = ""
