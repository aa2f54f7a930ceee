"""Refusals of the commands that take in modules and certificates, in sentences."""

from typing import Dict

from yarrow_tools import sentences
from yarrow_tools.refusal import Refusal, refusal_of_line
from yarrow_tools.tokens import tokens

from .around import Around, Explained, Explainer


def of_a_file(line: str, refused: Refusal, around: Around) -> Explained:
    """Of a line of a module file."""
    module = tokens(line)[1].text
    source = around.library.source(module)
    number, _, said = refused.values.partition(" ")
    if source is None:
        return Explained(None, (f"Line {number} of the module {module}: {said}",))
    place, note = sentences.explained(source, refusal_of_line(said, module, int(number)))
    return Explained((note.start, note.end), note.sentences, source.line(place), f"In line {place} of {source.path}:")


def of_a_record(_line: str, refused: Refusal, _around: Around) -> Explained:
    """Of a declaration of a certificate whose derivation does not hold."""
    name, node, *why = refused.words
    return Explained(None, (f"The certificate's derivation of {name} breaks a rule at its node {node}: {' '.join(why)}",))


def of_a_certificate(_line: str, refused: Refusal, _around: Around) -> Explained:
    return Explained(None, (f"The certificate can't be read: {refused.values}",))


def of_an_argument(line: str, refused: Refusal, around: Around) -> Explained:
    """Of an argument of `instance` that costs too much, or makes a term too large."""
    number, kind = refused.words
    why = "the budget of the line is used up" if kind == "Spent" else "a term on the way is deeper than 2,000 or larger than 1,000,000"
    return Explained(None, (f"Argument {number}: {why}.",))


OF_A_MODULE: Dict[str, Explainer] = {
    "BadFile": of_a_file,
    "Declaration": of_a_file,
    "Faulty": of_a_record,
    "Unreadable": of_a_certificate,
    "argument": of_an_argument,
}
