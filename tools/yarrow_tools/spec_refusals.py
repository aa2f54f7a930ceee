"""What is wrong with a specification file, in sentences."""

import re
from typing import NamedTuple

SPELLED = "A sort is spelled *, #, or ' and an identifier, each in double quotes, as in [\"*\", \"#\", \"'type\"]."
SENTENCES = {
    "NotToml": "This is no document of TOML, or not UTF-8: look for a missing comma, bracket or quote.",
    "Shape sorts": f"sorts is missing, or is no list of spellings. {SPELLED}",
    "Shape axioms": f"axioms is missing, or is no list of pairs such as [\"*\", \"#\"]; without axioms it is []. {SPELLED}",
    "Shape rules": f"rules is missing, or is no list of pairs or triples such as [\"*\", \"#\"]; without rules it is []. {SPELLED}",
    "TooManySorts": "There are {0} sorts, and at most 64 are allowed.",
    "DuplicateSort": "The sorts at places {0} and {1} are the same; the first has place 0.",
    "UnknownSort Axiom": "The axiom at place {0} has a sort that isn't in sorts; the first has place 0.",
    "UnknownSort Rule": "The rule at place {0} has a sort that isn't in sorts; the first has place 0.",
    "AxiomClash": "The axioms at places {0} and {1} give one sort two types; the first has place 0.",
    "RuleClash": "The rules at places {0} and {1} give two sorts two results; the first has place 0.",
}
# The key that a word of a refusal speaks of.
KEYS = {
    **dict.fromkeys(("sorts", "TooManySorts", "DuplicateSort"), "sorts"),
    **dict.fromkeys(("axioms", "Axiom", "AxiomClash"), "axioms"),
    **dict.fromkeys(("rules", "Rule", "RuleClash"), "rules"),
}


class SpecRefusal(NamedTuple):
    """A sentence about a specification file, and the line that it is about, from 1."""

    line: int
    sentence: str


def spec_refusal(printed: str, text: str) -> SpecRefusal:
    """What `refused system ..` says of the file with this text."""
    words = printed.split(" ")[2:]
    two = " ".join(words[:2])
    said = SENTENCES.get(two)
    values = words[2:]
    if said is None:
        said, values = SENTENCES.get(words[0]), words[1:]
    if said is None and words[0] == "Shape":
        said, values = "{0} is no key of a specification; they are sorts, axioms and rules.", [" ".join(words[1:])]
    said = said.format(*values) if said and "{0}" in said else said or printed
    key = next((KEYS[it] for it in words if it in KEYS), words[1] if words[0] == "Shape" and len(words) > 1 else "")
    return SpecRefusal(line_of_key(text, key), said)


def line_of_key(text: str, key: str) -> int:
    lines = text.split("\n")
    return next((number for number, it in enumerate(lines, 1) if key and re.match(rf"\s*\"?{re.escape(key)}\"?\s*=", it)), 1)
