"""What is declared and open in a session, as far as the lines that were taken and their replies say it."""

import re
from dataclasses import dataclass, field
from typing import Callable, Dict, List, Optional, Sequence, Set

from yarrow_tools.tokens import identifier_end, tokens

from .goals import Proof, goals_of
from .library import Library
from .table import Flag, first_word, has

DECLARED = re.compile(r"(assumed|defined) (\S+) : (.*)", re.DOTALL)


def theorem_of(line: str) -> str:
    """The name of the theorem that a line begins."""
    rest = line.split(None, 1)[1]
    return rest[: identifier_end(rest, 0)]


@dataclass
class State:
    """`names` has the declarations in their order, each with its type where it is known, and `bodies` those that have a body.
    `drafted` are those that aren't committed, and `here` those that this session declared. `proof` is the one that is open."""

    names: Dict[str, Optional[str]] = field(default_factory=dict)
    bodies: Set[str] = field(default_factory=set)
    drafted: List[str] = field(default_factory=list)
    here: List[str] = field(default_factory=list)
    proof: Optional[Proof] = None

    @property
    def hypotheses(self) -> List[str]:
        """The names of the hypotheses of the goal that is worked on."""
        return self.proof.goals[0].names if self.proof and self.proof.goals else []

    @property
    def visible(self) -> List[str]:
        """All names that a line may have."""
        return [*self.names, *self.hypotheses]

    def learn(self, line: str, replies: Sequence[str], library: Library) -> None:
        """Takes note of a line that was taken."""
        word = first_word(line)
        if word == "theorem":
            self.proof = Proof(theorem_of(line), goals_of(replies))
        elif has(line, Flag.GOALS) and self.proof:
            self.proof = self.proof._replace(goals=goals_of(replies))
        elif word in LESSONS:
            LESSONS[word](self, [it.text for it in tokens(line)], library)
        declared = DECLARED.fullmatch(replies[0]) if replies and has(line, Flag.KEPT) else None
        if declared:
            self.draft(declared[2], declared[3], declared[1] == "defined")

    def declare(self, name: str, type_: Optional[str], has_body: bool) -> None:
        self.names[name] = type_
        if has_body:
            self.bodies.add(name)

    def draft(self, name: str, type_: Optional[str], has_body: bool) -> None:
        """Puts a declaration of this session in the draft."""
        self.declare(name, type_, has_body)
        self.drafted.append(name)
        self.here.append(name)

    def empty_draft(self) -> None:
        for name in self.drafted:
            self.names.pop(name)
            self.bodies.discard(name)
            self.here.remove(name)
        self.drafted = []


# What follows of lines whose reply doesn't say it, from the tokens of the line.


def committed(state: State, _words: Sequence[str], _library: Library) -> None:
    state.drafted = []


def discarded(state: State, _words: Sequence[str], _library: Library) -> None:
    state.empty_draft()


def renamed(state: State, words: Sequence[str], _library: Library) -> None:
    """The types of the draft may have the old name in them, so they aren't known any more."""
    old, new = words[1:3]

    def name(it: str) -> str:
        return new if it == old else it

    state.names = {name(it): None if it in state.drafted else type_ for it, type_ in state.names.items()}
    state.bodies = {name(it) for it in state.bodies}
    state.drafted, state.here = list(map(name, state.drafted)), list(map(name, state.here))


def loaded(state: State, words: Sequence[str], library: Library) -> None:
    """Of `load M`, or `instance M L`, whose names have the label M or L."""
    label = words[1 if words[0] == "load" else 2]
    for name, has_body in library.declared_in(words[1]):
        state.declare(f"{label}.{name}", None, has_body)


def accepted(state: State, words: Sequence[str], library: Library) -> None:
    for name, has_body in library.certified_in(words[1]):
        state.declare(name, None, has_body)


def ended(state: State, _words: Sequence[str], _library: Library) -> None:
    state.proof = None


LESSONS: Dict[str, Callable[[State, Sequence[str], Library], None]] = {
    "commit": committed,
    "discard": discarded,
    "rename": renamed,
    "load": loaded,
    "instance": loaded,
    "accept": accepted,
    "qed": ended,
    "abort": ended,
}
