"""What TAB offers, by the table of commands."""

import glob
import os
from typing import TYPE_CHECKING, Callable, Dict, List, Sequence

from yarrow_tools.tokens import tokens

from .table import STATES, SWITCHES, TABLE, Offer, command_of

if TYPE_CHECKING:
    from .prompt import Prompt

# What separates the words that are completed.
DELIMITERS = " \t()\\@:;"


def fits(name: str, begun: str) -> bool:
    """Whether a name begins so, or its last part does."""
    return name.startswith(begun) or bool(begun) and name.rpartition(".")[2].startswith(begun)


def files(begun: str) -> List[str]:
    return [it + "/" if os.path.isdir(it) else it for it in glob.glob(glob.escape(begun) + "*")]


def bodies(prompt: "Prompt") -> List[str]:
    """The names in the goal that have a body."""
    state = prompt.session.state
    goal = state.proof.goals[0].statement if state.proof and state.proof.goals else ""
    return [it.text for it in tokens(goal) if it.kind == "name" and it.text in state.bodies]


def modules(prompt: "Prompt") -> List[str]:
    """The files of the start."""
    return [*prompt.session.library.modules, *prompt.session.library.certificates]


# The words from which those are chosen that fit, where the words before them don't matter.
POOLS: Dict[Offer, Callable[["Prompt"], Sequence[str]]] = {
    Offer.NAMES: lambda prompt: prompt.session.state.visible,
    Offer.BODIES: bodies,
    Offer.MODULES: modules,
    Offer.LOADED: lambda prompt: prompt.naming.modules(),
    Offer.COMMANDS: lambda _: list(TABLE),
}


def settings(before: Sequence[str]) -> Sequence[str]:
    return SWITCHES if len(before) == 1 else STATES


def offers(prompt: "Prompt", before: str, begun: str) -> List[str]:
    """The words that may stand for the one that is begun, after what is before it in the line."""
    words = before.split()
    command = command_of(before)
    if words and command is None:
        return []
    offer = command.completes if words and command else Offer.COMMANDS
    if offer is Offer.FILES:
        return sorted(files(begun))
    pool = settings(words) if offer is Offer.SETTINGS else POOLS.get(offer, lambda _: [])(prompt)
    return sorted({it for it in pool if fits(it, begun)})


def ended(found: List[str]) -> List[str]:
    """The offers, with a blank after the only one where a word is whole with it."""
    return [f"{found[0]} "] if len(found) == 1 and not found[0].endswith("/") else found
