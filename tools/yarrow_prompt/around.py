"""What a refused line is explained by: what is declared and open, and what the program says when it is asked."""

from dataclasses import dataclass, field
from typing import Callable, List, NamedTuple, Optional, Tuple

from yarrow_tools.refusal import Refusal

from .goals import Goal
from .library import Library
from .state import State

# Asks the program one line; what it replies, or nothing where it refuses.
Ask = Callable[[str], Optional[str]]


@dataclass(frozen=True)
class Around:
    """`short` makes of a term's text what is shown of its names."""

    ask: Ask
    state: State = field(default_factory=State)
    library: Library = field(default_factory=Library)
    short: Callable[[str], str] = str

    @property
    def known(self) -> List[str]:
        return self.state.visible

    @property
    def goal(self) -> Optional[Goal]:
        """The goal that is worked on."""
        return self.state.proof.goals[0] if self.state.proof and self.state.proof.goals else None


class Explained(NamedTuple):
    """Sentences on a refused line, and the stretch that they speak of, where there is one: of that line, or of another text, of
    which is said before where it is."""

    stretch: Optional[Tuple[int, int]]
    sentences: Tuple[str, ...]
    text: str = ""
    where: str = ""


# How a kind of refusal of a line is explained.
Explainer = Callable[[str, Refusal, Around], Explained]
