"""The systems that come along: what their files say."""

import functools
import os
from typing import List, NamedTuple, Optional, Sequence, Tuple

try:
    import tomllib
except ImportError:  # (before Python 3.11; what is said of systems is then left out)
    tomllib = None  # type: ignore[assignment]

ROOT = os.path.dirname(os.path.dirname(os.path.dirname(os.path.realpath(__file__))))
SYSTEMS = os.path.join(ROOT, "systems")
ENDING = ".toml"


class System(NamedTuple):
    """A system of a file: its name, the first line of its comment, and its sorts, axioms and rules."""

    name: str
    title: str
    comment: Tuple[str, ...]
    sorts: Tuple[str, ...]
    axioms: Tuple[Tuple[str, ...], ...]
    rules: Tuple[Tuple[str, ...], ...]

    def has_rule(self, domain: str, body: str) -> bool:
        return any(it[:2] == (domain, body) for it in self.rules)


def read_system(path: str) -> Optional[System]:
    """The system of a file, or nothing where the file isn't of the form of those that come along."""
    try:
        with open(path, encoding="utf-8") as file:
            text = file.read()
        table = tomllib.loads(text) if tomllib else {}
        comment = tuple(it[1:].strip() for it in text.splitlines() if it.startswith("#"))
        pairs = tuple(tuple(it) for it in table["axioms"])
        rules = tuple(tuple(it) for it in table["rules"])
        name = os.path.splitext(os.path.basename(path))[0]
        return System(name, comment[0] if comment else "", comment, tuple(table["sorts"]), pairs, rules)
    except (OSError, ValueError, KeyError, TypeError):
        return None


@functools.lru_cache(maxsize=None)
def systems() -> Tuple[System, ...]:
    """The systems that come along: those with fewer sorts and rules come first."""
    files = sorted(it for it in os.listdir(SYSTEMS) if it.endswith(ENDING)) if os.path.isdir(SYSTEMS) else []
    found = [read_system(os.path.join(SYSTEMS, it)) for it in files]
    return tuple(sorted((it for it in found if it), key=lambda it: (len(it.sorts), len(it.rules), it.name)))


def systems_with(domain: str, body: str) -> Sequence[str]:
    """The names of the systems that have a rule for these two sorts."""
    return [it.name for it in systems() if it.has_rule(domain, body)]


def system_names() -> List[str]:
    return sorted(it[: -len(ENDING)] for it in os.listdir(SYSTEMS) if it.endswith(ENDING))


def spec_path(word: str) -> str:
    """The file that a word of the command line means: that file, or else the system of this name that comes along."""
    known = os.path.join(SYSTEMS, word + ENDING)
    return known if not os.path.exists(word) and os.path.exists(known) else word
