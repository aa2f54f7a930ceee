"""Names of modules that are open: they are typed and shown without their module, and sent with it."""

import re
from typing import Callable, Dict, FrozenSet, Iterator, List, Tuple

from yarrow_tools.terms import Tree
from yarrow_tools.tokens import tokens

from .parts import terms_of
from .state import State
from .table import Flag, first_word, has

# Commands with a name of what is declared, beside those with terms.
WITH_A_NAME = ("show", "unfold")
# A name of two parts, as it is printed.
LONG = re.compile(r"(?<![\w.'])([^\W\d]\w*)\.([^\W\d]\w*)(?![\w.])")


def unbound(tree: Tree, bound: FrozenSet[str] = frozenset()) -> Iterator[Tree]:
    """The names of one part in a term that no binder around them binds."""
    if tree.kind == "name" and "." not in tree.text and tree.text not in bound:
        yield tree
    last = len(tree.parts) - 1
    for place, part in enumerate(tree.parts):
        yield from unbound(part, bound | {tree.text} if place == last and tree.kind != "app" else bound)


class Naming:
    """Which modules are open. `state` says what is declared."""

    def __init__(self, state: Callable[[], State]):
        self.state = state
        self.opened: Tuple[str, ...] = ()

    def modules(self) -> List[str]:
        """The labels under which names are declared."""
        return list(dict.fromkeys(it.partition(".")[0] for it in self.state().names if "." in it))

    def meant(self, name: str) -> List[str]:
        """The long names that this short one may mean."""
        names = self.state().names
        return [f"{it}.{name}" for it in self.opened if f"{it}.{name}" in names]

    def is_taken(self, name: str) -> bool:
        """Whether the short name is one already."""
        state = self.state()
        return name in state.names or name in state.hypotheses

    def short(self, text: str) -> str:
        """The text with short names, where they can't be mistaken for others."""
        if not self.opened:
            return text
        inside = {it.text for it in tokens(text) if it.kind == "name"}

        def shortened(found: "re.Match[str]") -> str:
            module, name = found.groups()
            is_clear = module in self.opened and name not in inside and not self.is_taken(name) and len(self.meant(name)) == 1
            return name if is_clear else found[0]

        return LONG.sub(shortened, text)

    def long(self, line: str) -> str:
        """The line with long names for the short ones that nothing else binds."""
        if not self.opened or not has(line, Flag.TERMS) and first_word(line) not in WITH_A_NAME:
            return line
        found: Dict[int, Tuple[str, str]] = {}
        for tree in terms_of(line).values():
            for it in unbound(tree):
                meant = [] if self.is_taken(it.text) else self.meant(it.text)
                if len(meant) == 1:
                    start = line.index(it.text, it.start)
                    found[start] = (it.text, meant[0])
        for start, (name, meant_name) in sorted(found.items(), reverse=True):
            line = line[:start] + meant_name + line[start + len(name) :]
        return line
