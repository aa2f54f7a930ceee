"""A proof in numbered lines: what a body takes, what each application in it proves, and by what."""

from dataclasses import dataclass, field
from typing import Callable, Dict, Iterator, List, Optional, Sequence, Set, Tuple

from yarrow_tools.beta import without_redexes
from yarrow_tools.terms import Tree, parse

# The binders around a part, the outermost first, each with its type.
Binders = Tuple[Tuple[str, str], ...]


@dataclass
class Step:
    """A line of a proof. `uses` are the steps of the arguments that have their own, by their place among `arguments`; `first` is
    the first step that belongs to this one. A step that takes something has its binder alone."""

    around: Binders
    text: str
    head: str = ""
    arguments: Sequence[str] = ()
    uses: Dict[int, int] = field(default_factory=dict)
    first: int = 0
    binder: str = ""
    type: str = "?"

    @property
    def question(self) -> str:
        """The part under the binders around it, as a term without free names of theirs."""
        return "infer " + "".join(f"\\{name}:{type_}. " for name, type_ in self.around) + f"({self.text})"


def spine(tree: Tree) -> Tuple[Tree, List[Tree]]:
    """The head of an application, and its arguments from left to right."""
    arguments: List[Tree] = []
    while tree.kind == "app":
        arguments.insert(0, tree.parts[1])
        tree = tree.parts[0]
    return tree, arguments


class Outline:
    """The steps of a body, in the order in which they are shown."""

    def __init__(self, body: str):
        self.body = body
        self.steps: List[Step] = []
        tree = parse(body)
        if tree:
            self.plan(tree, ())

    def written(self, tree: Tree) -> str:
        return self.body[tree.start : tree.end]

    def plan(self, tree: Tree, around: Binders) -> int:
        """Adds the steps of a part, and answers with the last of them, which is the part's own."""
        first = len(self.steps)
        while tree.kind == "\\":
            type_ = self.written(tree.parts[0])
            self.steps.append(Step(around, type_, binder=tree.text))
            around, tree = (*around, (tree.text, type_)), tree.parts[1]
        head, arguments = spine(tree)
        uses = {place: self.plan(it, around) for place, it in enumerate(arguments) if it.kind in ("app", "\\", "let")}
        self.steps.append(Step(around, self.written(tree), self.written(head), list(map(self.written, arguments)), uses, first))
        return len(self.steps) - 1

    def ask(self, infer: Callable[[Sequence[str]], Sequence[Optional[str]]]) -> None:
        """Finds the types of the steps. `infer` gives the types of terms, by lines that ask for them, and nothing where there is
        none."""
        asked = [it for it in self.steps if not it.binder]
        for step, type_ in zip(asked, infer([it.question for it in asked])):
            step.type = under(type_, len(step.around)) if type_ else "?"

    def hidden(self) -> Set[int]:
        """The steps of arguments that are types, or functions that give some: they are written where they are used."""
        found: Set[int] = set()
        for step in self.steps:
            for used in step.uses.values():
                if gives_a_sort(self.steps[used].type):
                    found.update(range(self.steps[used].first, used + 1))
        return found

    def lines(self, short: Callable[[str], str]) -> Iterator[Tuple[str, str]]:
        """The lines of the proof, each with what comes before it."""
        hidden = self.hidden()
        shown = [it for it in range(len(self.steps)) if it not in hidden]
        numbers = {it: number for number, it in enumerate(shown, 1)}
        for it in shown:
            step = self.steps[it]
            head = f"{numbers[it]:3}  {'| ' * len(step.around)}"
            if step.binder:
                yield head + f"let {step.binder} : ", short(step.text)
            else:
                used = [numbers.get(step.uses.get(place, -1)) for place in range(len(step.arguments))]
                words = [f"({number})" if number else short(text) for number, text in zip(used, step.arguments)]
                yield head, f"{short(step.type)}   by {' '.join([short(step.head), *words])}"


def under(type_: str, count: int) -> str:
    """What is left of a type after so many products, with its beta steps done."""
    for _ in range(count):
        tree = parse(type_)
        if not tree or tree.kind != "@":
            return "?"
        type_ = type_[tree.parts[1].start : tree.parts[1].end]
    return without_redexes(type_) or type_


def gives_a_sort(type_: str) -> bool:
    """Whether what has this type is a type, or a function that gives one."""
    tree = parse(type_)
    while tree and tree.kind == "@":
        tree = tree.parts[1]
    return tree is not None and tree.kind == "sort"
