"""What is wrong with a term that the system has no type for."""

import re
from typing import Callable, FrozenSet, List, NamedTuple, Optional, Sequence, Tuple

from .beta import without_redexes
from .terms import Tree, parse


# What a part is to the term around it.
BODY, ARGUMENT, OTHER = "body", "argument", "other"


class Said(NamedTuple):
    """What the program said of a part of a term: what the part is called at the start of a sentence, the kind of the flaw with its
    values, and what the part is to the term around it."""

    what: str
    kind: str
    values: str
    role: str = OTHER


def stem(name: str) -> str:
    """The name without the number by which the printer tells it from others."""
    return name.rstrip("0123456789")


def stems(tree: Optional[Tree], kinds: Sequence[str]) -> FrozenSet[str]:
    """The stems of the names that parts of these kinds have in a term."""
    if not tree:
        return frozenset()
    own = {stem(tree.text)} if tree.kind in kinds else set()
    return frozenset(own.union(*(stems(it, kinds) for it in tree.parts)))


def defined_in(tree: Optional[Tree]) -> FrozenSet[str]:
    """The stems of the names that a term defines locally."""
    return stems(tree, ("let",))


def bound_in(tree: Optional[Tree]) -> FrozenSet[str]:
    """The stems of the names that functions and products bind in a term."""
    return stems(tree, ("\\", "@"))


class Names(NamedTuple):
    """How the names in printed types are written here, and which of them take no step."""

    short: Callable[[str], str]
    is_fixed: Callable[[str], bool]


def names_in_module(module: str, assumed: FrozenSet[str], term: Optional[Tree]) -> Names:
    """The names of a module that assumes these, for a flaw of this term. What takes no step is a binder's name, which has no dot,
    and an assumption's."""
    defined = defined_in(term)

    def is_fixed(name: str) -> bool:
        label, dot, last = name.rpartition(".")
        if not dot:
            return stem(name) not in defined
        return label in ("_", module) and last in assumed

    return Names(lambda text: without_module(text, module), is_fixed)


class Difference(NamedTuple):
    """Two types that aren't convertible, under binders that both have, and the rest of the path to where they differ."""

    have: str
    want: str
    under: Tuple[str, ...]
    path: str


def without_module(text: str, module: str) -> str:
    """The text with short names for what this module declares, as they are written in it."""
    return re.sub(rf"(?<![\w.'])(?:_|{re.escape(module)})\.(?=[^\W\d])", "", text)


def under_binders(have: str, want: str, path: str) -> Difference:
    """Takes off the binders in which both types agree, as far as the path leads through them."""
    under: List[str] = []
    while path.startswith("1"):
        left, right = parse(have), parse(want)
        if not left or not right or (left.kind, right.kind) != ("@", "@") or left.text != right.text:
            break
        domains = [text[it.parts[0].start : it.parts[0].end] for text, it in ((have, left), (want, right))]
        if domains[0] != domains[1]:
            break
        under.append(domains[0] if left.text == "_" else f"{left.text} : {domains[0]}")
        have, want = (text[it.parts[1].start : it.parts[1].end] for text, it in ((have, left), (want, right)))
        path = path[2:] or "-"
    return Difference(have, want, tuple(under), path)


def is_form(tree: Tree, names: Names) -> bool:
    """Whether the term is its own weak head normal form by its looks: no step can be done at its head."""
    head = tree
    while head.kind == "app":
        head = head.parts[0]
    return head.kind == "sort" or (head.kind == "name" and names.is_fixed(head.text)) or (head is tree and head.kind in ("\\", "@"))


def parts_that_differ(have: str, want: str, path: str, names: Names) -> Optional[Tuple[str, str]]:
    """The parts of two types at the path, which leads into their weak head normal forms, where these are the types as they are."""
    left, right = parse(have), parse(want)
    if path == "-" or not left or not right:
        return None
    for step in path.split("."):
        if not is_form(left, names) or not is_form(right, names):
            return None
        if left.kind != right.kind or int(step) >= min(len(left.parts), len(right.parts)):
            return None
        left, right = left.parts[int(step)], right.parts[int(step)]
    parts = have[left.start : left.end], want[right.start : right.end]
    return parts if parts[0] != parts[1] else None


def with_steps(text: str, names: Names) -> str:
    """The type, and what it is after its beta steps, where they change it."""
    stepped = without_redexes(text)
    shown = names.short(text)
    return shown if stepped in (None, text) else f"{shown}, that is {names.short(stepped)}"


def not_convertible(what: str, values: str, names: Names) -> Tuple[str, ...]:
    """Of a part that has one type where another is wanted."""
    path, _, types = values.partition(" ")
    have, _, want = types.partition(" ; ")
    found = under_binders(have, want, path)
    said = [f"{what} has the type {with_steps(found.have, names)}, and should have the type {with_steps(found.want, names)}."]
    if found.under:
        said.append(f"(Both are under {', '.join(map(names.short, found.under))}.)")
    parts = parts_that_differ(found.have, found.want, found.path, names)
    if parts:
        said.append(f"There {names.short(parts[0])} is not {names.short(parts[1])}.")
    return tuple(said)


def not_a_sort(what: str, values: str, names: Names, role: str) -> Tuple[str, ...]:
    """Of a part that isn't a type where one is wanted, or whose type has no sort."""
    if role == BODY:
        said = f"{what} has the type {names.short(values)}, which has no sort in this system, so that the whole has no type."
    elif role == ARGUMENT:
        said = f"{what} should have the type {names.short(values)}, which has no sort in this system."
    else:
        said = f"{what} is used as a type, and is none: {with_steps(values, names)} is no sort."
    return (said,)


def no_rule(what: str, values: str, systems_with: Callable[[str, str], Sequence[str]]) -> Tuple[str, ...]:
    """Of a product that the system lacks."""
    domain, body = values.split(" ")
    said = f"{what} needs a product of a domain of sort {domain} and a body of sort {body}, and the system has no rule ({domain}, {body})."
    systems = systems_with(domain, body)
    return (said, f"Systems that have it: {', '.join(systems)}.") if systems else (said,)


def flaw_sentences(said: Said, names: Names, systems_with: Callable[[str, str], Sequence[str]]) -> Tuple[str, ...]:
    """What a flaw says of a part."""
    what, kind, values = said.what, said.kind, said.values
    if kind == "NotConvertible":
        return not_convertible(what, values, names)
    if kind == "NoRule":
        return no_rule(what, values, systems_with)
    if kind == "NoAxiom":
        return (f"The sort {values} has no type in this system.",)
    if kind == "NotASort":
        return not_a_sort(what, values, names, said.role)
    return (f"{what} is applied to an argument, and is no function: it has the type {with_steps(values, names)}.",)


def role(tree: Optional[Tree], path: str) -> str:
    """What the part to which a path leads is to the term around it: the body of a function or of a local definition, an argument,
    or something else, such as a type."""
    around, _, step = ("-." + path).rpartition(".") if path != "-" else ("-", "", "")
    outer = tree.part(around[2:] or "-") if tree and step else None
    if not outer:
        return OTHER
    return {("\\", "1"): BODY, ("let", "2"): BODY, ("app", "1"): ARGUMENT}.get((outer.kind, step), OTHER)


def stretch(tree: Optional[Tree], path: str) -> Optional[Tuple[int, int]]:
    """The stretch of a line to which a path leads in a term of it."""
    part = tree.part(path) if tree else None
    return (part.start, part.end) if part else None
