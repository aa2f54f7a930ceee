"""Beta steps of terms that the program has printed, for the eye alone.

A term is `("var", i)`, `("const", name)`, `("sort", s)`, `("app", f, a)`, `("let", x, d, A, b)` or, for the kinds of
abstractions and products, `(kind, x, A, b)`. Indices count from the innermost binder."""

from typing import List, Optional, Set, Tuple

from .terms import Tree, parse

STEPS = 10_000


class OutOfSteps(Exception):
    """The term takes more steps than the eye has patience for."""


def of_tree(tree: Tree, bound: Tuple[str, ...] = ()) -> tuple:
    """The term that a tree is, with the names of the binders around it, the innermost first."""
    if tree.kind == "name":
        return ("var", bound.index(tree.text)) if tree.text in bound and tree.text != "_" else ("const", tree.text)
    if tree.kind == "sort":
        return ("sort", tree.text)
    last = len(tree.parts) - 1
    under = (tree.text,) + bound
    parts = tuple(of_tree(it, under if place == last and tree.kind != "app" else bound) for place, it in enumerate(tree.parts))
    return ("app", *parts) if tree.kind == "app" else (tree.kind, tree.text, *parts)


def changed(term: tuple, change, depth: int = 0) -> tuple:
    """The term with `change` done to each part; its second argument is how many binders are around the part."""
    kind = term[0]
    if kind in ("var", "const", "sort"):
        return term
    if kind == "app":
        return ("app", change(term[1], depth), change(term[2], depth))
    if kind == "let":
        return ("let", term[1], change(term[2], depth), change(term[3], depth), change(term[4], depth + 1))
    return (kind, term[1], change(term[2], depth), change(term[3], depth + 1))


def lift(term: tuple, by: int, place: int = 0) -> tuple:
    if term[0] == "var":
        return ("var", term[1] + by) if term[1] >= place else term
    return changed(term, lambda part, depth: lift(part, by, depth), place)


def put(term: tuple, argument: tuple, place: int = 0) -> tuple:
    """The term with the argument for the index at this place; greater indices become less by one."""
    if term[0] == "var":
        return lift(argument, place) if term[1] == place else ("var", term[1] - (term[1] > place))
    return changed(term, lambda part, depth: put(part, argument, depth), place)


def normal(term: tuple, left: List[int]) -> tuple:
    """The term without beta redexes. `left` holds how many steps may still be done."""
    if term[0] == "app":
        function, argument = normal(term[1], left), normal(term[2], left)
        if function[0] != "\\":
            return ("app", function, argument)
        left[0] -= 1
        if left[0] < 0:
            raise OutOfSteps
        return normal(put(function[3], argument), left)
    return changed(term, lambda part, _: normal(part, left))


def free(term: tuple, depth: int = 0) -> Set[object]:
    """The constants that occur, and the indices as they are counted outside of the term."""
    if term[0] == "var":
        return {term[1] - depth} if term[1] >= depth else set()
    if term[0] == "const":
        return {term[1]}
    found: Set[object] = set()

    def look(part: tuple, around: int) -> tuple:
        found.update(free(part, around))
        return part

    changed(term, look, depth)
    return found


def binder_name(name: str, body: tuple, names: Tuple[str, ...]) -> str:
    """The name by which a binder is printed, given the names around it."""
    inside = free(body)
    taken = {names[it - 1] if isinstance(it, int) else it for it in inside if it != 0}
    if name == "_" and 0 in inside:
        name = "x"
    number, chosen = 0, name
    while chosen in taken:
        number += 1
        chosen = f"{name}{number}"
    return chosen


def text_of(term: tuple, names: Tuple[str, ...] = (), level: int = 0) -> str:
    """The text of a term; level 1 is for a function and for the left side of an arrow, level 2 for an argument."""
    kind = term[0]
    if kind == "var":
        return names[term[1]]
    if kind in ("const", "sort"):
        return term[1]
    if kind == "app":
        text = f"{text_of(term[1], names, 1)} {text_of(term[2], names, 2)}"
        return f"({text})" if level == 2 else text
    name = binder_name(term[1], term[-1], names)
    body = text_of(term[-1], (name,) + names)
    if kind == "let":
        text = f"let {name} := {text_of(term[2], names)} : {text_of(term[3], names)} in {body}"
    elif kind == "@" and 0 not in free(term[3]):
        text = f"{text_of(term[2], names, 1)} -> {body}"
    else:
        text = f"{kind}{name}:{text_of(term[2], names)}. {body}"
    return f"({text})" if level else text


def without_redexes(text: str) -> Optional[str]:
    """The text of the term with its beta steps done, or nothing where it is no term or takes too many steps."""
    tree = parse(text)
    try:
        return text_of(normal(of_tree(tree), [STEPS])) if tree else None
    except (OutOfSteps, RecursionError):
        return None
