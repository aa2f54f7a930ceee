"""Refusals of the commands that work on a goal, in sentences."""

from typing import Dict, Optional, Tuple

from yarrow_tools.beta import without_redexes
from yarrow_tools.flaws import Names, Said, bound_in, defined_in, flaw_sentences, parts_that_differ, role, stem, stretch, under_binders
from yarrow_tools.refusal import Refusal
from yarrow_tools.specs import systems_with
from yarrow_tools.terms import Tree, parse

from .around import Around, Explained, Explainer
from .parts import judged, term_of
from .table import first_word


def names_in_session(term: Optional[Tree], around: Around) -> Names:
    """The names of a session, for a flaw of this term: what takes no step is a binder's name, a hypothesis and an assumption."""
    bound = bound_in(term) - defined_in(term)

    def is_fixed(name: str) -> bool:
        if name in around.state.hypotheses:
            return True
        if name not in around.known:
            return stem(name) in bound
        shown = around.ask(f"show {name}")
        return shown is not None and " := " not in shown

    return Names(around.short, is_fixed)


def computed(refused: Refusal, names: Names, around: Around) -> Tuple[str, ...]:
    """What two types that aren't convertible come to, where it can't be seen where they differ."""
    path, _, types = refused.values.partition(" ")
    have, _, want = types.partition(" ; ")
    found = under_binders(have, want, path)
    is_seen = found.under or path == "-" or parts_that_differ(have, want, path, names)
    if is_seen or (without_redexes(have), without_redexes(want)) != (have, want):
        return ()
    reduced = [around.ask(f"reduce {it}") for it in (have, want)]
    if None in reduced or reduced == [have, want]:
        return ()
    left, right = (around.short(str(it)) for it in reduced)
    return (f"Computed: {left}", f"against: {right}")


def of_a_flaw(line: str, refused: Refusal, around: Around) -> Explained:
    """Of a flaw, which has a part of the line and a path in it."""
    if refused.part == "goal":
        return of_the_goal(line, refused, around)
    term = term_of(line, refused.part)
    found = stretch(term, refused.path)
    what = "This" if found else f"The part {refused.path} of the {refused.part}"
    names = names_in_session(term, around)
    said = flaw_sentences(Said(what, refused.kind, refused.values, role(term, refused.path)), names, systems_with)
    if refused.kind == "NotConvertible":
        said += computed(refused, names, around)
    return Explained(found or stretch(term, "-"), said)


def is_seen_in_goal(line: str, tree: Optional[Tree]) -> bool:
    """Whether a path in the goal leads into its statement as it is shown: `intro` computes one that is no product first, and
    others look at another statement."""
    word = first_word(line)
    return word == "cut" or word == "intro" and tree is not None and tree.kind == "@"


def of_the_goal(line: str, refused: Refusal, around: Around) -> Explained:
    """Of a flaw of the goal, or of what takes its place."""
    if refused.kind == "NotConvertible" and first_word(line) in ("convert", "unfold"):
        return of_another_statement(line, refused, around)
    text = around.short(around.goal.statement) if around.goal else ""
    tree = parse(text)
    found = stretch(tree, refused.path) if is_seen_in_goal(line, tree) else None
    what = "This" if found else f"The part {refused.path} of the goal" if refused.path != "-" else "The goal"
    said = flaw_sentences(Said(what, refused.kind, refused.values, role(tree, refused.path)), names_in_session(tree, around), systems_with)
    return Explained(found, said, text, "In the goal:" if found else "")


def of_another_statement(line: str, refused: Refusal, around: Around) -> Explained:
    """Of a statement that is not convertible with the goal."""
    path, _, types = refused.values.partition(" ")
    new, _, goal = types.partition(" ; ")
    said = [f"{around.short(new)} is not convertible with the goal {around.short(goal)}."]
    names = names_in_session(None, around)
    parts = parts_that_differ(new, goal, path, names)
    said += [f"There {around.short(parts[0])} is not {around.short(parts[1])}."] if parts else computed(refused, names, around)
    return Explained(stretch(term_of(line, "type"), "-"), tuple(said))


def of_no_product(line: str, refused: Refusal, around: Around) -> Explained:
    """Of a goal that `intro` finds no product in."""
    found = around.short(refused.values)
    is_as_it_is = around.goal is not None and refused.values == around.goal.statement
    return Explained(None, (f"The goal is no product{'' if is_as_it_is else f', and computed it is {found}'}, so nothing can be taken from it.",))


def binder_of(type_: str, number: int) -> str:
    """The name of the binder with this number, from 1, of a type as it is printed; nothing, where it has none."""
    tree = parse(type_)
    while tree and tree.kind == "@" and number > 1:
        tree, number = tree.parts[1], number - 1
    return tree.text if tree and tree.kind == "@" and tree.text != "_" else ""


def of_a_function(line: str, refused: Refusal, around: Around) -> Explained:
    """Of a term that `apply` can't put for the goal: its type, and the goal."""
    term = term_of(line, "term")
    text = line[term.start : term.end] if term else ""
    found = judged(around.ask(f"infer {text}") or "")
    number = int(refused.words[0])
    said = [f"Its type: {around.short(found.type)}"] if found else []
    said += [f"The goal: {around.short(around.goal.statement)}"] if around.goal else []
    if refused.kind == "NoMatch":
        after = f"After {number} argument{'s' * (number != 1)} its type" if number else "Its type"
        said.append(f"{after} is no function any more, and what is left is not the goal.")
    else:
        name = binder_of(found.type, number) if found else ""
        said.append(f"The goal does not say what argument {number}{f' ({name})' if name else ''} is: write it after {around.short(text)}.")
    return Explained(stretch(term, "-"), tuple(said))


OF_A_STEP: Dict[str, Explainer] = {"NotProduct": of_no_product, "NoMatch": of_a_function, "Undetermined": of_a_function}
