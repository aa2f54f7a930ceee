"""The commands of the prompt that make a step of a proof, or several, of the program's own lines; and the ways back."""

import itertools
from typing import TYPE_CHECKING, Callable, Dict, Iterable, List

from yarrow_tools.beta import without_redexes
from yarrow_tools.terms import parse

from . import replies
from .goals import Goal
from .session import Session, is_refused
from .table import TABLE, first_word
from .typed import unsendable

if TYPE_CHECKING:
    from .prompt import Prompt

# The name of a premise that has none.
PREMISE = "h"


def usage(prompt: "Prompt", word: str) -> None:
    prompt.refuse(f"The form of the line is: {TABLE[word].form}")


def alone(prompt: "Prompt", word: str, rest: str) -> None:
    """Refuses words after a command that takes none."""
    if rest:
        usage(prompt, word)


def free_name(name: str, taken: Iterable[str]) -> str:
    """The name, with the least number after it that makes it another than these, where it is one of them."""
    known = set(taken)
    number, chosen = 0, name
    while chosen in known:
        number += 1
        chosen = f"{name}{number}"
    return chosen


def binder(goal: Goal) -> str:
    """The name of the binder of a goal that is a product as it is printed, `_` for a premise; nothing, where it is none."""
    tree = parse(goal.statement)
    return tree.text if tree and tree.kind == "@" else ""


def show_goals(prompt: "Prompt") -> None:
    replies.goals(prompt.screen, prompt.session, ())


def intros(prompt: "Prompt", rest: str) -> None:
    """With names `intro` of each; else of each binder of the goal as it is printed, and at least once."""
    goal = prompt.goal()
    names = rest.split()
    if names:
        for name in names:
            prompt.give(f"intro {name}")
    else:
        name = binder(goal) or PREMISE
        while name:
            prompt.give(f"intro {free_name(PREMISE if name == '_' else name, prompt.session.state.visible)}")
            name = binder(prompt.goal())
    show_goals(prompt)


def assumption(prompt: "Prompt", rest: str) -> None:
    alone(prompt, "assumption", rest)
    for name in reversed(prompt.goal().names):
        if not is_refused(prompt.try_(f"exact {name}")):
            prompt.screen.tell(f"exact {name}")
            show_goals(prompt)
            return
    prompt.refuse("No hypothesis has the type of the goal.")


def stepped(prompt: "Prompt", text: str) -> str:
    """The text of a term after its beta steps, which it must have."""
    found = without_redexes(text)
    if found is None:
        prompt.refuse("There are too many beta steps to do, or the term is nested too deep.")
    if found == text:
        prompt.refuse("There is no beta step to do.")
    return found


def beta(prompt: "Prompt", rest: str) -> None:
    goal = prompt.goal()
    if not rest:
        prompt.send(f"convert {stepped(prompt, goal.statement)}")
        return
    hypothesis = goal.hypothesis(rest)
    if hypothesis is None:
        prompt.refuse(f"{rest} is no hypothesis.")
    prompt.give(f"cut {free_name(rest, prompt.session.state.visible)} : {stepped(prompt, hypothesis.type)}")
    prompt.send(f"exact {rest}")


def simplify(prompt: "Prompt", rest: str) -> None:
    alone(prompt, "simplify", rest)
    goal = prompt.goal()
    found = prompt.give(f"reduce {goal.statement}")[0]
    if found == goal.statement:
        prompt.refuse("The head of the goal is final already.")
    prompt.send(f"convert {found}")


def back(prompt: "Prompt", rest: str) -> None:
    """By `undo` as far as it reaches, and else by starting anew without the lines."""
    session = prompt.session
    if rest and not rest.isdecimal():
        usage(prompt, "back")
    count = min(int(rest or 1), len(session.kept))
    if not count:
        prompt.refuse("No line yet changed anything.")
    taken_back = session.kept[-count:]
    undone = prompt.guarded(lambda: session.undo(count))
    if undone < count:
        prompt.guarded(lambda: session.without_last(count - undone))
    for line in reversed(taken_back):
        prompt.screen.text("taken back: ", line)
    show_goals(prompt)


def admission(session: Session, theorem: str, goal: Goal) -> List[str]:
    """The lines that leave a goal: the proof is given up, the goal is assumed, and the proof is begun again and ends this goal so."""
    start = max(place for place, line in enumerate(session.kept) if first_word(line) == "theorem")
    steps = [it for it in session.kept[start:] if first_word(it) != "look"]
    name = next(it for it in (f"{theorem}_{number}" for number in itertools.count(1)) if it not in session.names)
    return ["abort", f"assume {name} : {goal.abstracted()}", *steps, " ".join(["exact", name, *goal.names])]


def admit(prompt: "Prompt", rest: str) -> None:
    alone(prompt, "admit", rest)
    goal, session = prompt.goal(), prompt.session
    lines = admission(session, session.proof.theorem if session.proof else "", goal)
    if any(map(unsendable, lines)):
        prompt.refuse("The goal is too long for a line.")
    answered = prompt.guarded(lambda: session.together(lines))
    refused = [it[0] for it in answered if is_refused(it)]
    if refused:
        prompt.refuse(f"The goal can't be left: {refused[0]}")
    prompt.screen.term("", answered[1][0])
    show_goals(prompt)


PROVING: Dict[str, Callable[["Prompt", str], None]] = {
    "intros": intros,
    "assumption": assumption,
    "beta": beta,
    "simplify": simplify,
    "back": back,
    "admit": admit,
}
