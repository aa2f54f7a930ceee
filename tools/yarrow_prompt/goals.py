"""The goals of an open proof, as the program prints them, and how they are shown."""

from typing import List, NamedTuple, Optional, Sequence, Tuple

from .drawing import Screen

GOALS, GOAL = "goals ", "goal "
BETWEEN = ", "
# A rule takes so many columns at most, and so many goals after the first are shown, each in a line.
WIDEST, OTHERS = 40, 3


class Hypothesis(NamedTuple):
    name: str
    type: str


class Goal(NamedTuple):
    """What is to be proved from which hypotheses."""

    hypotheses: Tuple[Hypothesis, ...]
    statement: str

    @property
    def names(self) -> List[str]:
        return [it.name for it in self.hypotheses]

    def hypothesis(self, name: str) -> Optional[Hypothesis]:
        return next((it for it in self.hypotheses if it.name == name), None)

    def abstracted(self) -> str:
        """The product over the hypotheses, whose proof is a function that takes them."""
        return "".join(f"@{it.name}:{it.type}. " for it in self.hypotheses) + self.statement


class Proof(NamedTuple):
    """An open proof of a theorem, with the goals that are left, of which the first is worked on."""

    theorem: str
    goals: Tuple[Goal, ...]


def goal_of(reply: str) -> Goal:
    """The goal of a line such as `goal A : *, x : A |- A`. No token has a comma or a bar in it."""
    before, _, statement = reply[len(GOAL) :].partition("|- ")
    pairs = [it.partition(" : ") for it in before.strip().split(BETWEEN)] if before else []
    return Goal(tuple(Hypothesis(name, type_) for name, _, type_ in pairs), statement)


def count_of(reply: str) -> Optional[int]:
    """How many goals are left by a line such as `goals 2`; nothing, where the line is another."""
    return int(reply[len(GOALS) :]) if reply.startswith(GOALS) else None


def goals_of(replies: Sequence[str]) -> Tuple[Goal, ...]:
    """The goals that replies have."""
    return tuple(goal_of(it) for it in replies if it.startswith(GOAL))


def show_goal(screen: Screen, goal: Goal, head: str) -> None:
    """Shows a goal under its head, a hypothesis a line, and the statement under a rule."""
    screen.put(head, "quiet")
    for it in goal.hypotheses:
        screen.term(f"  {it.name} : ", it.type, 6)
    screen.put("  " + ("─" if screen.signs else "-") * min(WIDEST, screen.width() - 2), "quiet")
    screen.term("  ", goal.statement, 6, "head")


def show_proof(screen: Screen, proof: Proof) -> None:
    """Shows the goal that is worked on, and briefly those after it."""
    count = len(proof.goals)
    if not count:
        screen.tell("no goal is left: qed ends the proof")
        return
    show_goal(screen, proof.goals[0], "goal" if count == 1 else f"goal 1 of {count}")
    for number, goal in enumerate(proof.goals[1 : 1 + OTHERS], 2):
        screen.brief(f"then {number}: ", goal.statement)
    if count > 1 + OTHERS:
        screen.put(f"and {count - 1 - OTHERS} more", "quiet")


def show_all(screen: Screen, proof: Proof) -> None:
    """Shows all goals whole."""
    count = len(proof.goals)
    if count < 2:
        show_proof(screen, proof)
    else:
        for number, goal in enumerate(proof.goals, 1):
            show_goal(screen, goal, f"goal {number} of {count}")
