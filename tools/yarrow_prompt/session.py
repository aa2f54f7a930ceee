"""One session over a child: the lines that were taken, and what is declared and open after them."""

from typing import Dict, List, Optional, Sequence

from .engine import Ended, Engine, Round
from .goals import Proof, count_of, goals_of
from .library import Library
from .state import State, theorem_of
from .table import Flag, first_word, has

# The program has read as much as it reads in one run.
INPUT_USED_UP = 8
REFUSED = "refused "


def is_refused(replies: Sequence[str]) -> bool:
    return bool(replies) and replies[0].startswith(REFUSED)


def replies_by_line(count: int, replies: Sequence[str]) -> List[List[str]]:
    """The replies of a round to so many lines that change something, each with its own: after a number of goals comes the first of
    them, and after a look perhaps what is taken."""
    found: List[List[str]] = []
    place = 0
    for _ in range(count):
        end = place + 1
        first, after = [*replies[place : place + 2], "", ""][:2]
        if count_of(first) or first.startswith("seen ") and after.startswith("taken "):
            end += 1
        found.append(list(replies[place:end]))
        place = end
    return found


class Session:
    """`kept` are the lines that were taken and change something; given again, they lead to the same state. `undo` reaches so many of
    the last ones as `reached` says."""

    def __init__(self, engine: Engine, library: Optional[Library] = None):
        self.engine, self.library = engine, library or Library()
        self.kept: List[str] = []
        self.reached = 0
        self.state = State()
        self.saved = True

    @property
    def names(self) -> Dict[str, Optional[str]]:
        return self.state.names

    @property
    def proof(self) -> Optional[Proof]:
        return self.state.proof

    def ask(self, lines: Sequence[str]) -> Round:
        """A round of these lines. That the program reads so much and no more in one run isn't noticed here."""
        try:
            return self.engine.round(lines)
        except Ended as end:
            if end.status != INPUT_USED_UP:
                raise
        self.again()
        return self.engine.round(lines)

    def again(self) -> int:
        """Starts the program anew and gives it the kept lines again. How many of them were refused is the answer."""
        return sum(map(is_refused, self.given_again(self.kept)))

    def given_again(self, kept: Sequence[str]) -> List[List[str]]:
        """What a program that starts anew replies to each of these lines."""
        self.engine.stop()
        self.engine.start()
        return replies_by_line(len(kept), self.engine.round(kept).replies)

    def take(self, line: str, answered: Round) -> None:
        """Takes note of what a line was answered."""
        replies = answered.replies
        if answered.events:
            self.reached = 0
        if is_refused(replies):
            # (undo ends there all the same, and does so when the lines are given again)
            self.kept += ["look"] * bool(answered.events)
            return
        if first_word(line) == "undo":
            self.keep(self.kept[:-1], self.reached - 1)
        elif has(line, Flag.KEPT):
            self.keep([*self.kept, line], self.reached + (not answered.events))
        self.state.learn(line, replies, self.library)
        if first_word(line) in ("undo", "look"):
            self.refresh()
        elif has(line, Flag.GOALS) and self.proof and (count_of(replies[0]) or 0) > len(self.proof.goals):
            self.state.proof = self.proof._replace(goals=goals_of(self.ask(["goals"]).replies))

    def keep(self, lines: List[str], reached: int) -> None:
        """Keeps these lines from now on, of which `undo` reaches so many of the last ones."""
        self.kept, self.reached, self.saved = lines, reached, False

    def together(self, lines: Sequence[str]) -> List[List[str]]:
        """The replies to lines that `undo` takes back, of which all are taken, or none."""
        answered = replies_by_line(len(lines), self.ask(lines).replies)
        taken = sum(not is_refused(it) for it in answered)
        if taken < len(lines):
            self.ask(["undo"] * taken)
        else:
            self.keep([*self.kept, *lines], self.reached + len(lines))
            for line, replies in zip(lines, answered):
                self.state.learn(line, replies, self.library)
            self.refresh()
        return answered

    def without_last(self, count: int) -> None:
        """Takes the last kept lines back by starting the program anew without them."""
        kept = self.kept[: len(self.kept) - count]
        answered = self.given_again(kept)
        self.keep(kept, max(0, self.reached - count))
        self.state = State()
        for line, replies in zip(kept, answered):
            self.state.learn(line, replies, self.library)
        self.refresh()

    def undo(self, count: int) -> int:
        """Takes kept lines back by `undo`, so many or as many as it reaches and takes. Their number is the answer."""
        replies = self.ask(["undo"] * min(count, self.reached)).replies if self.reached else []
        done = sum(it == "undone" for it in replies)
        if done:
            self.keep(self.kept[:-done], self.reached - done)
            self.refresh()
        return done

    def refresh(self) -> None:
        """Asks what is open and what is in the draft, where a reply doesn't say it. The types of the draft are asked for when they
        are needed."""
        replies = self.ask(["goals", "draft"]).replies
        count = count_of(replies[0])
        theorem = next((theorem_of(it) for it in reversed(self.kept) if first_word(it) == "theorem"), "")
        self.state.proof = None if count is None else Proof(theorem, goals_of(replies[1 : 1 + count]))
        self.state.empty_draft()
        for line in replies[2 + (count or 0) :]:
            name = first_word(line)
            self.state.draft(name, None, line.startswith(f"{name} := "))

    def typed_names(self) -> Dict[str, str]:
        """The names with their types. Those that aren't known yet are asked for; one that the program gives none is left out."""
        unknown = [it for it, type_ in self.names.items() if type_ is None]
        replies = self.ask([f"infer {it}" for it in unknown]).replies if unknown else []
        for name, reply in zip(unknown, replies):
            if not reply.startswith(REFUSED):
                self.names[name] = reply[len(f"{name} : ") :]
        return {name: type_ for name, type_ in self.names.items() if type_ is not None}

    @property
    def has_work(self) -> bool:
        """Whether a line that isn't saved declares something, or begins a proof."""
        return not self.saved and any(first_word(it) in ("assume", "define", "theorem") for it in self.kept)
