"""The prompt: takes lines, one after another, and shows what comes of them."""

import contextlib
import os
from typing import Callable, ContextManager, List, NoReturn, Optional, Sequence, TypeVar

from . import own, replies, words
from .around import Around
from .drawing import Screen
from .engine import Ended, Round
from .goals import Goal
from .interrupts import Interrupts
from .naming import Naming
from .session import INPUT_USED_UP, REFUSED, Session, is_refused
from .table import first_word
from .typed import is_own, read, unsendable

NO_MEMORY = 7
WHY = {NO_MEMORY: "no memory was left (status 7)", INPUT_USED_UP: "its input was used up (status 8)"}

T = TypeVar("T")


class NotTaken(Exception):
    """The line was not taken, and why has been said."""


def reason(status: int) -> str:
    """Why the program ended, in words."""
    return WHY.get(status, f"status {status}" if status < 128 else f"signal {status - 128}")


class Prompt:
    """The state of one person's work in the system of a file, which was started with these words. Where a person is there, the
    program is started anew when it is stopped or ends; else that is the end."""

    def __init__(self, words_of_start: Sequence[str], path: str, session: Session, screen: Screen, person: bool = False):
        self.words, self.path = list(words_of_start), path
        self.system = os.path.splitext(os.path.basename(path))[0]
        self.session, self.screen, self.person = session, screen, person
        self.naming = Naming(lambda: self.session.state)
        screen.short = self.naming.short
        self.interrupts = Interrupts()
        self.running: List[str] = []

    @property
    def spec(self) -> str:
        """The word of the start that means the system."""
        return self.words[0]

    @property
    def text(self) -> str:
        """What comes before a line that is typed: the system, or in a proof the theorem, with the number of goals unless it is 1."""
        proof = self.session.proof
        if proof is None:
            return f"{self.system}> "
        return f"{proof.theorem}> " if len(proof.goals) == 1 else f"{proof.theorem} {len(proof.goals)}> "

    def echo(self, line: str) -> None:
        """Shows a line as if it had been typed."""
        self.screen.put(self.text + line)

    def take(self, text: str) -> bool:
        """Does what a line says. Whether it was taken; where it was not, why has been said."""
        line = read(text)
        try:
            if is_own(line):
                own.COMMANDS[first_word(line)](self, line[len(first_word(line)) :].strip())
            elif line:
                self.send(self.naming.long(line))
        except NotTaken:
            return False
        return True

    def refuse(self, *sentences: str) -> NoReturn:
        """Says why a line is not taken."""
        self.screen.say(*sentences)
        raise NotTaken

    def send(self, line: str) -> None:
        """Gives a line to the program, and shows what it replies."""
        replies.show(self.screen, self.session, line, self.give(line))

    def give(self, line: str) -> List[str]:
        """What the program replies to a line of the person's. Where it refuses, why is said, and the line is not taken."""
        fault = unsendable(line)
        if fault:
            self.refuse(fault)
        answered = self.try_(line)
        if is_refused(answered):
            self.explain(line, answered[0])
        return answered

    def try_(self, line: str) -> List[str]:
        """What the program replies to a line of the person's, which it may refuse."""
        answered = self.ask([line])
        self.guarded(lambda: self.session.take(line, answered), contextlib.nullcontext())
        return answered.replies

    def explain(self, line: str, refused: str) -> NoReturn:
        """Says why the program refused a line, which is then not taken."""
        if not self.person:
            self.screen.text("", refused)
        around = Around(self.reply, self.session.state, self.session.library, self.naming.short)
        found = words.explained(line, refused[len(REFUSED) :], around)
        if found.where:
            self.screen.say(found.where)
        if found.stretch:
            self.screen.mark(found.text or line, found.stretch)
        self.refuse(*found.sentences)

    def reply(self, line: str) -> Optional[str]:
        """What the program replies to a line that it is asked beside those of the person; nothing, where it refuses."""
        if unsendable(line):
            return None
        answered = self.ask([line]).replies
        return answered[0] if answered and not is_refused(answered) else None

    def ask(self, lines: Sequence[str]) -> Round:
        """What the program replies to these lines."""
        answered = self.guarded(lambda: self.session.ask(lines))
        if self.screen.raw:
            for it in answered.replies:
                self.screen.text("  | ", it, 4)
        return answered

    def guarded(self, work: Callable[[], T], heard: Optional[ContextManager[None]] = None) -> T:
        """Does what asks the program, which Ctrl-C stops unless something else is said of it. Where the program is stopped, or ends,
        the line is not taken."""
        try:
            with heard or self.interrupts.heard():
                return work()
        except KeyboardInterrupt:
            if not self.person:
                raise
            self.revive("stopped")
        except Ended as end:
            if not self.person:
                raise
            self.revive(f"the program ended, {reason(end.status)}")
        finally:
            self.screen.end_wait()

    def revive(self, why: str) -> NoReturn:
        """Starts the program anew, with the lines that were taken, which Ctrl-C doesn't stop again."""
        kept = self.session.kept
        self.screen.end_wait()
        try:
            refused = self.session.again()
            self.session.refresh()
        except Ended:
            self.screen.tell(f"{why}, and it did not start again. These lines were taken:")
            for line in kept:
                self.screen.put(f"  {line}")
            raise
        wrong = f", {refused} refused: the state is another" if refused else ""
        self.screen.tell(f"{why}: started anew, {replies.counted(len(kept), 'line')} given again{wrong}. The last line was not taken.")
        raise NotTaken

    def goal(self) -> Goal:
        """The goal that is worked on, without which the line is not taken."""
        proof = self.session.proof
        if proof is None:
            self.refuse(words.OF_THE_LINE["NoProof"])
        if not proof.goals:
            self.refuse(words.OF_THE_LINE["NoGoal"])
        return proof.goals[0]
