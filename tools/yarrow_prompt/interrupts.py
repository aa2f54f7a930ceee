"""Signals: Ctrl-C, which is heard only where a person may stop something, so that it never comes between a reply and its note; and a
hangup, which ends the prompt as any other end does."""

import contextlib
import signal
from types import FrameType
from typing import Iterator, Optional

ENDS = (signal.SIGHUP, signal.SIGTERM)


class Interrupts:
    """Whether Ctrl-C is heard now. One that comes elsewhere waits for the next place where it is."""

    def __init__(self) -> None:
        self.is_heard = self.is_pending = self.is_ending = False

    def install(self) -> None:
        signal.signal(signal.SIGINT, self.handle)

    def handle(self, _number: int, _frame: Optional[FrameType]) -> None:
        if self.is_heard:
            raise KeyboardInterrupt
        self.is_pending = True

    @contextlib.contextmanager
    def heard(self) -> Iterator[None]:
        if self.is_pending:
            self.is_pending = False
            raise KeyboardInterrupt
        self.is_heard = True
        try:
            yield
        finally:
            self.is_heard = False

    def leave_at_hangup(self) -> None:
        """Lets a hangup end the prompt, so that the lines are kept. It may come twice, and also while the prompt ends already."""
        for it in ENDS:
            signal.signal(it, self.leave)

    def leave(self, number: int, _frame: Optional[FrameType]) -> None:
        for it in ENDS:
            signal.signal(it, signal.SIG_IGN)
        if not self.is_ending:
            raise SystemExit(128 + number)

    def end(self) -> None:
        """Says that the prompt ends, which no hangup hurries."""
        self.is_ending = True
