"""The program as a child: `replay`, asked by rounds through pipes."""

import os
import select
import signal
import subprocess
from typing import Callable, List, NamedTuple, Optional, Sequence

from yarrow_tools.program import limited

# After so many seconds of work a person is told that it goes on.
PATIENCE = 1.0
SESSION = b"@1 "
NOT_STARTED = 125


class Round(NamedTuple):
    """What a round replied to the session, and how many events of the core it had."""

    replies: List[str]
    events: int


class Ended(Exception):
    """The program ended: with which status, and what it had printed of its round. A signal counts as 128 and its number."""

    def __init__(self, status: int, printed: Sequence[str] = ()):
        super().__init__(status)
        self.status, self.printed = status, list(printed)


class Engine:
    """A child that runs in a session of its own, so that Ctrl-C reaches the prompt alone; in a folder, where one is named."""

    def __init__(self, words: Sequence[str], folder: str = ""):
        self.words, self.folder = list(words), folder or None
        # (what is called while a round takes long)
        self.waiting: Optional[Callable[[], None]] = None
        self.child: Optional[subprocess.Popen] = None
        self.unread = b""

    def start(self) -> None:
        self.unread = b""
        try:
            self.child = subprocess.Popen(
                self.words,
                cwd=self.folder,
                stdin=subprocess.PIPE,
                stdout=subprocess.PIPE,
                bufsize=0,
                start_new_session=True,
                preexec_fn=limited,
            )
        except (OSError, subprocess.SubprocessError) as fault:
            raise Ended(NOT_STARTED, [str(fault)]) from fault

    def stop(self) -> None:
        """Ends the child, whatever it does, and those that it may have started."""
        child, self.child = self.child, None
        if child is None:
            return
        if child.poll() is None:
            try:
                os.killpg(child.pid, signal.SIGKILL)
            except OSError:
                child.kill()
        child.wait()
        for pipe in (child.stdin, child.stdout):
            if pipe:
                pipe.close()

    def round(self, lines: Sequence[str]) -> Round:
        """Gives these lines to the session, lets the round run, and waits for its end."""
        if self.child is None:
            self.start()
        self.write(b"".join(SESSION + it.encode("utf-8") + b"\n" for it in lines) + b"go\n")
        printed: List[str] = []
        events = 0
        while True:
            line = self.line(printed)
            if line.startswith(b"done "):
                return Round(printed, events)
            if line.startswith(b"order"):
                events = len(line.split()) - 1
            else:
                text = line[len(SESSION) :] if line.startswith(SESSION) else line
                printed.append(text.decode("utf-8", "replace"))

    def write(self, given: bytes) -> None:
        assert self.child and self.child.stdin
        rest = memoryview(given)
        try:
            while rest:
                rest = rest[os.write(self.child.stdin.fileno(), rest) :]
        except BrokenPipeError:
            # (it ended: what it printed says why, and then its status)
            pass

    def line(self, printed: Sequence[str]) -> bytes:
        """The next line that the child prints."""
        assert self.child and self.child.stdout
        pipe = self.child.stdout.fileno()
        pieces = [self.unread]
        while b"\n" not in pieces[-1]:
            if not select.select([pipe], [], [], PATIENCE)[0]:
                if self.waiting:
                    self.waiting()
                continue
            more = os.read(pipe, 1 << 16)
            if not more:
                raise self.end([*printed, *(it.decode("utf-8", "replace") for it in [b"".join(pieces)] if it)])
            pieces.append(more)
        line, _, self.unread = b"".join(pieces).partition(b"\n")
        return line

    def end(self, printed: Sequence[str]) -> Ended:
        """How the child ended, of which nothing is left then."""
        assert self.child
        status = self.child.wait()
        self.stop()
        return Ended(status if status >= 0 else 128 - status, printed)
