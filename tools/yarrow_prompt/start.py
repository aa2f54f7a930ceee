"""`prove SPEC [FILE..]`: starts the program, and takes lines from a terminal or from a script."""

import os
import sys
from typing import Sequence

from yarrow_tools.lint import of_the_spec
from yarrow_tools.program import program
from yarrow_tools.specs import spec_path

from .drawing import Screen
from .engine import Ended, Engine
from .library import Library, library_of
from .prompt import Prompt
from .script import play
from .session import Session
from .terminal import at_terminal

USAGE = 2
NO_SYSTEM = 3


def begun(prompt: Prompt) -> int:
    """Starts the program. The status is 0, or that of the program where it ended at once, whose line is shown; `usage` is that of any
    command."""
    try:
        prompt.session.ask([])
    except Ended as end:
        for line in end.printed * (end.status != USAGE):
            prompt.screen.put(line)
        if end.status == NO_SYSTEM and end.printed:
            print(of_the_spec(prompt.spec, end.printed[-1]), file=sys.stderr)
        if end.status == USAGE and prompt.session.library.names:
            print(f"bin/yarrow: sessions with modules are not built yet; this is one without: bin/yarrow prove {prompt.spec}", file=sys.stderr)
        return end.status
    return 0


def prompt_of(words: Sequence[str], library: Library) -> Prompt:
    """The prompt for the system of the first word, with the files of the others."""
    screen = Screen(sys.stdout)
    path = spec_path(words[0])
    engine = Engine([program(), "replay", os.path.abspath(path) if library.folder else path, *library.names], library.folder)
    prompt = Prompt(words, path, Session(engine, library), screen, sys.stdin.isatty())
    engine.waiting = lambda: screen.wait(prompt.interrupts.is_heard)
    return prompt


def run(words: Sequence[str]) -> int:
    library = library_of(words[1:])
    if not all(words) or not words or library is None:
        return USAGE
    sys.stdout.reconfigure(errors="backslashreplace")  # type: ignore[union-attr]
    prompt = prompt_of(words, library)
    prompt.interrupts.leave_at_hangup()
    try:
        status = begun(prompt)
        if status:
            return status
        if prompt.person:
            return at_terminal(prompt)
        sys.stdin.reconfigure(errors="surrogateescape")  # type: ignore[union-attr]
        return play(prompt, sys.stdin)
    except Ended as end:
        return end.status
    finally:
        prompt.session.engine.stop()
