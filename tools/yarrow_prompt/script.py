"""Lines that no person types: each is taken as at a terminal, and the first that is refused is the last."""

from typing import Iterable

from .engine import Ended
from .own import Leave
from .prompt import Prompt, reason
from .typed import whole_lines

REFUSED = 1


def play(prompt: Prompt, lines: Iterable[str]) -> int:
    """Takes the lines of a script. The status is 1 where one was refused, or a proof is open at the end."""
    for number, line in whole_lines(lines):
        prompt.echo(line)
        try:
            if not prompt.take(line):
                prompt.screen.put(f"line {number} was refused")
                return REFUSED
        except Ended as end:
            prompt.screen.put(f"the program ended, {reason(end.status)}; line {number} was not taken")
            raise
        except Leave:
            break
    if prompt.session.proof:
        prompt.screen.put(f"the proof of {prompt.session.proof.theorem} is open at the end")
        return REFUSED
    return 0
