"""The lines that were taken, as a script: shown, saved to a file, and taken from one."""

import os
import stat
from typing import TYPE_CHECKING, List, Sequence

from .proving import alone, usage
from .replies import counted
from .table import first_word
from .typed import whole_lines

if TYPE_CHECKING:
    from .prompt import Prompt

# The first words of a file of saved lines; only such a file is written over.
SAVED = "% yarrow prove "


def lasting(lines: Sequence[str]) -> List[str]:
    """The lines without the proofs that were given up, of which only the budgets stay."""
    found: List[str] = []
    start = 0
    for line in lines:
        word = first_word(line)
        if word == "theorem":
            start = len(found)
        if word == "abort":
            found[start:] = [it for it in found[start:] if first_word(it) == "budget"]
        else:
            found.append(line)
    return found


def lines_of(prompt: "Prompt") -> List[str]:
    return lasting(prompt.session.kept)


def saved_text(prompt: "Prompt") -> str:
    """What is saved: a comment with the words of the start, and the lines."""
    return "".join(f"{it}\n" for it in [SAVED + " ".join(prompt.words), *lines_of(prompt)])


def script(prompt: "Prompt", rest: str) -> None:
    alone(prompt, "script", rest)
    lines = lines_of(prompt)
    for line in lines:
        prompt.screen.text("  ", line, 6)
    if not lines:
        prompt.screen.say("No line yet changed anything.")


def is_free(path: str) -> bool:
    """Whether lines may be saved to this path: nothing is there, or lines that were saved before, or no file at all."""
    try:
        if not stat.S_ISREG(os.stat(path).st_mode):
            return True
        with open(path, "rb") as file:
            return file.read(len(SAVED)) in (b"", SAVED.encode())
    except FileNotFoundError:
        return True


def save(prompt: "Prompt", rest: str) -> None:
    if not rest:
        usage(prompt, "save")
    try:
        if not is_free(rest):
            prompt.refuse(f"{rest} is there already, and has other things than saved lines.")
        with open(rest, "w", encoding="utf-8") as file:
            file.write(saved_text(prompt))
    except OSError as fault:
        prompt.refuse(f"{rest}: {fault.strerror}")
    prompt.session.saved = True
    proof = prompt.session.proof
    still = f"; the proof of {proof.theorem} is open in it" if proof else ""
    prompt.screen.tell(f"saved {counted(len(lines_of(prompt)), 'line')} to {rest}{still}")


def run(prompt: "Prompt", rest: str) -> None:
    if not rest:
        usage(prompt, "run")
    path = os.path.realpath(rest)
    if path in prompt.running:
        prompt.refuse(f"{rest} is being run already.")
    try:
        with open(rest, encoding="utf-8", errors="surrogateescape") as file:
            lines: List[str] = file.read().split("\n")
    except OSError as fault:
        prompt.refuse(f"{rest}: {fault.strerror}")
    prompt.running.append(path)
    try:
        for number, line in whole_lines(lines):
            prompt.echo(line)
            if not prompt.take(line):
                prompt.refuse(f"Line {number} of {rest} was not taken; those before it were.")
    finally:
        prompt.running.pop()
