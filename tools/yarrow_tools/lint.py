"""`lint SPEC MODULE`: all refusals of a module at once, each as FILE:LINE:COLUMN-END: and sentences."""

import sys
from typing import Callable, Dict, List, NamedTuple, Sequence, Tuple

from .asking import NoSource, batch, sources
from .program import Answer
from .refusal import refusal
from .repair import Copy
from .sentences import explained
from .source import Position, Source
from .spec_refusals import spec_refusal
from .specs import spec_path

MOST = 100
Ask = Callable[[Dict[str, bytes]], Answer]


class Finding(NamedTuple):
    """Where something is refused, and what is said of it."""

    source: Source
    position: Position
    text: str

    def __str__(self) -> str:
        return line_of(self.source.path, self.position, self.text)


def line_of(path: str, position: Position, text: str) -> str:
    return f"{path}:{position}: {text}"


def findings(given: Sequence[Source], ask: Ask, most: int = MOST) -> Tuple[List[Finding], Answer]:
    """Each refusal with its source and its place, in the order of the text, and the last answer of the program.

    The program stops at the first refusal, so it is asked again of the modules without what was refused. What may be refused
    for that alone is left out."""
    copies = {it.module: Copy(it) for it in given}
    found: List[Finding] = []
    while True:
        answer = ask({module: copy.content for module, copy in copies.items()})
        refused = refusal(answer.last_line) if answer.status == 1 else None
        if refused is None or refused.module not in copies:
            break
        copy = copies[refused.module]
        if not copy.is_consequence(refused):
            line, note = explained(copy.source, refused)
            found.append(Finding(copy.source, copy.source.position(line, note.start, note.end), note.text))
        if len(found) >= most or not copy.repair(refused):
            break
    order = {it.module: place for place, it in enumerate(given)}
    return sorted(found, key=lambda it: (order[it.source.module], it.position)), answer


def of_the_spec(spec: str, printed: str) -> str:
    """The line for a specification that is refused."""
    path = spec_path(spec)
    with open(path, encoding="utf-8", errors="replace") as file:
        text = file.read()
    line, said = spec_refusal(printed, text)
    return line_of(path, Position(line, 1, max(1, len(text.split("\n")[line - 1]))), said)


def run(words: Sequence[str]) -> int:
    if len(words) < 2:
        return 2
    spec = words[0]
    try:
        given = sources(words[1:])
    except NoSource as fault:
        print(f"bin/yarrow: {fault}", file=sys.stderr)
        return 6
    found, answer = findings(given, lambda contents: batch(spec, contents))
    for it in found:
        print(it)
    if len(found) >= MOST:
        print(f"bin/yarrow: these are the first {MOST} refusals; there may be more", file=sys.stderr)
    if answer.status == 3:
        print(of_the_spec(spec, answer.last_line))
    elif answer.status not in (0, 1) and answer.last_line:
        print(f"bin/yarrow: {answer.last_line}", file=sys.stderr)
    return 1 if found and answer.status in (0, 1) else answer.status
