"""`compare MODULE [SPEC..]`: where each system stops in a module, a line for each."""

import os
import sys
from typing import Callable, List, Sequence, Tuple

from .asking import NoSource, batch, sources
from .program import Answer
from .refusal import Refusal, refusal
from .sentences import brief, explained
from .source import Source
from .spec_refusals import spec_refusal
from .specs import spec_path, system_names, systems

Ask = Callable[[str], Answer]


def stop(source: Source, refused: Refusal) -> str:
    """Where a module is refused and why, in a line."""
    line, note = explained(source, refused)
    stated = source.statement(line)
    name = f" {stated.name.text}:" if stated and stated.name else ""
    return f"{source.position(line, note.start, note.end)}{name} {reason(refused) or brief(note)}"


def reason(refused: Refusal) -> str:
    """The sentence for what a system lacks, which is what most often stops it."""
    if refused.kind == "NoRule":
        return f"no rule ({', '.join(refused.words)})"
    if refused.kind == "NoAxiom":
        return f"no axiom for the sort {refused.values}"
    return ""


def row(source: Source, answer: Answer) -> str:
    """What is said of one system."""
    if answer.status == 0:
        return f"all hold: {answer.last_line}"
    refused = refusal(answer.last_line) if answer.status == 1 else None
    if refused:
        return stop(source, refused)
    if answer.status == 3:
        return spec_refusal(answer.last_line, "").sentence
    return answer.last_line or {7: "no memory was left"}.get(answer.status, f"status {answer.status}")


def rows(source: Source, specs: Sequence[str], ask: Ask) -> List[Tuple[str, str]]:
    """Each system with what is said of it. Where the file is no module, which no system changes, that is the one row."""
    found = []
    for spec in specs:
        answer = ask(spec)
        found.append((os.path.basename(spec), row(source, answer)))
        refused = refusal(answer.last_line) if answer.status == 1 else None
        if refused and refused.line and answer.last_line.split(" ")[2] in ("BadFile", "NotBuilt"):
            return [("all", found[-1][1])]
    return found


def run(words: Sequence[str]) -> int:
    if not words:
        return 2
    specs = list(words[1:]) or [it.name for it in systems()] or system_names()
    missing = [it for it in specs if not os.path.exists(spec_path(it))]
    try:
        source = sources(words[:1])[0]
    except NoSource as fault:
        print(f"bin/yarrow: {fault}", file=sys.stderr)
        return 6
    if missing:
        print(f"bin/yarrow: no file {missing[0]}", file=sys.stderr)
        return 6
    content = "".join(it + "\n" for it in source.lines).encode("utf-8", "surrogateescape")
    found = rows(source, specs, lambda spec: batch(spec, {source.module: content}))
    width = max(len(it) for it, _ in found)
    for name, said in found:
        print(f"{name:{width}}  {said}")
    return 0
