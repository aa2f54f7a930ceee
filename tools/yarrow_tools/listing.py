"""`systems [NAME..]`: the systems that come along, with their axioms and rules."""

import sys
from typing import Iterable, List, Sequence

from .specs import System, systems, tomllib


def written(rules: Iterable[Sequence[str]]) -> str:
    """Rules as the books write them: the third sort is left out where it is the second."""
    return " ".join(f"({', '.join(it if len(it) < 3 or it[1] != it[2] else it[:2])})" for it in rules) or "none"


def table(found: Sequence[System]) -> List[str]:
    """A line for each system, under a head."""
    axioms = [", ".join(" : ".join(pair) for pair in it.axioms) or "none" for it in found]
    rows = [("system", "axioms", "rules")] + [(it.name, axiom, written(it.rules)) for it, axiom in zip(found, axioms)]
    widths = [max(len(it[place]) for it in rows) for place in (0, 1)]
    return [f"{name:{widths[0]}}  {axiom:{widths[1]}}  {rules}" for name, axiom, rules in rows]


def run(words: Sequence[str]) -> int:
    if tomllib is None:
        print("bin/yarrow: the files of systems are read by Python 3.11 or later", file=sys.stderr)
        return 125
    found = {it.name: it for it in systems()}
    unknown = [it for it in words if it not in found]
    if unknown:
        print(f"bin/yarrow: no system {unknown[0]}; there are {' '.join(found)}", file=sys.stderr)
        return 6
    for name in words:
        print("\n".join([*found[name].comment, *table([found[name]])[1:]]))
    if not words:
        print("\n".join(table(list(found.values()))))
    return 0
