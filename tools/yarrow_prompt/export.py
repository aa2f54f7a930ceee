"""`export M`: what was declared here, as a module that `batch` reads."""

from typing import TYPE_CHECKING, Iterator, List, Optional, Sequence

from yarrow_tools.source import MODULE
from yarrow_tools.tokens import KEYWORDS, identifier_end, tokens

from .parts import defined
from .proving import usage
from .replies import counted

if TYPE_CHECKING:
    from .prompt import Prompt

LONGEST = 63


def unfit(name: str) -> Optional[str]:
    """Why a module can't have this name, or one of its declarations; nothing, where it can."""
    if not name or identifier_end(name, 0) != len(name) or name in ("_", *KEYWORDS):
        return "it has to be letters, digits and _"
    if len(name.encode()) > LONGEST:
        return f"it has more than {LONGEST} bytes"
    return None


def declaration(name: str, shown: str) -> str:
    """The line of a module that declares what `show` replied of a name: `NAME : TYPE`, or `NAME := BODY : TYPE`."""
    found = defined(name, shown)
    return f"define {name} : {found.type} := {found.term}" if found else f"assume {shown}"


def mentioned(lines: Sequence[str]) -> Iterator[str]:
    """The names that the lines have."""
    return (it.text for line in lines for it in tokens(line) if it.kind == "name")


def module_text(module: str, uses: Sequence[str], lines: Sequence[str]) -> str:
    heads = [f"uses {it}" for it in uses]
    return "".join(f"{it}\n" for it in ["yarrow-module 1", f"module {module}", *heads, *lines, "end"])


def used_by(prompt: "Prompt", lines: Sequence[str]) -> List[str]:
    """The modules that these lines use, of which each must be a file."""
    session = prompt.session
    foreign = set(session.names).difference(session.state.here)
    used: List[str] = []
    for name in mentioned(lines):
        module, dot, _ = name.partition(".")
        if dot and module not in session.library.modules:
            prompt.refuse(f"{name} is of an instance, which a module can't use.")
        if not dot and name in foreign:
            prompt.refuse(f"{name} is of a certificate, which a module can't use.")
        if dot and module not in used:
            used.append(module)
    return [it for it in session.library.in_order() if it in used]


def declared_here(prompt: "Prompt") -> List[str]:
    """The lines of a module that declare what was declared here."""
    names = prompt.session.state.here
    for name in names:
        why = unfit(name)
        if why:
            prompt.refuse(f"{name} can't be the name of a declaration in a module: {why}.")
    shown = prompt.ask([f"show {it}" for it in names]).replies if names else []
    return [declaration(name, it) for name, it in zip(names, shown)]


def export(prompt: "Prompt", rest: str) -> None:
    module = rest[: -len(MODULE)] if rest.endswith(MODULE) else rest
    if not rest:
        usage(prompt, "export")
    why = unfit(module)
    if why:
        prompt.refuse(f"{module} can't be the name of a module: {why}.")
    lines = declared_here(prompt)
    uses = used_by(prompt, lines)
    path = module + MODULE
    try:
        with open(path, "x", encoding="utf-8") as file:
            file.write(module_text(module, uses, lines))
    except FileExistsError:
        prompt.refuse(f"{path} is there already. Take another name.")
    except OSError as fault:
        prompt.refuse(f"{path}: {fault.strerror}")
    checked = " ".join(["bin/yarrow batch", prompt.spec, *prompt.session.library.in_order(uses), module])
    prompt.screen.tell(f"{path} has {counted(len(lines), 'declaration')}. This checks it: {checked}")
