"""The commands that the prompt does itself. What the table says of them is what they do."""

import re
from typing import TYPE_CHECKING, Callable, Dict, List, Optional, Sequence

from yarrow_tools.listing import written
from yarrow_tools.specs import read_system, tomllib

from . import export, saving
from .drawing import WORDS, folded
from .outline import Outline
from .parts import defined, judged
from .proving import PROVING, alone, usage
from .session import is_refused
from .table import STATES, SWITCHES, TABLE, Command, Flag, Group, is_unbuilt, of_group
from .typed import unsendable

if TYPE_CHECKING:
    from .prompt import Prompt

NARROW = 60
FORM = 27
# The forms of terms, as rows of `help`.
LANGUAGE = [
    Command("", ("\\x:A. b",), "The function that takes x, of type A, to b."),
    Command("", ("@x:A. B", "A -> B"), "The type of functions from A to B, in which x may occur."),
    Command("", ("f a",), "f applied to a. In f (g a) the argument needs parentheses."),
    Command("", ("let x := d : A in b",), "b, in which x is d."),
]


class Leave(Exception):
    """The person wants to leave."""


def help_of(prompt: "Prompt", command: Command, is_marked: bool = True) -> None:
    """A command's forms with its sentence after the first of them, or below where the screen is narrow. One that isn't built yet is
    marked so."""
    screen, width = prompt.screen, prompt.screen.width()
    sentence = command.sentence + (" Not built yet." if is_marked and Flag.UNBUILT in command.flags else "")
    if width < NARROW:
        for form in command.forms:
            screen.text("  ", form, 4)
        for line in folded("    ", sentence, 4, width, WORDS):
            screen.put(line)
        return
    first, *rest = folded("", sentence, 0, width - FORM - 2, WORDS)
    forms = list(command.forms)
    for place in range(max(len(forms), 1 + len(rest))):
        form = forms[place] if place < len(forms) else ""
        said = ([first] + rest)[place] if place <= len(rest) else ""
        if len(form) < FORM:
            screen.put(f"  {form:{FORM}}{said}".rstrip())
        else:
            screen.put(f"  {form}")
            screen.put(f"  {'':{FORM}}{said}".rstrip())


def help_(prompt: "Prompt", rest: str) -> None:
    if rest:
        if rest not in TABLE:
            prompt.refuse(f"There is no command {rest}.")
        help_of(prompt, TABLE[rest])
        return
    for group in Group:
        prompt.screen.put(group.value + (" (not built yet)" if is_unbuilt(group) else ""), "head")
        for command in of_group(group):
            help_of(prompt, command, not is_unbuilt(group))
    prompt.screen.put("terms", "head")
    for term in LANGUAGE:
        help_of(prompt, term)


def names(prompt: "Prompt", rest: str) -> None:
    word = re.compile(rf"(?<!\w){re.escape(rest)}(?!\w)")
    lines = (f"{name} : {type_}" for name, type_ in prompt.guarded(prompt.session.typed_names).items())
    found = [it for it in lines if rest in it and (not rest or word.search(it))]
    for line in found:
        prompt.screen.term("", line)
    if not found:
        prompt.screen.say(f"No name or type has {rest} in it." if rest else "Nothing is declared yet.")


def listing(prompt: "Prompt", rest: str) -> None:
    """The body of a declaration, as a proof."""
    if not rest:
        usage(prompt, "listing")
    line = prompt.naming.long(f"show {rest}")
    shown = prompt.give(line)[0]
    name = line.partition(" ")[2].strip()
    if not shown.startswith(f"{name} := "):
        prompt.refuse(f"{rest} has no body: it is an assumption or a hypothesis.")
    found = defined(name, shown)
    if found is None:
        prompt.refuse(f"The body of {rest} is nested too deep.")
    outline = Outline(found.term)

    def infer(lines: Sequence[str]) -> List[Optional[str]]:
        if any(map(unsendable, lines)):
            prompt.refuse("The proof has parts that are too long for a line.")
        return [None if is_refused([it]) else judged_type(it) for it in prompt.ask(lines).replies]

    outline.ask(infer)
    for head, text in outline.lines(prompt.naming.short):
        prompt.screen.text(head, text, len(head) + 4)
    prompt.screen.term("     ", found.type, 8)


def judged_type(reply: str) -> Optional[str]:
    found = judged(reply)
    return found.type if found else None


def open_(prompt: "Prompt", rest: str) -> None:
    modules = prompt.naming.modules()
    for module in rest.split():
        if module not in modules:
            prompt.refuse(f"No module {module} is loaded.")
    prompt.naming.opened = tuple(rest.split())


def system(prompt: "Prompt", rest: str) -> None:
    alone(prompt, "system", rest)
    found = read_system(prompt.path)
    if found is None:
        prompt.refuse("The file of the system can't be read." if tomllib else "The files of systems are read by Python 3.11 or later.")
    axioms = ", ".join(" : ".join(it) for it in found.axioms) or "none"
    for head, text in (("sorts   ", " ".join(found.sorts)), ("axioms  ", axioms), ("rules   ", written(found.rules))):
        prompt.screen.text(head, text, len(head))


def transcript(prompt: "Prompt", rest: str) -> None:
    screen = prompt.screen
    if screen.transcript:
        screen.transcript.close()
        screen.transcript = None
    if rest:
        try:
            screen.transcript = open(rest, "a", encoding="utf-8", errors="backslashreplace")
        except OSError as fault:
            prompt.refuse(f"{rest}: {fault.strerror}")


def set_(prompt: "Prompt", rest: str) -> None:
    switch, _, state = rest.partition(" ")
    if switch not in SWITCHES or state.strip() not in STATES:
        usage(prompt, "set")
    is_on = state.strip() == "on"
    if switch == "unicode" and is_on and not prompt.screen.signs:
        prompt.refuse("The terminal is not set to UTF-8.")
    setattr(prompt.screen, switch, is_on)


def quit_(prompt: "Prompt", rest: str) -> None:
    alone(prompt, "quit", rest)
    raise Leave


COMMANDS: Dict[str, Callable[["Prompt", str], None]] = {
    **PROVING,
    "help": help_,
    "names": names,
    "listing": listing,
    "open": open_,
    "system": system,
    "script": saving.script,
    "save": saving.save,
    "run": saving.run,
    "export": export.export,
    "transcript": transcript,
    "set": set_,
    "quit": quit_,
}
