"""A person at a terminal: lines are typed with a history, completed, pasted, and may go on."""

import os
import sys
from typing import List, Optional

from . import completion
from .own import Leave
from .prompt import Prompt
from .saving import saved_text
from .typed import is_open, whole_lines

try:
    import readline
except ImportError:  # (then a line is typed as the terminal takes it)
    readline = None  # type: ignore[assignment]

LINES_OF_HISTORY = 2_000


def state_folder() -> str:
    base = os.environ.get("XDG_STATE_HOME") or os.path.join(os.path.expanduser("~"), ".local", "state")
    return os.path.join(base, "yarrow")


class History:
    """The lines that were typed, in a file for its owner alone."""

    def __init__(self) -> None:
        self.path = os.path.join(state_folder(), "history")

    def load(self) -> None:
        if readline is None:
            return
        readline.set_auto_history(False)
        readline.set_history_length(LINES_OF_HISTORY)
        try:
            os.makedirs(os.path.dirname(self.path), mode=0o700, exist_ok=True)
            readline.read_history_file(self.path)
        except OSError:
            pass

    def add(self, line: str) -> None:
        if readline is not None and line.strip():
            readline.add_history(line)

    def store(self) -> None:
        if readline is None:
            return
        try:
            os.close(os.open(self.path, os.O_CREAT | os.O_WRONLY, 0o600))
            readline.write_history_file(self.path)
        except OSError:
            pass


class Terminal:
    """Reads lines from a person until they leave."""

    def __init__(self, prompt: Prompt):
        self.prompt, self.history = prompt, History()
        self.is_warned = False
        self.offered: List[str] = []

    def prepare(self) -> None:
        self.history.load()
        if readline is not None:
            readline.set_completer_delims(completion.DELIMITERS)
            readline.set_completer(self.complete)
            readline.parse_and_bind("tab: complete")
            readline.parse_and_bind(f"set enable-bracketed-paste {'off' if self.prompt.screen.dumb else 'on'}")

    def complete(self, begun: str, place: int) -> Optional[str]:
        """The offer at this place, for readline, which asks for one after another."""
        if place == 0:
            before = readline.get_line_buffer()[: readline.get_begidx()]
            self.offered = completion.ended(completion.offers(self.prompt, before, begun))
        return self.offered[place] if place < len(self.offered) else None

    def lines(self) -> List[str]:
        """The lines that are typed next: one, which may go on, or those of a paste."""
        text = input(self.prompt.text)
        while True:
            found = [line for _, line in whole_lines(text.split("\n"), typed=True)]
            if not found or not is_open(found[-1]):
                return found
            try:
                more = input("." * (len(self.prompt.text) - 1) + " ")
            except EOFError:
                more = ""
            if not more.strip():
                return found
            text += "\n" + more

    def take(self, lines: List[str]) -> None:
        """Takes lines up to the first that is not taken."""
        for line in lines:
            self.history.add(line)
            if len(lines) > 1:
                self.prompt.echo(line)
            else:
                self.prompt.screen.note(self.prompt.text + line)
            if not self.prompt.take(line):
                break

    def may_leave(self) -> bool:
        """Whether nothing would be lost, or the person knows that it is."""
        session = self.prompt.session
        if self.is_warned or not session.has_work:
            return True
        self.is_warned = True
        still = f"The proof of {session.proof.theorem} is open, and the lines" if session.proof else "The lines"
        self.prompt.screen.tell(f"{still} are not saved: save FILE keeps them. Ctrl-D once more leaves.")
        return False

    def talk(self) -> None:
        """Takes lines until the person leaves."""
        while True:
            try:
                with self.prompt.interrupts.heard():
                    lines = self.lines()
                if lines:
                    self.take(lines)
                    self.is_warned = False
            except KeyboardInterrupt:
                self.prompt.screen.put("")
            except EOFError:
                self.prompt.screen.put("")
                if self.may_leave():
                    return
            except Leave:
                if self.may_leave():
                    return

    def keep_last(self) -> None:
        """Writes lines that are not saved to a file of their own, whatever ended the prompt."""
        if not self.prompt.session.has_work:
            return
        path = os.path.join(state_folder(), "last.prove")
        try:
            os.makedirs(state_folder(), mode=0o700, exist_ok=True)
            with open(os.open(path, os.O_CREAT | os.O_WRONLY | os.O_TRUNC, 0o600), "w", encoding="utf-8") as file:
                file.write(saved_text(self.prompt))
            print(f"The lines are in {path}.", flush=True)
        except OSError:
            pass


def load_all(prompt: Prompt) -> None:
    """Loads the modules of the start that have no parameters, each after those that it uses, up to one that is not taken."""
    library = prompt.session.library
    for module in library.in_order():
        if library.has_parameters(module):
            prompt.screen.tell(f"{module} has parameters: instance {module} L TERM ; TERM takes it in, with a label L.")
            continue
        prompt.echo(f"load {module}")
        if not prompt.take(f"load {module}"):
            break


def at_terminal(prompt: Prompt) -> int:
    terminal = Terminal(prompt)
    sys.stdin.reconfigure(errors="surrogateescape")  # type: ignore[union-attr]
    terminal.prepare()
    prompt.interrupts.install()
    prompt.screen.tell(f"Yarrow, in the system {prompt.system}. The command help lists all, Ctrl-D leaves.")
    try:
        try:
            load_all(prompt)
            terminal.talk()
        finally:
            # (a hangup that comes before this is done ends the inner part alone)
            prompt.interrupts.end()
    finally:
        terminal.history.store()
        terminal.keep_last()
    return 0
