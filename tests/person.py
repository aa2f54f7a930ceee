"""A person at the prompt: what is typed through a pseudo-terminal, and what is shown then."""

import codecs
import contextlib
import fcntl
import os
import pty
import re
import select
import signal
import struct
import sys
import termios
import time
import unicodedata
from typing import Dict, List, NamedTuple, Pattern, Sequence, Tuple, Union

ROOT = os.path.dirname(os.path.dirname(os.path.realpath(__file__)))
SCRIPT = os.path.join(ROOT, "bin", "yarrow")
TOOLS = os.path.join(ROOT, "tools")
STAND_IN = os.path.join(ROOT, "tests", "stand-in")
SECONDS = 60

ESCAPES = re.compile(r"\x1b\[[0-9;?]*[A-Za-z]|\x1b[=>]")
# readline says by these that it begins to read a line, and that it has read one.
READS, HAS_READ = "\x1b[?2004h", "\x1b[?2004l"
# The system, or a theorem with the number of its goals, comes before what is typed.
PROMPT = r"[^\s>]+(?: \d+)?> "
CTRL_C, CTRL_D, TAB, UP, ENTER = b"\x03", b"\x04", b"\t", b"\x1b[A", b"\r"


def environment_of(folder: str, **more: str) -> Dict[str, str]:
    kept = {name: value for name, value in os.environ.items() if name not in ("NO_COLOR", "LC_ALL", "YARROW_MEMORY")}
    return {**kept, "HOME": folder, "XDG_STATE_HOME": os.path.join(folder, "state"), "TERM": "xterm", "LANG": "C.UTF-8", **more}


def columns(text: str) -> int:
    return sum(0 if unicodedata.combining(it) else 2 if unicodedata.east_asian_width(it) in "WF" else 1 for it in text)


def shown(raw: str, dumb: bool = False) -> List[str]:
    """The lines of what came after the last key, without escapes and without the prompt."""
    text = raw.partition("\r\n")[2] if dumb else raw.rpartition(HAS_READ)[2]
    return [it.rstrip("\r") for it in ESCAPES.sub("", text).replace("\r\n", "\n").lstrip("\r").split("\n")][:-1]


class Person:
    """Somebody who has started the prompt in a folder with these words, at a terminal of so many columns; with the stand-in for the
    program, where it is wanted."""

    def __init__(self, folder: str, *words: str, width: int = 72, stand_in: bool = False, **environment: str):
        self.system, *_ = self.words = words or ("LC",)
        self.dumb, self.read = environment.get("TERM") == "dumb", ""
        self.decoder = codecs.getincrementaldecoder("utf-8")("replace")
        self.child, self.terminal = pty.fork()
        if self.child == 0:
            fcntl.ioctl(0, termios.TIOCSWINSZ, struct.pack("HHHH", 24, width, 0, 0))
            os.chdir(folder)
            command = [sys.executable, "-B", TOOLS] if stand_in else [SCRIPT]
            program = {"YARROW_PROGRAM": STAND_IN} if stand_in else {}
            os.execve(command[0], [*command, "prove", *self.words], environment_of(folder, **program, **environment))
        self.started = self.until(self.prompt)

    @property
    def prompt(self) -> Pattern[str]:
        """How it is seen that the next line is read."""
        return re.compile(f"\n{re.escape(self.system)}> " if self.dumb else re.escape(READS) + PROMPT)

    def press(self, keys: bytes) -> None:
        with contextlib.suppress(OSError):
            os.write(self.terminal, keys)

    def until(self, mark: Union[str, Pattern[str]], seconds: float = SECONDS) -> str:
        """What comes up to this mark, with it."""
        wanted = re.compile(re.escape(mark)) if isinstance(mark, str) else mark
        end = time.monotonic() + seconds
        found = wanted.search(self.read)
        while not found and select.select([self.terminal], [], [], max(0, end - time.monotonic()))[0]:
            more = b""
            with contextlib.suppress(OSError):
                more = os.read(self.terminal, 1 << 16)
            self.read += self.decoder.decode(more)
            if not more:
                break
            found = wanted.search(self.read)
        came = self.read[: found.end()] if found else self.read + "(the mark is missing)"
        self.read = self.read[found.end() :] if found else ""
        return came

    def raw(self, *lines: str) -> str:
        """What comes of lines that are typed, up to the next prompt."""
        for line in lines[:-1]:
            self.press(line.encode() + ENTER)
            self.until(READS)
        self.press(lines[-1].encode() + ENTER)
        return self.until(self.prompt)

    def line(self, *lines: str) -> List[str]:
        """The lines that are shown when these are typed; each but the last goes on."""
        return shown(self.raw(*lines), self.dumb)

    def asked(self, *lines: str) -> Tuple[List[str], str]:
        """The same, and the prompt after it."""
        raw = self.raw(*lines)
        return shown(raw, self.dumb), ESCAPES.sub("", raw).replace("\r", "\n").rpartition("\n")[2].strip()

    def rest(self, keys: bytes) -> Tuple[str, int]:
        """What comes after these keys, until the prompt ends; and its status."""
        self.press(keys)
        came = self.until("(the end)")
        # (which hangs up, where it goes on all the same)
        os.close(self.terminal)
        return came.replace("(the mark is missing)", ""), os.waitstatus_to_exitcode(os.waitpid(self.child, 0)[1])

    def leave(self) -> None:
        """Leaves, whatever is not saved."""
        self.press(b"quit" + ENTER)
        self.until(self.prompt)
        self.rest(CTRL_D)

    def program(self) -> int:
        """The process of the program, which is a child of the prompt."""
        parents: Dict[int, int] = {}
        for it in filter(str.isdigit, os.listdir("/proc")):
            with contextlib.suppress(OSError):
                parents[int(it)] = int(contents(f"/proc/{it}/stat").rpartition(")")[2].split()[1])
        inside = [self.child]
        for parent in inside:
            inside += [it for it in parents if parents[it] == parent]
        return inside[-1]

    def kill_program(self) -> None:
        os.kill(self.program(), signal.SIGKILL)


class Exchange(NamedTuple):
    """What is typed after a prompt, in parts where it goes on, and the lines that are shown then."""

    prompt: str
    typed: List[str]
    wanted: List[str]


def exchanges(lines: Sequence[str]) -> List[Exchange]:
    """A session as it is shown, taken apart."""
    found: List[Exchange] = []
    for line in lines:
        begins = re.match(PROMPT, line)
        if begins:
            found.append(Exchange(begins[0].strip(), [line[begins.end() :]], []))
        elif line.startswith("...") and not found[-1].wanted:
            found[-1].typed.append(line.lstrip(".")[1:])
        else:
            found[-1].wanted.append(line)
    return found


def plays(what: str, person: Person, lines: Sequence[str]) -> List[bool]:
    """Whether a session is shown to this person as it is written."""
    prompt, outcomes = f"{person.system}>", []
    for it in exchanges(lines):
        outcomes.append(is_as_wanted(f"{what}: the prompt before {it.typed}", prompt, it.prompt))
        came, prompt = person.asked(*it.typed)
        outcomes.append(is_as_wanted(f"{what}: {it.typed}", came, it.wanted))
    return outcomes


def is_as_wanted(what: str, got: object, wanted: object) -> bool:
    if got != wanted:
        print(f"prove: {what}: got {got!r}; wanted {wanted!r}")
    return got == wanted


def contents(path: str) -> str:
    with open(path, "rb") as file:
        return file.read().decode()


def written(folder: str, name: str, *lines: str) -> None:
    with open(os.path.join(folder, name), "w", encoding="utf-8") as file:
        file.write("".join(it + "\n" for it in lines))
