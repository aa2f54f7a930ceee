"""The proved program, run as a child with the limit of memory that bin/yarrow chose."""

import os
import resource
import subprocess
from typing import NamedTuple, Optional, Sequence

from .specs import ROOT

PROGRAM = "YARROW_PROGRAM"
KIB = "YARROW_KIB"
# The stack has no answer where memory runs out, so the heap meets its limit first.
APART = 16384


class Answer(NamedTuple):
    """What the program printed on standard output, and its status."""

    printed: bytes
    status: int

    @property
    def last_line(self) -> str:
        return self.printed.decode("utf-8", "replace").rstrip("\n").rpartition("\n")[2]


def program() -> str:
    return os.environ.get(PROGRAM) or os.path.join(ROOT, "crates", "yarrow", "out", "yarrow")


def lowered(what: int, kib: int) -> None:
    """Lowers a limit of this process to so many KiB. One that is lower already stays."""
    present = resource.getrlimit(what)[1]
    wanted = kib * 1024
    if present == resource.RLIM_INFINITY or present > wanted:
        resource.setrlimit(what, (wanted, wanted))


def limited() -> None:
    kib = os.environ.get(KIB, "")
    if kib.isdigit():
        lowered(resource.RLIMIT_AS, int(kib))
        lowered(resource.RLIMIT_DATA, int(kib) - APART)


def ask(words: Sequence[str], folder: Optional[str] = None) -> Answer:
    """Runs the program in this folder with these words, and waits for its end."""
    ran = subprocess.run([program(), *words], cwd=folder, stdin=subprocess.DEVNULL, stdout=subprocess.PIPE, preexec_fn=limited, check=False)
    return Answer(ran.stdout, ran.returncode if ran.returncode >= 0 else 128 - ran.returncode)
