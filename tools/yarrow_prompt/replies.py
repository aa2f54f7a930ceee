"""What is shown of the program's replies."""

from typing import Callable, Dict, List, Sequence

from .drawing import Screen
from .goals import show_all, show_proof
from .session import Session
from .table import Flag, first_word, has


def counted(count: int, noun: str) -> str:
    return f"{count:,} {noun}{'' if count == 1 else 's'}"


def as_it_is(screen: Screen, _session: Session, replies: Sequence[str]) -> None:
    for reply in replies:
        screen.term("", reply)


def committed(screen: Screen, _session: Session, replies: Sequence[str]) -> None:
    """Of a commit, and of what is taken in from a file."""
    start, end = (int(it) for it in replies[0].split(" ")[1:])
    screen.put(f"committed {counted(end - start, 'declaration')}")


def discarded(screen: Screen, _session: Session, replies: Sequence[str]) -> None:
    screen.put(f"discarded {counted(int(replies[0].split(' ')[1]), 'declaration')}")


def compared(screen: Screen, session: Session, replies: Sequence[str]) -> None:
    """Of two terms that may be convertible."""
    word, _, path = replies[0].partition(" ")
    if word == "yes":
        as_it_is(screen, session, replies)
    else:
        where = "at once" if path == "-" else f"first at the part {path}"
        screen.tell(f"no: their weak head normal forms differ {where}")


def goals(screen: Screen, session: Session, _replies: Sequence[str]) -> None:
    """Of a line after which goals may be left."""
    if session.proof:
        show_proof(screen, session.proof)


def all_goals(screen: Screen, session: Session, _replies: Sequence[str]) -> None:
    if session.proof:
        show_all(screen, session.proof)


def proved(screen: Screen, session: Session, replies: Sequence[str]) -> None:
    as_it_is(screen, session, replies)
    if screen.terminal:
        screen.tell("It is in the draft; commit makes it part of the context.")


def undone(screen: Screen, session: Session, replies: Sequence[str]) -> None:
    as_it_is(screen, session, replies)
    goals(screen, session, replies)


# How the replies to a command are shown, where they aren't shown as they are.
SHOWN: Dict[str, Callable[[Screen, Session, Sequence[str]], None]] = {
    "commit": committed,
    "load": committed,
    "instance": committed,
    "accept": committed,
    "discard": discarded,
    "equal": compared,
    "goals": all_goals,
    "qed": proved,
    "undo": undone,
}


def show(screen: Screen, session: Session, line: str, replies: List[str]) -> None:
    """Shows what was replied to a line that was taken."""
    shown = SHOWN.get(first_word(line)) or (goals if has(line, Flag.GOALS) else as_it_is)
    shown(screen, session, replies)
