"""A note: what is said of a stretch of a line."""

from typing import NamedTuple, Tuple


class Note(NamedTuple):
    """Sentences about the characters from `start` to before `end` of a line. The first can stand alone."""

    start: int
    end: int
    sentences: Tuple[str, ...]

    @property
    def text(self) -> str:
        return " ".join(self.sentences)
