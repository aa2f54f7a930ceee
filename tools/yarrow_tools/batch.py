"""A refusal of `batch` in sentences, with its line, on standard error. The program has printed its own line by then."""

import os
import sys
import textwrap
from typing import List, Sequence

from .asking import NoSource, sources
from .lint import line_of, of_the_spec
from .program import Answer, ask
from .refusal import refusal
from .screen import marked, width_of
from .sentences import explained
from .source import Source

# The folder of the module as the user wrote it, with a slash at its end, where it isn't the current one.
FOLDER = "YARROW_FOLDER"


def shown(source: Source, printed: str, width: int) -> List[str]:
    """The lines that explain what the program printed of the module of this source."""
    refused = refusal(printed)
    if not refused:
        return []
    line, note = explained(source, refused)
    lines = [line_of(os.environ.get(FOLDER, "") + source.path, source.position(line, note.start, note.end), note.sentences[0] if note.sentences else "")]
    lines += marked(source.line(line), note.start, note.end, width)
    for said in note.sentences[1:]:
        lines += textwrap.wrap(said, width - 4, initial_indent="  ", subsequent_indent="  ", break_long_words=False, break_on_hyphens=False)
    return lines


def explanation(words: Sequence[str], answer: Answer, width: int) -> List[str]:
    """What is said on standard error of an answer to `batch` with these words."""
    if answer.status == 3:
        return [of_the_spec(words[0], answer.last_line)]
    if answer.status != 1:
        return []
    refused = refusal(answer.last_line)
    try:
        given = {it.module: it for it in sources(words[1:])}
    except NoSource:
        return []
    return shown(given[refused.module], answer.last_line, width) if refused and refused.module in given else []


def run(words: Sequence[str]) -> int:
    answer = ask(["batch", *words])
    for line in explanation(words, answer, width_of(sys.stderr)):
        print(line, file=sys.stderr)
    return answer.status
