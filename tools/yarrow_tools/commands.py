"""The commands that bin/yarrow hands to these tools, each with what it ends with."""

import errno
import os
import sys
from typing import Sequence

from . import batch, compare, join, lint, listing


def prove(words: Sequence[str]) -> int:
    """The prompt, of which the other commands need nothing."""
    from yarrow_prompt.start import run  # pylint: disable=import-outside-toplevel

    return run(words)


COMMANDS = {"compare": compare.run, "explain": batch.run, "join": join.run, "lint": lint.run, "prove": prove, "systems": listing.run}
NOT_WRITTEN = 5
# Why standard output could not be written, beside that nobody reads it: its file can't grow, or its device fails.
UNWRITTEN = (errno.ENOSPC, errno.EFBIG, errno.EDQUOT, errno.EIO)


def main(words: Sequence[str]) -> int:
    """Runs a command. The status 2 says that its words have no form, and 5 that what it prints could not be written."""
    if not words or words[0] not in COMMANDS:
        return 2
    try:
        status = COMMANDS[words[0]](words[1:])
        sys.stdout.flush()
    except OSError as error:
        if not isinstance(error, BrokenPipeError) and error.errno not in UNWRITTEN:
            raise
        os.dup2(os.open(os.devnull, os.O_WRONLY), 1)
        return NOT_WRITTEN
    except KeyboardInterrupt:
        return 130
    if status == 2:
        print("usage")
    return status
