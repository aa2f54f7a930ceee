"""Entry of the tools that `bin/yarrow` starts: `python3 tools COMMAND WORD..`."""

import sys

from yarrow_tools.commands import main

sys.exit(main(sys.argv[1:]))
