"""Modules of one folder, given to the program from a folder of their own, so that what is checked may differ from the files."""

import os
import tempfile
from typing import Dict, List, Sequence

from .program import Answer, ask
from .source import MODULE, Source, module_path, read_source
from .specs import spec_path
from .tokens import KEYWORDS, name_end


class NoSource(Exception):
    """A file that can't be read, or modules that can't be checked together; the text says which."""


def sources(words: Sequence[str]) -> List[Source]:
    """The files that these words mean, which are in one folder."""
    found = []
    for word in words:
        path = module_path(word)
        name = os.path.splitext(os.path.basename(path))[0]
        if name_end(name, 0) != len(name) or "." in name or name in ("", "_", *KEYWORDS):
            raise NoSource(f"{name} can't be the name of a module: a name has letters, digits and _")
        try:
            found.append(read_source(path))
        except OSError as fault:
            raise NoSource(f"no file {path}" if isinstance(fault, FileNotFoundError) else f"{path} can't be read") from fault
    if len({os.path.realpath(it.folder) for it in found}) > 1:
        raise NoSource("the modules must be in one folder")
    return found


def batch(spec: str, contents: Dict[str, bytes]) -> Answer:
    """What `batch` answers in the system of this word, of modules with these names and contents."""
    with tempfile.TemporaryDirectory(prefix="yarrow-") as folder:
        for module, content in contents.items():
            with open(os.path.join(folder, module + MODULE), "wb") as file:
                file.write(content)
        path = spec_path(spec)
        return ask(["batch", os.path.abspath(path) if os.path.exists(path) else path, *contents], folder)
