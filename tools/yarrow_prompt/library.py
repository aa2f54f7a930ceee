"""The modules and certificates that are named at the start, of which a session loads what it wants."""

import os
import re
from typing import Dict, List, NamedTuple, Optional, Sequence, Tuple

from yarrow_tools.source import MODULE, Source, read_source

CERTIFICATE = ".cert"
STATED = re.compile(r"[ \t]*(assume|define|parameter)[ \t]+(\w+)")
CERTIFIED = re.compile(rb"^(assume|define) (\S+)$", re.MULTILINE)


class Declared(NamedTuple):
    """A declaration of a file: its name there, and whether it has a body."""

    name: str
    has_body: bool


class Library:
    """Files of one folder, by the names that the program knows them by: M for M.yar, M.cert for a certificate."""

    def __init__(self, names: Sequence[str] = (), folder: str = ""):
        self.names, self.folder = tuple(names), folder
        self.sources: Dict[str, Optional[Source]] = {}

    @property
    def modules(self) -> List[str]:
        return [it for it in self.names if not it.endswith(CERTIFICATE)]

    @property
    def certificates(self) -> List[str]:
        return [it[: -len(CERTIFICATE)] for it in self.names if it.endswith(CERTIFICATE)]

    def source(self, module: str) -> Optional[Source]:
        """The text of a module, or nothing where it can't be read."""
        if module not in self.sources:
            try:
                self.sources[module] = read_source(os.path.join(self.folder, module + MODULE))
            except OSError:
                self.sources[module] = None
        return self.sources[module]

    def stated_in(self, module: str) -> List[Tuple[str, str]]:
        """The lines of a module that state something, each by its first word and its name."""
        source = self.source(module)
        found = map(STATED.match, source.lines if source else [])
        return [(it[1], it[2]) for it in found if it]

    def declared_in(self, module: str) -> List[Declared]:
        """What a module declares."""
        return [Declared(name, word == "define") for word, name in self.stated_in(module) if word != "parameter"]

    def certified_in(self, certificate: str) -> List[Declared]:
        """What a certificate declares."""
        try:
            with open(os.path.join(self.folder, certificate + CERTIFICATE), "rb") as file:
                found = CERTIFIED.findall(file.read())
        except OSError:
            return []
        return [Declared(name.decode("utf-8", "replace"), word == b"define") for word, name in found]

    def has_parameters(self, module: str) -> bool:
        return any(word == "parameter" for word, _ in self.stated_in(module))

    def in_order(self, modules: Optional[Sequence[str]] = None) -> List[str]:
        """These modules, or all, each after those that it uses, as far as they are here."""
        found: List[str] = []

        def visit(module: str, around: Tuple[str, ...]) -> None:
            source = self.source(module)
            for used in source.uses() if source else []:
                if used in self.modules and used not in around:
                    visit(used, (*around, module))
            if module not in found:
                found.append(module)

        for module in self.modules if modules is None else modules:
            visit(module, ())
        return found


def library_of(words: Sequence[str]) -> Optional[Library]:
    """The files that words of the command line mean, with their folder and with .yar or without; nothing, where they are in
    several folders."""
    folders = {os.path.dirname(it) for it in words}
    if len(folders) > 1:
        return None
    names = [os.path.basename(it) for it in words]
    return Library([it[: -len(MODULE)] if it.endswith(MODULE) else it for it in names], "".join(folders))
