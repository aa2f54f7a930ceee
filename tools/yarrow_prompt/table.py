"""The commands of the prompt as data, from which help, completion and the reading of lines are made."""

from dataclasses import dataclass
from enum import Enum
from typing import Dict, FrozenSet, List, Optional, Tuple

from yarrow_tools.tokens import name_end


class Flag(Enum):
    """What holds of the lines of a command.

    SENT: they go to the program; the prompt itself does those that have not got this flag.
    KEPT: they change the session, so they are given again after a new start, and saved.
    EVENT: they ask the core that sessions share, and `undo` reaches back as far as the last of them.
    GOALS: they are replied to by the goals that are left.
    TERMS: they have terms, so they may go on in the next line.
    UNBUILT: the program refuses them all as `NotBuilt`, for now."""

    SENT = "sent"
    KEPT = "kept"
    EVENT = "event"
    GOALS = "goals"
    TERMS = "terms"
    UNBUILT = "unbuilt"


class Offer(Enum):
    """What completion offers for the words after a command."""

    NOTHING = ""
    NAMES = "names"
    BODIES = "bodies"
    MODULES = "modules"
    LOADED = "loaded"
    FILES = "files"
    COMMANDS = "commands"
    SETTINGS = "settings"


class Group(Enum):
    """The groups of `help`, in its order."""

    PROVE = "prove"
    DECLARE = "declare"
    LIBRARY = "library"
    ASK = "ask"
    TERMINAL = "terminal"


# What `set` takes.
SWITCHES = ("unicode", "raw")
STATES = ("on", "off")


@dataclass(frozen=True)
class Command:
    """A command with the forms of its lines, what it does, and its group; and its flags, and what completes its words."""

    word: str
    forms: Tuple[str, ...]
    sentence: str
    group: Group = Group.TERMINAL
    flags: FrozenSet[Flag] = frozenset()
    completes: Offer = Offer.NOTHING

    @property
    def form(self) -> str:
        return ", or ".join(self.forms)


def row(word: str, forms: str, sentence: str, group: Group, flags: str = "", completes: Offer = Offer.NOTHING) -> Command:
    return Command(word, tuple(forms.split(" | ")), sentence, group, frozenset(map(Flag, flags.split())), completes)


PROVE, DECLARE, LIBRARY, ASK, TERMINAL = Group
STEP = "sent kept goals unbuilt"

ROWS: List[Command] = [
    row("theorem", "theorem X : TERM", "Begins a proof of TERM, which will be called X.", PROVE, STEP + " terms", Offer.NAMES),
    row("intro", "intro X", "Of a goal that is a product: its variable or premise becomes the hypothesis X.", PROVE, STEP),
    row("intros", "intros [X ..]", "intro with each name; without names, with those that the goal has.", PROVE),
    row("exact", "exact TERM", "Proves the goal by a term of its type.", PROVE, STEP + " terms", Offer.NAMES),
    row("apply", "apply TERM", "Proves the goal by a function whose result it is; what that takes are new goals.", PROVE, STEP + " terms", Offer.NAMES),
    row("assumption", "assumption", "Proves the goal by the first hypothesis that does, from the last one on.", PROVE),
    row("cut", "cut X : TERM", "Two goals: TERM, and then the old one under a hypothesis X : TERM.", PROVE, STEP + " terms", Offer.NAMES),
    row("unfold", "unfold NAME", "Puts the body of NAME for it everywhere in the goal.", PROVE, STEP, Offer.BODIES),
    row("convert", "convert TERM", "Makes TERM the goal, which must be convertible with the old one.", PROVE, STEP + " terms", Offer.NAMES),
    row("beta", "beta [X]", "Does the beta steps of the goal; or of the hypothesis X, as another hypothesis.", PROVE, "", Offer.NAMES),
    row("simplify", "simplify", "Computes the goal until its head is final: reduce, and then convert.", PROVE),
    row("goals", "goals", "Shows all goals.", PROVE, "sent goals unbuilt"),
    row("admit", "admit", "Leaves the goal: it becomes an assumption, declared before the theorem.", PROVE),
    row("qed", "qed", "Ends a proof that has no goal left. The theorem is in the draft.", PROVE, "sent kept unbuilt"),
    row("abort", "abort", "Gives the proof up.", PROVE, "sent kept unbuilt"),
    row("assume", "assume X : TERM", "Assumes X, of the type TERM. It is in the draft.", DECLARE, "sent kept terms", Offer.NAMES),
    row("define", "define X := TERM | define X : TERM := TERM", "Defines X. It is in the draft.", DECLARE, "sent kept terms", Offer.NAMES),
    row("rename", "rename X Y", "Gives the declaration X of the draft the name Y.", DECLARE, "sent kept", Offer.NAMES),
    row("draft", "draft", "Shows what is declared and not committed yet.", DECLARE, "sent"),
    row("discard", "discard", "Empties the draft.", DECLARE, "sent kept"),
    row("commit", "commit", "Makes the draft part of the context. Nothing takes it out again.", DECLARE, "sent kept event"),
    row("look", "look", "Moves to the newest context, where others commit to it too.", DECLARE, "sent kept event"),
    row("undo", "undo", "Takes the last line back, as far as the last commit, look or module.", DECLARE, "sent unbuilt"),
    row("back", "back [N]", "Takes back the last line that changed something, or N of them, also a commit.", DECLARE),
    row("load", "load M", "Takes in the module M, one of the files of the start.", LIBRARY, "sent kept event unbuilt", Offer.MODULES),
    row("instance", "instance M L TERM ; TERM", "Takes in M with terms for its parameters, under the label L.", LIBRARY, "sent kept event terms unbuilt", Offer.MODULES),
    row("accept", "accept M", "Takes in the declarations of the certificate M.cert, one of the files of the start.", LIBRARY, "sent kept event unbuilt", Offer.MODULES),
    row("open", "open [M ..]", "Names of these modules are written and read without them; without M those of none.", LIBRARY, "", Offer.LOADED),
    row("infer", "infer TERM", "Shows the type of TERM.", ASK, "sent terms", Offer.NAMES),
    row("reduce", "reduce TERM", "Computes TERM until its head is final: the weak head normal form.", ASK, "sent terms", Offer.NAMES),
    row("equal", "equal TERM ; TERM", "Whether the two terms are convertible, and else where they differ first.", ASK, "sent terms", Offer.NAMES),
    row("show", "show NAME", "Shows a declaration with its type and its body.", ASK, "sent", Offer.NAMES),
    row("listing", "listing NAME", "Shows a proof in numbered lines, each with what it proves and by what.", ASK, "", Offer.NAMES),
    row("names", "names [TEXT]", "The names with their types; with TEXT those that have it as a word in them.", ASK, "", Offer.NAMES),
    row("system", "system", "The sorts, axioms and rules.", ASK),
    row("help", "help [COMMAND]", "This list, or what one command does.", TERMINAL, "", Offer.COMMANDS),
    row("script", "script", "Shows the lines that were taken and change something.", TERMINAL),
    row("save", "save FILE", "Writes these lines to a file, as a script.", TERMINAL, "", Offer.FILES),
    row("run", "run FILE", "Takes the lines of a file, up to the first that is refused.", TERMINAL, "", Offer.FILES),
    row("export", "export M", "Writes M.yar, a module of what was declared here.", TERMINAL),
    row("transcript", "transcript [FILE]", "Writes what is typed and shown to the end of a file; without FILE no more.", TERMINAL, "", Offer.FILES),
    row("set", "set unicode on|off | set raw on|off", "Whether \\ @ -> # are shown as λ Π → □, and the program's own lines too.", TERMINAL, "", Offer.SETTINGS),
    row("budget", "budget N", "How many units of work a line may cost, from 0 to 10000000.", TERMINAL, "sent kept"),
    row("quit", "quit", "Leaves, as Ctrl-D does.", TERMINAL),
]
TABLE: Dict[str, Command] = {it.word: it for it in ROWS}


def first_word(text: str) -> str:
    """The first word of a line, as far as a blank; a command of the program's may do without one, as in `exact(x)`."""
    line = text.lstrip()
    name = line[: name_end(line, 0)]
    if name in TABLE and Flag.SENT in TABLE[name].flags:
        return name
    return line.split(None, 1)[0] if line else ""


def command_of(text: str) -> Optional[Command]:
    """The command of a line, or nothing where its first word is none."""
    return TABLE.get(first_word(text))


def has(text: str, flag: Flag) -> bool:
    """Whether the line has a command with this flag."""
    command = command_of(text)
    return command is not None and flag in command.flags


def of_group(group: Group) -> List[Command]:
    return [it for it in ROWS if it.group == group]


def is_unbuilt(group: Group) -> bool:
    """Whether the program takes none of the lines of a group yet."""
    sent = [it for it in of_group(group) if Flag.SENT in it.flags]
    return bool(sent) and all(Flag.UNBUILT in it.flags for it in sent)
