"""Each refusal of a session's line in sentences, with the stretch of the line that they speak of."""

import difflib
from typing import Dict, Optional, Tuple

from yarrow_tools import reading
from yarrow_tools.refusal import Refusal, refusal_of_line
from yarrow_tools.statements import Language
from yarrow_tools.tokens import tokens

from .around import Around, Explained
from .loading import OF_A_MODULE
from .stepping import OF_A_STEP, of_a_flaw
from .table import ROWS, TABLE, Command, Flag, Group, first_word, has

SESSION = Language({it.word: it.form for it in ROWS})
# The refusals that have a place, and those that have another word after it.
PLACED = ("BadChar", "LongName", "TooDeep")
PLACED_WITH = ("Expected", "UnknownName", "UnknownSort")
# What other provers call it.
OTHERS = {
    **dict.fromkeys(("check", "type"), "infer"),
    **dict.fromkeys(("compute", "eval", "normalize", "whnf"), "reduce"),
    **dict.fromkeys(("print", "about"), "show"),
    **dict.fromkeys(("definition", "def", "let"), "define"),
    **dict.fromkeys(("axiom", "parameter", "postulate", "variable", "hypothesis", "constant"), "assume"),
    **dict.fromkeys(("search", "locate"), "names"),
    **dict.fromkeys(("exit", "bye", "q"), "quit"),
    **dict.fromkeys(("lemma", "corollary", "proposition", "fact"), "theorem"),
    **dict.fromkeys(("have", "assert"), "cut"),
    **dict.fromkeys(("change", "replace"), "convert"),
    **dict.fromkeys(("simpl", "cbn", "cbv"), "beta"),
    **dict.fromkeys(("require", "import", "uses"), "load"),
    **dict.fromkeys(("sorry", "admitted"), "admit"),
    **dict.fromkeys(("done", "defined"), "qed"),
    "refine": "apply",
    "delta": "unfold",
    "restart": "back",
}
# What to do instead, as long as the program doesn't take the lines of a command or of its group.
UNTIL_BUILT: Dict[object, str] = {
    Group.PROVE: "A proof is a term here: define X : TERM := TERM.",
    Group.LIBRARY: "A module is checked by: bin/yarrow batch SPEC MODULE",
    "undo": "The command back takes lines back.",
}
OF_THE_LINE = {
    "NothingToCommit": "The draft is empty.",
    "NothingToUndo": "There is nothing that undo takes back. The command back takes a commit back, too.",
    "ProofOpen": "A proof is open: qed ends it, and abort gives it up.",
    "NoProof": "No proof is open. One begins with: theorem X : TERM",
    "NoGoal": "No goal is left: qed ends the proof.",
    "DraftOpen": "The draft has declarations: commit makes them part of the context, and discard drops them.",
    "OtherSystem": "The certificate is of another system.",
    "Spent": "The budget of the line is used up. More is given by budget N, up to 10000000.",
    "Deep": "A term on the way is deeper than 2,000 or larger than 1,000,000, or inference or a comparison nests too deep.",
    "ContextFull": "With the draft the context would have more than 200,000 entries.",
}
OF_A_NAME = {
    "Taken": "{0} is declared already. Take another name.",
    "Clash": "{0} was committed by another session. Declare it under another name.",
    "NoBody": "{0} has no body: it is an assumption or a hypothesis.",
    "NotThere": "{0} does not occur in the goal.",
    "GoalsLeft": "There are goals left ({0}). The command goals shows them.",
    "NoModule": "{0} is none of the modules that were named at the start.",
    "NoCertificate": "{0}.cert is none of the certificates that were named at the start.",
    "NotLoaded": "It uses the module {0}, which is not loaded: load {0}",
    "Loaded": "There is a module with the label {0} already.",
    "Reserved": "{0} is the name of a module, and can't be the label of an instance.",
    "WrongCount": "Parameters of the module: {0}. Terms that are given: {1}.",
    "Dotted": "The certificate declares {0}, and a name of several parts can't be taken in.",
}
OF_A_LABEL = ("Loaded", "Reserved")


def unbuilt(command: Command) -> Tuple[str, ...]:
    """Of a command whose lines the program doesn't take yet."""
    said = f"The command {command.word} is not built yet: the program refuses it."
    instead = UNTIL_BUILT.get(command.word) or UNTIL_BUILT.get(command.group)
    return (said, instead) if instead else (said,)


def no_command(word: str) -> Tuple[str, ...]:
    """Of a line whose first word is no command."""
    small = word.lower().rstrip(".:")
    if small in OTHERS:
        other = TABLE[OTHERS[small]]
        said = f"There is no command {word}. Here it is {other.word}: {other.form}"
        return (said, *unbuilt(other)) if Flag.UNBUILT in other.flags else (said,)
    near = [small] if small in TABLE else difflib.get_close_matches(small, list(TABLE), 2, 0.6)
    hint = f" Near to it: {', '.join(near)}." if near else " The command help lists them."
    return (f"There is no command {word}.{hint}",)


def unknown_name(name: str, around: Around) -> str:
    """Of a name that nothing has."""
    if name in reading.TYPES:
        return f"{name} is no sort here: the sort of types is *. The command system shows all sorts."
    if name in reading.HABITS:
        return reading.HABITS[name]
    module, dot, _ = name.partition(".")
    if dot and module in around.library.modules and not any(it.startswith(f"{module}.") for it in around.known):
        return f"{name} is of the module {module}, which is not loaded: load {module}"
    near = reading.near_names(name, around.known)
    said = f"{name} is no binder{', no hypothesis' if around.goal else ''} and no declaration."
    return f"{said} Near to it: {', '.join(near)}." if near else said


def of_reading(line: str, refused: Refusal, around: Around) -> Explained:
    """Of a refusal of tokens, grammar or names, which has a place in bytes."""
    word = first_word(line)
    place = reading.place_in(line, refused.place)
    found = reading.stretch(line, place)
    if refused.kind == "Expected" and refused.words[1] == "Command":
        return Explained((0, max(1, len(word))), no_command(word))
    if refused.kind == "UnknownName":
        return Explained(found, (unknown_name(refused.words[1], around),))
    if refused.kind == "UnknownSort":
        return Explained(found, (f"The system has no sort {refused.words[1]}. The command system shows all sorts.",))
    if refused.kind == "Expected":
        note = reading.expected(line, place, refused.words[1], around.known, SESSION)
        found, said = (note.start, note.end), note.sentences
    elif refused.kind == "BadChar":
        said = (reading.bad_char(line, place, SESSION),)
    elif refused.kind == "LongName":
        said = ("This name has more than 128 bytes.",)
    else:
        said = ("The term is nested deeper than 2,000." if place >= len(line) else "2,000 parentheses are open here already.",)
    return Explained(found, said if word in TABLE else no_command(word) + said)


def name_in(line: str, refused: Refusal) -> Optional[Tuple[int, int]]:
    """Where the name of a refusal is in a line, after its first word; that of a label in `instance M L`, after M."""
    start = 2 if refused.kind in OF_A_LABEL and first_word(line) == "instance" else 1
    return next(((it.start, it.end) for it in tokens(line)[start:] if it.text == refused.words[0]), None)


def has_place(refused: Refusal) -> bool:
    """Whether the refusal is one of tokens, grammar or names, which have a place."""
    count = len(refused.words)
    return (refused.kind in PLACED and count == 1 or refused.kind in PLACED_WITH and count == 2) and refused.words[0].isdigit()


def explained(line: str, said: str, around: Around) -> Explained:
    """What is said of a line that the program refused with these words."""
    refused = refusal_of_line(said)
    if has_place(refused):
        return of_reading(line, refused, around)
    if refused.part:
        return of_a_flaw(line, refused, around)
    explainers = OF_A_STEP if has(line, Flag.GOALS) else OF_A_MODULE if has(line, Flag.EVENT) else {}
    if refused.kind in explainers:
        return explainers[refused.kind](line, refused, around)
    if refused.kind in OF_A_NAME and refused.words:
        words = (*refused.words, "")
        return Explained(name_in(line, refused), (OF_A_NAME[refused.kind].format(*map(around.short, words)),))
    if refused.kind == "NotBuilt":
        word = first_word(line)
        return Explained((0, len(word)), unbuilt(TABLE[word]) if word in TABLE else (f"refused {said}",))
    return Explained(None, (OF_THE_LINE.get(refused.kind, f"refused {said}"),))
