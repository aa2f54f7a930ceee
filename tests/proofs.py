"""What a person sees of proofs and modules at the prompt. The program doesn't take their lines yet, so a stand-in plays rounds that
were recorded by hand; once it does, they are held against the program's own."""

import os
import shutil
import signal
import subprocess
import sys
from typing import List, Tuple

from person import CTRL_C, CTRL_D, ENTER, SCRIPT, SECONDS, STAND_IN, TAB, TOOLS, Person, contents, environment_of, is_as_wanted, plays, shown, written

HERE = os.path.dirname(os.path.realpath(__file__))
ROUNDS, SCREENS = os.path.join(HERE, "rounds"), os.path.join(HERE, "screens")
SWAP = [
    "load logic",
    "theorem swap : @A:*. @B:*. logic.And A B -> logic.And B A",
    "intro A",
    "intro B",
    "intro p",
    "apply logic.pair",
    "exact logic.snd A B (p )",
    "exact logic.fst A B p",
    "qed",
]
STARTED = "started anew, 6 lines given again. The last line was not taken."
# What `undo` shows of a proof that has no goal left.
DONE = ["undone", "no goal is left: qed ends the proof"]


def with_modules(folder: str) -> str:
    """The folder, with the modules of the records in it."""
    for name in os.listdir(ROUNDS):
        if name.endswith(".yar"):
            shutil.copy(os.path.join(ROUNDS, name), folder)
    return folder


def run_screens(folder: str) -> List[bool]:
    """The sessions that are written in tests/screens, each on so many columns."""
    outcomes = []
    for name in sorted(os.listdir(SCREENS)):
        head, *lines = contents(os.path.join(SCREENS, name)).splitlines()
        _, width, *words = head.split()
        person = Person(with_modules(folder), *words, width=int(width), stand_in=True)
        outcomes += plays(f"the screen {name}", person, lines)
        person.leave()
    return outcomes


def run_looks(folder: str) -> List[bool]:
    """Colours of goals where they are wanted, no escapes on a dumb terminal, and a rule of other signs where there is no UTF-8."""
    outcomes = []
    plain = {"LANG": "C", "PYTHONUTF8": "0", "PYTHONCOERCECLOCALE": "0"}
    for more, bold, escaped, rule in (({}, True, True, "─"), ({"NO_COLOR": "1"}, False, True, "─"), ({"TERM": "dumb"}, False, False, "─"), (plain, True, True, "-")):
        person = Person(with_modules(folder), "LC", "logic", stand_in=True, **more)
        person.press(SWAP[1].encode() + ENTER)
        raw = person.until("swap> ")
        outcomes.append(is_as_wanted(f"a goal with {more}", ("\x1b[1m  @A:*." in raw, "\x1b" in raw, rule * 40 in raw), (bold, escaped, True)))
        person.rest(CTRL_D + CTRL_D)
    return outcomes


def at_swap(folder: str, count: int) -> Person:
    """Somebody who has typed so many lines of the proof of swap, of which the first is given by itself."""
    person = Person(with_modules(folder), "LC", "logic", stand_in=True)
    for line in SWAP[1:count]:
        person.line(line)
    return person


def run_ways_back(folder: str) -> List[bool]:
    """The program is killed in a proof and starts anew; undo reaches as far as before; what was ended is open again."""
    person = at_swap(folder, 6)
    goals = person.line("goals")
    person.kill_program()
    outcomes = [
        is_as_wanted("the program is killed in a proof", " ".join(person.line("goals")), f"the program ended, signal 9: {STARTED}"),
        is_as_wanted("the goals after that", person.asked("goals"), (goals, "swap 2>")),
        is_as_wanted("undo to the start of the proof", [person.asked("undo")[1] for _ in range(5)], ["swap>", "swap>", "swap>", "swap>", "LC>"]),
        is_as_wanted("undo as far as a module", person.line("undo")[0], "  There is nothing that undo takes back. The command back takes a commit"),
        is_as_wanted("back over the module", person.line("back"), ["taken back: load logic"]),
        is_as_wanted("nothing is left", person.line("names"), ["  Nothing is declared yet."]),
    ]
    person.leave()
    person = at_swap(folder, 6)
    os.kill(person.program(), signal.SIGSTOP)
    person.press(b"exact p" + ENTER)
    person.until("computing, Ctrl-C stops ..")
    person.press(CTRL_C)
    outcomes.append(is_as_wanted("Ctrl-C in a proof", "stopped: started anew, 6 lines given again." in person.until(person.prompt), True))
    outcomes.append(is_as_wanted("the goals after Ctrl-C", person.asked("goals"), (goals, "swap 2>")))
    person.leave()
    person = at_swap(folder, 9)
    outcomes += [
        is_as_wanted("a proof that ended", person.line("names swap"), ["swap : @A:*. @B:*. logic.And A B -> logic.And B A"]),
        is_as_wanted("it is open again", person.asked("undo"), (DONE, "swap 0>")),
        is_as_wanted("and not declared", person.line("names swap"), ["  No name or type has swap in it."]),
        is_as_wanted("it ends again", person.asked("qed")[1], "LC>"),
        is_as_wanted("a commit", person.line("commit"), ["committed 1 declaration"]),
        is_as_wanted("back over a commit", person.line("back 2"), ["taken back: commit", "taken back: qed", DONE[1]]),
    ]
    person.leave()
    return outcomes


def run_refused_events(folder: str) -> List[bool]:
    """A module that is loaded twice: undo ends there, and does so when the lines are given again."""
    person = Person(with_modules(folder), "LC", "logic", stand_in=True)
    wanted = ["  load logic", "       ^^^^^", "  There is a module with the label logic already."]
    outcomes = [
        is_as_wanted("a label that is there already", person.line("load logic"), wanted),
        is_as_wanted("it is kept as a look", person.line("script"), ["  load logic", "  look"]),
    ]
    person.leave()
    return outcomes


def script_of(folder: str, words: Tuple[str, ...], *lines: str) -> Tuple[List[str], int]:
    """What is printed of a script over the stand-in, by lines, and the status."""
    environment = environment_of(folder, YARROW_PROGRAM=STAND_IN)
    given = "".join(it + "\n" for it in lines).encode()
    ran = subprocess.run([sys.executable, "-B", TOOLS, "prove", *words], input=given, stdout=subprocess.PIPE, cwd=folder, env=environment, timeout=SECONDS)
    return ran.stdout.decode().splitlines(), ran.returncode


def run_keeping(folder: str) -> List[bool]:
    """Proofs are saved without what was given up, and run again; a module of them uses what they use; leaving asks once."""
    person = at_swap(folder, 9)
    outcomes = [
        is_as_wanted("a proof is saved", person.line("save a.prove"), ["saved 9 lines to a.prove"]),
        is_as_wanted("the saved lines", contents(os.path.join(folder, "a.prove")).splitlines(), ["% yarrow prove LC logic", *SWAP]),
        is_as_wanted("the module of it", person.line("export mine"), ["mine.yar has 1 declaration. This checks it: bin/yarrow batch LC logic", "mine"]),
        is_as_wanted("its lines", contents(os.path.join(folder, "mine.yar")).splitlines()[1:3], ["module mine", "uses logic"]),
    ]
    person.line("undo")
    person.press(CTRL_D)
    outcomes.append(is_as_wanted("Ctrl-D in a proof", "The proof of swap is open, and the lines are not saved" in person.until(person.prompt), True))
    person.rest(CTRL_D)
    person = Person(folder, "LC", stand_in=True)
    outcomes.append(is_as_wanted("a module that is not among the words", person.line("load logic")[-1], "  refused Unrecorded"))
    person.leave()
    checked = subprocess.run([SCRIPT, "batch", "LC", "logic"], stdout=subprocess.PIPE, cwd=folder, timeout=SECONDS).stdout.decode().splitlines()[-1:]
    outcomes.append(is_as_wanted("the module of the stand-in", checked, ["done 6"]))
    pipe = f"sed -n '/^[^%]/s/^/@1 /p' a.prove | '{STAND_IN}' replay LC logic"
    replies = subprocess.run(["sh", "-c", pipe], stdout=subprocess.PIPE, cwd=folder, timeout=SECONDS).stdout.decode().splitlines()
    proved = "@1 defined swap : @A:*. @B:*. logic.And A B -> logic.And B A"
    outcomes.append(is_as_wanted("the saved lines without the prompt", (replies[-3], [it for it in replies if "refused" in it]), (proved, [])))
    printed, status = script_of(folder, ("LC", "logic"), *contents(os.path.join(folder, "a.prove")).splitlines(), "draft")
    return [*outcomes, is_as_wanted("the saved lines as a script", ("draft 1" in printed, status), (True, 0))]


def run_completion(folder: str) -> List[bool]:
    """TAB after the words of proofs."""
    outcomes = []
    person = at_swap(folder, 5)
    offered = {
        b"infer sn": ["logic.snd : @A:*. @B:*. logic.And A B -> B"],
        b"unfold ": ["  (\\A:*. \\B:*. @C:*. (A -> B -> C) -> C) B A"],
        b"open ": [],
    }
    for keys, wanted in offered.items():
        person.press(keys + TAB + ENTER)
        outcomes.append(is_as_wanted(f"completion of {keys!r}", shown(person.until(person.prompt))[-1:], wanted))
    person.leave()
    return outcomes


def run_scripts(folder: str) -> List[bool]:
    """A script ends well only where its proofs are ended; the first refusal is the last line."""
    with_modules(folder)
    words = ("LC", "logic")
    opened, status = script_of(folder, words, *SWAP[:5])
    return [
        is_as_wanted("a proof that is open at the end", (opened[-1], status), ("the proof of swap is open at the end", 1)),
        is_as_wanted("a refusal in a proof", script_of(folder, words, *SWAP[:6], "exact p", "abort")[0][-5:], ["refused term - NotConvertible - logic.And A B ; B", "  exact p", "        ^", "  This has the type logic.And A B, and should have the type B.", "line 7 was refused"]),
        is_as_wanted("proofs that are ended", script_of(folder, words, *SWAP)[1], 0),
        is_as_wanted("modules in their folder", script_of(os.path.dirname(folder), ("LC", os.path.join(folder, "logic.yar")), *SWAP)[1], 0),
        is_as_wanted("modules of two folders", script_of(folder, ("LC", "a/b", "logic")), (["usage"], 2)),
    ]


def recorded(name: str) -> Tuple[List[str], List[str], List[str]]:
    """The words of the start of a record, its lines, and their replies one after another."""
    head, *lines = contents(os.path.join(ROUNDS, name)).splitlines()
    return head.split()[1:], [it[2:] for it in lines if it.startswith("> ")], [it for it in lines if not it.startswith("> ") and it != "order 1"]


def run_recorded(folder: str) -> List[bool]:
    """The recorded rounds, held against those of the program, where it takes their lines."""
    outcomes = []
    with_modules(folder)
    for name in sorted(it for it in os.listdir(ROUNDS) if "." not in it):
        words, lines, wanted = recorded(name)
        given = "".join(f"@1 {it}\ngo\n" for it in lines).encode()
        ran = subprocess.run([SCRIPT, "replay", *words], input=given, stdout=subprocess.PIPE, stderr=subprocess.DEVNULL, cwd=folder, timeout=SECONDS)
        replies = [it[3:] for it in ran.stdout.decode().splitlines() if it.startswith("@1 ")]
        if not replies or "refused NotBuilt" in replies:
            print(f"prove: the rounds {name}: passed over, since the program doesn't take all of their lines yet")
            continue
        differs = next((place for place, (got, want) in enumerate(zip(replies, wanted)) if got != want), None)
        got = (len(replies), replies[differs]) if differs is not None else len(replies)
        outcomes.append(is_as_wanted(f"the rounds {name}", got, (len(wanted), wanted[differs]) if differs is not None else len(wanted)))
    return outcomes


PARTS = {
    "proofs": run_screens,
    "goals": run_looks,
    "back": run_ways_back,
    "events": run_refused_events,
    "proof-keeping": run_keeping,
    "proof-completion": run_completion,
    "proof-scripts": run_scripts,
    "recorded": run_recorded,
}
