"""Stands in for `replay SPEC`: it takes what is declared for right, and replies to some lines what they ask for.

`infer T ! SAID` is refused with SAID; `reduce hang` takes for ever, and `reduce end N` ends with the status N, or by the signal -N.
In the system `none` it ends at once, and in `once` where it is started a second time, for which it leaves a file."""

import os
import re
import sys
import time

def declared(rest, drafted):
    found = re.fullmatch(r"(\S+)(?: : (.*?))?(?: := (.*))?", rest)
    drafted[found[1]] = f"{found[1]} := {found[3]} : {found[2] or 'T'}" if found[3] else f"{found[1]} : {found[2]}"
    return f"{'defined' if found[3] else 'assumed'} {found[1]} : {found[2] or 'T'}"


def reduced(rest):
    if rest == "hang":
        time.sleep(1000)
    if rest.startswith("end "):
        status = int(rest[4:])
        if status < 0:
            os.kill(os.getpid(), -status)
        sys.exit(status)
    return rest


def reply(line, drafted, context):
    word, _, rest = line.partition(" ")
    if word in ("assume", "define"):
        return [declared(rest, drafted)]
    if word == "commit":
        context.update(drafted)
        return [f"committed {len(context) - len(drafted)} {len(context)}"]
    if word == "infer":
        return [f"refused {rest.partition('! ')[2]}"] if "! " in rest else [f"{rest} : T"]
    one = {"discard": f"discarded {len(drafted)}", "look": f"seen {len(context)}", "budget": line, "equal": "no 1.0", "show": {**context, **drafted}.get(rest, "refused UnknownName 5 x")}
    if word == "draft":
        return [f"draft {len(drafted)}", *drafted.values()]
    return [reduced(rest)] if word == "reduce" else [one.get(word, "refused Expected 0 Command")]


def play():
    drafted, context, lines, rounds = {}, {}, [], 0
    for given in sys.stdin:
        if given != "go\n":
            lines.append(given[len("@1 ") : -1])
            continue
        rounds += 1
        for line in lines:
            for it in reply(line, drafted, context):
                print("@1", it)
            if line in ("commit", "discard"):
                drafted = {}
        print("order" + " 1" * sum(it in ("commit", "look") for it in lines))
        print("done", rounds, flush=True)
        lines = []


if __name__ == "__main__":
    if sys.argv[1] == "none":
        print("no file none")
        sys.exit(6)
    if sys.argv[1].startswith("once "):
        if os.path.exists(sys.argv[1][5:]):
            sys.exit(9)
        with open(sys.argv[1][5:], "wb"):
            pass
    play()
