"""Whether fuzz.py tells programs that do one thing wrong, by the condition that isn't met.

Such a program is the built one, of which what it is given, what it prints or how it ends is changed
on the way. Each is told by one of the first random scripts.

    broken.py PROGRAM ECHO
"""

import re
import sys

import fuzz
from scripts import random_script

COUNT = 300


class Broken(fuzz.Program):
    """The built program, with one function that changes what a run gives: it is handed how to run
    the built one, and the words, the input and the pieces."""

    def __init__(self, path, echo, change):
        super().__init__(path, echo)
        self.change = change

    def run(self, words, data, pieces=()):
        return self.change(super().run, words, data, pieces)


# ---- what is given


def given(pattern, other):
    """Takes bytes for others, in an input that comes whole or in pieces."""

    def change(run, words, data, pieces):
        return run(words, re.sub(pattern, lambda _: other, data), ())

    return change


def loses_a_byte(run, words, data, pieces):
    """Loses the first byte of the third piece."""
    pieces = list(pieces)
    if len(pieces) > 2:
        pieces[2] = pieces[2][1:]
    return run(words, data, [it for it in pieces if it])


def decodes(run, words, data, pieces):
    """Reads bytes that are no UTF-8 as some character."""
    return run(words, data.decode(errors="replace").encode(), ())


# ---- what is printed


def printed(pattern, other, mode="replay", workers=None):
    """Prints another text in the last place in which a pattern is met."""

    def change(run, words, data, pieces):
        status, text = run(words, data, pieces)
        found = list(re.finditer(pattern, text, re.M))
        if words[0] == mode and workers in (None, *words) and found:
            at = found[-1]
            text = text[: at.start()] + at.expand(other) + text[at.end() :]
        return status, text

    return change


def after(word):
    """Says that more chains were written where a word stands before."""

    def change(run, words, data, pieces):
        status, text = run(words, data, pieces)
        return status, re.sub(rf"(?s)({word}.*written )", r"\g<1>1", text)

    return change


def replays(run, words, data, pieces):
    """Answers by thresholds where a remainder is asked for, though without trails."""
    if words[0] != "vmap":
        return run(words, data, pieces)
    status, text = run(["replay"], data, pieces)
    return status, re.sub(r"(?m)^(trail \d+): .*$", r"\1: none", text)


# ---- how it ends


def ends(other, pattern, mode="replay"):
    """Ends otherwise, where a pattern is met in the text."""

    def change(run, words, data, pieces):
        status, text = run(words, data, pieces)
        return (other if words[0] == mode and re.search(pattern, text) else status), text

    return change


PACKET = r"packet \d+ at \d+: "
# each broken program, and how it is told
PROGRAMS = {
    "ends well where a line was refused": (ends(0, ": refused: "), "status"),
    "ends for want of memory where names clash": (ends(1, "chain name"), "status"),
    "ends by a signal after a long list": (ends(-6, "too many at"), "status"),
    "ends a live run as one without refusals": (ends(0, "not for live", "live"), "status"),
    "passes over what comes after the last line feed": (given(rb"[^\n]+\Z", b""), "answers"),
    "doesn't count blank lines": (given(rb"(?m)^[ \t\r]*\n", b""), "answers"),
    "reads bytes that are no UTF-8": (decodes, "answers"),
    "reads half a character": (given(rb"\\ud800", b"x"), "answers"),
    "doesn't read an escape": (given(rb"\\u0", b"\\x0"), "answers"),
    "says no trail": (printed(r"^trail .*\n", ""), "answers"),
    "answers by older tables": (printed(r"(?<=^packet )(\d+) at [1-9]+", r"\1 at 0"), "answers"),
    "loses an event": (printed(r"(?<=: events )([1-9]\d*)", "0"), "answers"),
    "prints a line twice": (printed(r"^sync .*\n", r"\g<0>\g<0>"), "answers"),
    "loses a byte between pieces": (loses_a_byte, "pieces and workers"),
    "swaps what two workers answer": (
        printed(f"^({PACKET})(.*\n)({PACKET})(?!\\2)(.*\n)", r"\1\4\3\2", workers="4"),
        "pieces and workers",
    ),
    "sends a packet elsewhere than it explains": (
        printed(rf"^(explain .*\n{PACKET}).*$", r"\1dropped"),
        "verdict",
    ),
    "keeps something of a refused line": (after("refused"), "what marked lines leave"),
    "keeps something of an explanation": (after("explain"), "what marked lines leave"),
    "prints an address without its length": (printed(r"/32 ", " "), "echo"),
    "prints a rule twice in another table": (
        printed(r"^COMMIT\n\*filter\n(?=:INPUT)", r"-A KUBE-SVC-X -j ACCEPT\n\g<0>"),
        "echo",
    ),
    "answers a later packet anew": (printed(r"(?<=: )later (?=to )", "", "track"), "track"),
    "keeps no connection": (printed(f"^{PACKET}to .*", r"\g<0> untracked", "track"), "track"),
    "maps as a replay walks": (replays, "vmap"),
    "maps to the next place": (
        printed(r"(?<= by draws place )([1-9])$", r"\g<1>1", "vmap"),
        "vmap",
    ),
    "maps to another list": (printed("list cluster size", "list local size", "vmap"), "vmap"),
    "maps what is left alone": (
        printed(f"^({PACKET})left alone$", r"\1dropped", "vmap"),
        "vmap",
    ),
    "says a trail where it maps": (printed(r"(?<=^trail )(\d+): none", r"\1: OUTPUT", "vmap"), "vmap"),
    "explains another endpoint than it maps to": (
        printed(rf"^(explain .*\n{PACKET}to ).*$", r"\g<1>10.0.0.99:1", "vmap"),
        "verdict",
    ),
    "loses the last path": (printed(r"^path .*\n(?!path )", "", "paths"), "paths"),
    "gives a path another chance": (printed(r"(?<=^path )(.* chance [01]\.\d{9})\d", r"\g<1>7", "paths"), "paths"),
    "has paths that lead elsewhere": (
        printed(r"(?<=^path )(\d+ 1 of 1 .*: to )\S+", r"\g<1>10.0.0.99:1", "paths"),
        "paths",
    ),
    "has an endpoint beside the paths twice": (printed(r"^aside .*\n", r"\g<0>\g<0>", "paths"), "paths"),
    "has a source twice": (printed(r"^source .*\n", r"\g<0>\g<0>", "paths"), "paths"),
    "has sources before the paths": (
        printed(r"^((?:path .*\n)+)((?:aside .*\n)*)((?:source .*\n)+)", r"\3\1\2", "paths"),
        "paths",
    ),
    "takes a stream's events in another order": (
        printed(r"^(event \d+: )(.*\n)(event \d+: )(.*\n)", r"\1\4\3\2", "live"),
        "live",
    ),
    "loses the sync at the end of a live run": (printed(r"^final: record.*\n", "", "live"), "live"),
    "prints older tables after a live run": (
        printed(r"(?s)^:KUBE-SVC-.*(?=COMMIT\n\*filter)", "", "live"),
        "live",
    ),
}  # fmt: skip


def told_of(name):
    """What is wrong about what is told of a broken program, or nothing."""
    change, kind = PROGRAMS[name]
    program = Broken(fuzz.built.path, fuzz.built.echo, change)
    faults = []
    for seed in range(1, COUNT + 1):
        faults += filter(None, [fuzz.fault_of(program, random_script(seed), seed)])
        if faults and faults[-1].partition(":")[0] == kind:
            return ""
    return f"checks: fuzz: a program that {name} is told so: {faults[:3]}"


def main(path, echo):
    """Tells the programs that aren't told, or are told otherwise."""
    with fuzz.processes(path, echo) as pool:
        wrong = list(filter(None, pool.imap(told_of, PROGRAMS)))
    print(*wrong, sep="\n", end="\n" * bool(wrong))
    return int(bool(wrong))


if __name__ == "__main__":
    sys.exit(main(*sys.argv[1:]))
