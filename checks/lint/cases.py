"""Tables of inputs, with the notes on them.

A case is a few lines up to an empty one:
    code CODE      the code that the input has, and its neighbour hasn't
    has LINE       a line of the input
    says TEXT      a note on it, in order; there are no others
    not LINE       a line of the neighbour, which has no note
    else TEXT      a note that the neighbour has all the same, in order
    live           the notes of `--live`
    alone          the table's first lines don't come before
The other lines of a table:
    # TEXT         a remark
    always LINE    a line that comes before those of each case from here on
In a line <c3 a4> are bytes, <127*[> is a text so many times, and <n> is a line feed, as in
../hostile.
"""

import shutil
import subprocess
import sys
from functools import lru_cache
from pathlib import Path

HERE = Path(__file__).resolve().parent
sys.path += [str(HERE.parent / "hostile"), str(HERE.parent.parent / "tools")]

from hostile import bytes_of
from kp.lint.source import notes_on

TABLES = ("refusals", "forms", "commands", "setting", "objects", "differences")
OF_LISTS = ("line-too-long",)  # what mends them is for a List
WORDS = ("has", "not", "says", "else")


class Case:
    """An input and its neighbour."""

    def __init__(self, table, code, always):
        self.table, self.code, self.mode, self.before = table, code, "replay", list(always)
        self.lines = {word: [] for word in WORDS}

    def take(self, word, rest):
        if word == "live":
            self.mode = "live"
        elif word == "alone":
            self.before = []
        else:
            self.lines[word].append(rest)

    def data(self, word):
        lines = [*self.before, *self.lines[word]]
        return b"".join(bytes_of(it) + b"\n" for it in lines)


def cases_of(name):
    """The cases of a table."""
    always, case = [], None
    for row in (HERE / f"{name}.txt").read_text(encoding="utf-8").splitlines():
        word, _, rest = row.partition(" ")
        if not row or word == "code":
            if case:
                yield case
            case = Case(name, rest, always) if row else None
        elif word == "always":
            always.append(rest)
        elif word != "#":
            case.take(word, rest)
    if case:
        yield case


def faults_of(case):
    """What isn't so of a case."""
    for word, said in (("has", "says"), ("not", "else")):
        notes = notes_on(case.data(word), case.mode)
        texts = [it.text() for it in notes]
        for text in texts:
            if text not in case.lines[said]:
                yield f"{case.table}: {case.code}: {word}: it says: {text}"
        for text in case.lines[said]:
            if text not in texts:
                yield f"{case.table}: {case.code}: {word}: it doesn't say: {text}"
        if sorted(texts) == sorted(case.lines[said]) and texts != case.lines[said]:
            yield f"{case.table}: {case.code}: {word}: the notes come in another order"
        for note in notes:
            if not note.becomes or not note.mends:
                yield f"{case.table}: {case.code}: what becomes of it, or what mends it: {note}"
        if (case.code in {it.code for it in notes}) != (word == "has"):
            yield f"{case.table}: {case.code}: {word}: codes {[it.code for it in notes]}"


def mended(case):
    """What isn't so of the commands that notes on an input name: what they make of its lines is
    read."""
    lines = case.data("has").split(b"\n")
    for note in notes_on(case.data("has"), case.mode):
        command = note.mends.partition(" (")[0]
        tool = command.partition(" ")[0]
        if tool not in ("jq", "sed", "iconv", "yq") or note.code in OF_LISTS:
            continue
        if not shutil.which(tool) or (tool == "yq" and not is_of_jq()):
            continue
        part = b"\n".join(lines[note.line - 1 : max(note.line, note.last)])
        part += b"" if tool == "iconv" else b"\n"
        ran = subprocess.run(["sh", "-c", command], input=part, capture_output=True, check=False)
        refused = [it for it in notes_on(ran.stdout) if "refused" in it.becomes]
        if ran.returncode or refused:
            said = refused[0].text() if refused else ran.stderr.decode(errors="replace")
            yield f"{case.table}: {case.code}: by {command}: {said}"


@lru_cache(maxsize=1)
def is_of_jq():
    """Whether yq is the program that hands its words on to jq."""
    ran = subprocess.run(["yq", "-c", "."], input=b"a: 1\n", capture_output=True, check=False)
    return ran.stdout == b'{"a":1}\n'


def all_cases():
    return [case for name in TABLES for case in cases_of(name)]


def faults():
    """What isn't so of all cases."""
    for case in all_cases():
        yield from faults_of(case)
        yield from mended(case)


def main():
    found = list(faults())
    for it in found:
        print(f"checks: lint: {it}")
    sys.exit(bool(found))


if __name__ == "__main__":
    main()
