"""Whether pages and the tool's own tables say the same: the codes of docs/tasks/lint.md, what is
otherwise in docs/KUBE-PROXY.md, and the notes on the examples."""

import re
from pathlib import Path

import cases
from kp.lint.codes import CODES, GROUPS
from kp.lint.differences import TABLE
from kp.lint.source import notes_on

HERE = Path(__file__).resolve().parent
TOP = HERE.parent.parent
# codes that an input alone can't have: tool.py tries them
OF_FILES = {"no-line-feed", "refused"}
BEGIN, END = "<!-- the table of tools/lint -->", "<!-- its end -->"


def rows_between(page):
    """The rows of the table between the marks of a page, without its two rows of heads."""
    text = page.read_text(encoding="utf-8")
    marked = re.findall(f"{re.escape(BEGIN)}\n(.*?){re.escape(END)}", text, re.S)
    return [it for table in marked for it in table.strip().splitlines()[2:]]


def compared(name, rows, wanted):
    for row in [it for it in wanted if it not in rows]:
        yield f"docs/{name} lacks a row: {row}"
    for row in [it for it in rows if it not in wanted]:
        yield f"docs/{name} has a row that the tool hasn't: {row}"


def faults():
    """What isn't so of the pages."""
    wanted = [
        f"| `{it.code}` | {it.means} | {it.mends} |" for group in GROUPS.values() for it in group
    ]
    yield from compared("tasks/lint.md", rows_between(TOP / "docs/tasks/lint.md"), wanted)
    wanted = [
        f"| `{it.code}` | {it.what} | {it.here} | {it.kube_proxy} | {it.mends} | {it.mark} |"
        for it in TABLE
    ]
    yield from compared("KUBE-PROXY.md", rows_between(TOP / "docs/KUBE-PROXY.md"), wanted)
    tried = {it.code for it in cases.all_cases()} | OF_FILES
    for code in sorted(tried ^ CODES.keys()):
        yield f"the code {code} has no case, or no row"
    yield from of_examples()


def of_examples():
    """What isn't so of the notes on the examples."""
    told, name = {}, ""
    for line in (HERE / "examples.txt").read_text(encoding="utf-8").splitlines():
        if line.startswith("    "):
            told[name].append(line.strip())
        elif not line.startswith("#"):
            name = line
            told[name] = []
    examples = {str(it.relative_to(TOP)) for it in (TOP / "examples").glob("*.jsonl")}
    for name in sorted(examples ^ told.keys()):
        yield f"examples.txt and examples/ don't both have {name}"
    for name in sorted(examples & told.keys()):
        found = [it.text() for it in notes_on((TOP / name).read_bytes())]
        if found != told[name]:
            yield f"{name}: the notes are {found}"
