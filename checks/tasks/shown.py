"""Whether README.md, docs/MODES.md and docs/FORMAT.md show what is printed: the lines behind a
command of theirs are lines of its output, in that order. Where a page leaves out a part of a line it
has two points. Of a live run the worked text is taken, since each run may be another one.

    shown.py PROGRAM
"""

import os
import re
import subprocess
import sys
import tempfile
from pathlib import Path

TOP = Path(__file__).resolve().parent.parent.parent
PAGES = {"README.md": 5, "docs/MODES.md": 10, "docs/FORMAT.md": 1}
COMMAND = re.compile(r"(?:\$ )?\./kproxy (\w+[\w ]*?)(?: < (examples/\S+))?")
CLUSTER = "tools/cluster n1 > state.jsonl"
QUESTION = re.compile("echo '(.*)' > question.jsonl")
WHY = "$ tools/why state.jsonl "


def blocks(page):
    """The blocks of a page that are indented, as lists of lines."""
    lines = []
    for line in [*(TOP / page).read_text().split("\n"), "end"]:
        if line.startswith("    "):
            lines.append(line[4:])
        elif lines:
            yield lines
            lines = []


def output_of(words, data):
    """What a command writes, in lines."""
    ran = subprocess.run(words, input=data, capture_output=True, check=False)
    return ran.stdout.decode(errors="surrogateescape").split("\n")


def state_of_cluster():
    """What tools/cluster writes for the recorded cluster."""
    files = sorted(map(str, (TOP / "examples/cluster").glob("*.json")))
    return "\n".join(output_of([TOP / "tools/cluster", "n1", *files], b""))


def output_of_cluster(program, question):
    """What the program writes for the recorded cluster and a question."""
    return output_of([program, "replay"], f"{state_of_cluster()}{question}\n".encode())


def output_of_why(program, words):
    """What tools/why writes for the recorded cluster."""
    os.environ["KPROXY"] = program
    with tempfile.NamedTemporaryFile() as file:
        file.write(state_of_cluster().encode())
        file.flush()
        return output_of([TOP / "tools/why", file.name, *words], b"")


def output_after(program, block):
    """What the command that begins a block writes, and the lines behind it in the block; or None."""
    if block[0] == CLUSTER:
        return output_of_cluster(program, QUESTION.fullmatch(block[1])[1]), []
    if block[0].startswith(WHY):
        return output_of_why(program, block[0][len(WHY) :].split()), block[1:]
    command = COMMAND.fullmatch(block[0])
    if not command or "--" in block[0]:
        return None
    words, file = command[1].split(), command[2]
    if words == ["live"]:
        return (TOP / "examples/live.txt").read_text().split("\n"), block[1:]
    data = (TOP / file).read_bytes() if file else b""
    return output_of([program, *words], data), block[1:]


def missing(shown, output):
    """The first of the lines that isn't among those of the output that are left."""
    left = iter(output)
    for line in shown:
        pattern = re.escape(line).replace(r"\.\.", ".*")
        if not any(re.fullmatch(pattern, found) for found in left):
            return line
    return None


def main(program):
    failed = 0
    for page, wanted in PAGES.items():
        output, compared = None, 0
        for block in blocks(page):
            found = output_after(program, block)
            if found:
                is_alone = not block[0].startswith("$ ")
                output, block = found
            if output is None or not block and is_alone:
                continue
            line = missing(block, output)
            if line is not None:
                print(f"checks: {page}: not printed by the command before it: {line}")
                failed = 1
            output, compared = None, compared + bool(block)
        if compared < wanted:
            print(f"checks: {page}: {compared} of {wanted} outputs were compared")
            failed = 1
    sys.exit(failed)


if __name__ == "__main__":
    main(str(Path(sys.argv[1]).resolve()))
