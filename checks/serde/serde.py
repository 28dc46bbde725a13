"""Whether the program says that a line is bad JSON exactly where another reader doesn't read it.

A line is bad JSON whatever stands before it, so that all lines are one input.

    serde.py PROGRAM READER [COUNT] [--figures]
"""

import re
import subprocess
import sys
from pathlib import Path

CHECKS = Path(__file__).resolve().parent.parent
sys.path += [str(CHECKS / "hostile"), str(CHECKS / "fuzz")]

from hostile import rows_of
from scripts import LONG, MOST_BYTES, random_script

MOST_FAULTS = 5
BLANKS = b" \t\r"


def all_lines(count):
    """The lines of the tables and of so many random scripts, each once."""
    tables = sorted((CHECKS / "hostile").glob("*.txt"))
    inputs = [data for table in tables for _, _, data, _ in rows_of(table)]
    inputs += [random_script(seed) for seed in range(1, count + 1) if seed % LONG]
    lines = dict.fromkeys(line for data in inputs for line in data.split(b"\n"))
    return [line for line in lines if line.strip(BLANKS) and len(line) <= MOST_BYTES]


def said_of(words, data):
    done = subprocess.run(words, input=data, stdout=subprocess.PIPE, check=False)
    return done.stdout.decode(errors="replace")


def main(words):
    """Tells the lines that the two differ in; the status."""
    program, reader, *more = [word for word in words if word != "--figures"]
    lines = all_lines(int(more[0]) if more else 1000)
    data = b"\n".join(lines) + b"\n"
    text = said_of([program, "replay"], data)
    refused = re.findall(r"^line (\d+): refused: bad json$", text, re.M)
    read = said_of([reader], data).splitlines()
    bad = {number for number, it in enumerate(read, 1) if it == "bad json"}
    differs = sorted(bad ^ set(map(int, refused)))
    if len(read) != len(lines):
        print(f"checks: serde: of {len(lines)} lines {len(read)} were told of")
        return 1
    for number in differs[:MOST_FAULTS]:
        told = "is bad JSON" if number in bad else "is read"
        print(f"checks: serde: by serde_json this line {told}: {lines[number - 1][:200]!r}")
    if "--figures" in words:
        print(f"{len(lines)} lines, of which {len(bad)} are bad JSON")
    return int(bool(differs))


if __name__ == "__main__":
    sys.exit(main(sys.argv[1:]))
