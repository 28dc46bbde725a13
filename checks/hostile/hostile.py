"""Tables of inputs that are hard to read, with the status and the text that the program gives.

A row is an input, an arrow and what the program gives for it, or an input alone, for which it gives
what was said last. In an input <c3 a4> are bytes, <127*[> is a text so many times, <9*=c3 a4> bytes so
many times, and <n> is a line feed; without one at its end the input's last line has none. What is given is the status and the
text, whose lines have <n> between them: `3 bad json` is status 3 and `line 1: refused: bad json`,
with the number of the input's last line. A row that begins with two spaces goes on with the one
before. The other lines of a table:
    # TEXT        a remark
    mode WORDS    the words of the program for the rows from here on
    in FORM       where the rows from here on stand: in the place of its @
    gives WHAT    what the program gives for the rows from here on that don't say
    prints FORM   where what is given stands for the rows from here on: in the place of its @

    hostile.py PROGRAM TABLE..
"""

import re
import subprocess
import sys
from concurrent.futures import ThreadPoolExecutor
from pathlib import Path

PART = re.compile(rb"<(?:(\d+)\*([^>]+)|n|((?:[0-9a-f]{2} ?)+))>")
REFUSED = re.compile(
    r"bad |missing |wrong |out of |not |kind |op |too |config |longer |journal |duplicate "
)
SECONDS = 300


def bytes_of(text):
    """The bytes that a table writes so."""

    def part(found):
        count, repeated, pairs = found.groups()
        if count:
            piece = bytes.fromhex(repeated[1:].decode()) if repeated[:1] == b"=" else repeated
            return piece * int(count)
        return bytes.fromhex(pairs.decode()) if pairs else b"\n"

    return PART.sub(part, text.encode())


def given(wanted, data):
    """The status and the text that a table asks for."""
    status, _, text = wanted.partition(" ")
    if not text:
        return int(status), b""
    last = data.count(b"\n") + (not data.endswith(b"\n"))
    lines = [f"line {last}: refused: {it}" if REFUSED.match(it) else it for it in text.split("<n>")]
    return int(status), b"".join(bytes_of(it) + b"\n" for it in lines)


def rows_of(table):
    """The rows of a table: the words of the program, the input, the status and the text."""
    mode, form, gives, prints = ["replay"], "@", "", "@"
    for row in table.read_text().replace("\n  ", "").splitlines():
        word, _, rest = row.partition(" ")
        if not row or word == "#":
            continue
        if word == "mode":
            mode = rest.split(" ")
        elif word == "in":
            form = rest
        elif word == "gives":
            gives = rest
        elif word == "prints":
            prints = rest
        else:
            part, _, wanted = row.partition(" => ")
            data = bytes_of(form.replace("@", part, 1))
            yield mode, row, data, given(prints.replace("@", wanted or gives, 1), data)


def fault_of(program, table, row):
    """What isn't so of a row, or nothing."""
    mode, written, data, wanted = row
    try:
        ran = subprocess.run(
            [program, *mode], input=data, capture_output=True, timeout=SECONDS, check=False
        )
    except subprocess.TimeoutExpired:
        return f"checks: {table.name}: {written[:200]}: no end after {SECONDS} seconds"
    found = ran.returncode, ran.stdout + ran.stderr
    if found == wanted:
        return ""
    status, text = found
    return f"checks: {table.name}: {written[:200]}: gives {status} {text[-200:]!r}"


def main():
    """Tells all rows that aren't so."""
    rows = [(table, row) for table in map(Path, sys.argv[2:]) for row in rows_of(table)]
    with ThreadPoolExecutor(4) as pool:
        faults = list(pool.map(lambda it: fault_of(sys.argv[1], *it), rows))
    for fault in filter(None, faults):
        print(fault)
    sys.exit(any(faults))


if __name__ == "__main__":
    main()
