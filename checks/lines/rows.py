"""Tables of single lines, with what the program writes for each.

A row is a line, an arrow and what is written for it, with commas between lines: why the line is
refused, or else what it prints, without the numbers in front. What stands behind a semicolon isn't
compared, nor what two dots stand for at the end of a row. A row that begins with a space goes on
with the one before. The other lines of a table:
    # TEXT         a remark
    mode MODE      the mode of the program for all rows; of a live run what events, refusals and
                   commands write is compared, and not the tables at its end
    before LINE    a line that comes before the row's, up to the next empty line of the table
    in FORM        where the rows up to the next empty line stand: in the place of FORM's first @;
                   with two such lines each row is tried in both
    of FILE        in the place of a row's line: the line that a file has

    rows.py PROGRAM TABLE..
"""

import re
import subprocess
import sys
from pathlib import Path

# what stands in front of what is compared
HEAD = re.compile(r"(line|packet|explain|trail|event|sync) \d+( at \d+)?: (refused: )?")


def written(program, mode, lines):
    """What the program writes for lines, without what stands in front and behind."""
    text = "".join(line + "\n" for line in lines)
    ran = subprocess.run([program, mode], input=text, capture_output=True, text=True, check=False)
    found = [it for it in ran.stdout.splitlines() if mode != "live" or HEAD.match(it)]
    wanted = 3 if ": refused: " in ran.stdout else 0
    status = [] if ran.returncode == wanted else [f"status {ran.returncode}"]
    return [HEAD.sub("", it, 1).split(";")[0] for it in found] + status


def is_told(found, wanted):
    """Whether this was wanted, or what begins so."""
    return found.startswith(wanted[:-2]) if wanted.endswith("..") else found == wanted


def wrong_rows(program, table):
    """The rows of a table that aren't so, each with what is written."""
    mode, before, forms = "replay", [], []
    for row in table.read_text().replace("\n ", "").splitlines():
        word, _, rest = row.partition(" ")
        if not row:
            before, forms = [], []
        elif word == "mode":
            mode = rest
        elif word == "before":
            before.append(rest)
        elif word == "in":
            forms.append(rest)
        elif word != "#":
            part, _, wanted = row.partition(" =>")
            if word == "of":
                part = (table.parent / part.removeprefix("of ")).read_text().strip()
            earlier = len(written(program, mode, before)) if before else 0
            for form in forms or ["@"]:
                line = form.replace("@", part, 1)
                found = ", ".join(written(program, mode, [*before, line])[earlier:])
                if not is_told(found, wanted.strip()):
                    yield f"checks: {table.name}: {line} gives: {found}"


def main():
    """Tells all rows that aren't so."""
    wrong = [it for table in sys.argv[2:] for it in wrong_rows(sys.argv[1], Path(table))]
    for it in wrong:
        print(it)
    sys.exit(bool(wrong))


main()
