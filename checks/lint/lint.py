"""Whether notes are what they should be: by tables (cases.py), by pages (pages.py), by runs of the
tool itself (tool.py), by the values that are said to be allowed (allowed.py), and by random scripts
(random_inputs.py).

    lint.py PROGRAM COUNT FIRST
"""

import os
import sys
from itertools import chain, islice
from pathlib import Path

sys.dont_write_bytecode = True
HERE = Path(__file__).resolve().parent
TOP = HERE.parent.parent
sys.path += [str(TOP / "tools"), str(HERE.parent / "fuzz"), str(HERE.parent / "hostile")]
MOST_FAULTS = 8


def main(program, count, first):
    """Tells what isn't so; the status."""
    os.environ["KPROXY"] = program
    import allowed
    import cases
    import pages
    import random_inputs
    import tool

    found = chain(
        cases.faults(),
        pages.faults(),
        tool.faults(program),
        allowed.faults(),
        random_inputs.faults(program, count, first),
    )
    told = list(islice(found, MOST_FAULTS))
    for it in told:
        print(f"checks: lint: {it[:1000]}")
    return int(bool(told))


if __name__ == "__main__":
    sys.exit(main(sys.argv[1], int(sys.argv[2]), int(sys.argv[3])))
