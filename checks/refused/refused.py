"""What is written where memory is refused: each growth of a run is refused in turn.

A run whose growth was refused ends with status 1 and says so, and what it wrote is a front of its
text; or it did without that memory, and ends as it does with all memory. A row is done when a run
has ended before the next growth. With several threads the numbers of growths aren't the same from
run to run, so that some are refused twice there, and others never.

The hub of held/main.rt.txt does once more what was refused: then its text is the same but for the
word that tells so. An event that was held back comes with the next sync, and so does a record.

    refused.py PROGRAM LIBRARY [HELD] [--figures]

LIBRARY is made of refuse.c, and HELD of held/main.rt.txt.
"""

import os
import subprocess
import sys
from concurrent.futures import ThreadPoolExecutor
from itertools import count
from pathlib import Path

SECONDS = 60
MOST_FAULTS = 5
BESIDE = 4 * len(os.sched_getaffinity(0))
CHECKS = Path(__file__).resolve().parent.parent
OUT_OF_MEMORY = 1, b"kproxy: out of memory\n"
AGAIN = b"again\n"
ROWS = [
    ("replay", "replays/repeated_clashes_in_replay.jsonl"),
    ("replay", "replays/a_clash_a_port_change_and_the_next_accepted_sync.jsonl"),
    ("replay", "replays/tables_of_both_families.jsonl"),
    ("replay --workers 2", "replays/affinity_timeout_is_inclusive_and_renewed.jsonl"),
    ("changes", "changes/refused_syncs_print_no_change.jsonl"),
    ("health", "health/the_last_record_counts.jsonl"),
    ("track", "track/udp_is_sent_anew_where_its_endpoint_went.jsonl"),
    ("vmap", "vmap/a_refused_sync_leaves_the_map_as_it_was.jsonl"),
    ("vmap", "vmap/affinity_finds_an_endpoint_whatever_is_drawn.jsonl"),
    ("paths", "paths/ranges_of_two_load_balancers_at_one_address.jsonl"),
    ("paths", "paths/affinity_keeps_a_source_until_its_timeout.jsonl"),
    ("live", "live/a_clash_at_the_end.jsonl"),
    ("live", "live/each_sync_has_its_record.jsonl"),
]
HELD = "refused/held/a_clash_and_packets.jsonl"


class Row:
    """A run of the program, and how it ends with all memory."""

    def __init__(self, program, library, words, path):
        self.words = [program, *words.split()]
        self.library, self.input = library, path.read_bytes()
        self.name = f"{words or 'held'} of {path.name}"
        self.whole, _ = self.ended(0)

    def ended(self, number):
        """The status, the text and what is said where this growth is refused; whether it was."""
        told, tell = os.pipe()
        given = {"LD_PRELOAD": self.library, "REFUSED": str(number), "REFUSED_TOLD": str(tell)}
        done = subprocess.run(
            self.words,
            input=self.input,
            capture_output=True,
            env={**os.environ, **given},
            pass_fds=[tell],
            timeout=SECONDS,
            check=False,
        )
        os.close(tell)
        with os.fdopen(told, "rb") as told:
            return (done.returncode, done.stdout, done.stderr), told.read() != b""

    def fault(self, number):
        """What isn't so where this growth is refused, or nothing; whether it was refused."""
        ended, was_refused = self.ended(number)
        status, text, said = ended
        is_front = self.whole[1].startswith(text)
        if ended == self.whole or (is_front and self.is_told(status, said)):
            return "", was_refused
        text = text.replace(AGAIN, b"", 1)
        if self.is_held() and (status, text, said) == self.whole:
            return "", was_refused
        front = "a front" if is_front else f"no front: {text[-100:]!r}"
        return f"growth {number}: status {status}, {front}, and said is {said[-100:]!r}", was_refused

    def is_held(self):
        return len(self.words) == 1

    def is_told(self, status, said):
        """Whether want of memory is told so."""
        return status == 1 if self.is_held() else (status, said) == OUT_OF_MEMORY


def check(row):
    """How many growths of a row were refused, and what isn't so."""
    faults, growths = [], 0
    with ThreadPoolExecutor(BESIDE) as pool:
        for start in count(1, BESIDE):
            runs = list(pool.map(row.fault, range(start, start + BESIDE)))
            faults += [f"{row.name}: {fault}" for fault, _ in runs if fault]
            growths += sum(was_refused for _, was_refused in runs)
            if len(faults) >= MOST_FAULTS or not all(was_refused for _, was_refused in runs):
                break
    if growths == 0:
        faults.append(f"{row.name}: no growth was refused")
    return growths, faults[:MOST_FAULTS]


def main(words):
    """Tells what isn't so of all rows; the status."""
    program, library, *held = [word for word in words if word != "--figures"]
    rows = [Row(program, library, words, CHECKS / path) for words, path in ROWS]
    rows += [Row(it, library, "", CHECKS / HELD) for it in held]
    failed = False
    for row in rows:
        growths, faults = check(row)
        for fault in faults:
            failed = True
            print(f"checks: refused: {fault}")
        if "--figures" in words:
            print(f"{row.name}: {growths} growths")
    return int(failed)


if __name__ == "__main__":
    sys.exit(main(sys.argv[1:]))
