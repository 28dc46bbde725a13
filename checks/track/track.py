"""Whether `kproxy track` keeps connections as it should, by a model.

The model is written from the rules alone. Who owns a flow, what it is answered then, which openers
are kept and which are cleared is told by a plain list of openers (tracker.py). Which endpoints stand
after a sync is told by the objects (../changes/doors.py, which looks at no table). What a flow is
answered that nobody owns is what the program itself prints in a replay (answers.py says how): so the
model has no tables, no draws and no recent lists, and these are as right as a replay is.

    track.py check PROGRAM SYNCS COUNT FIRST    judges the scripts beside this file and those of
                                                other checks, random ones (flows.py makes them), by
                                                the seeds from FIRST on, and a crowd (crowd.py)
    track.py judge PROGRAM SCRIPT               judges a script
    track.py say PROGRAM SCRIPT                 prints what the model has to say of a script
    track.py script SYNCS SEED                  prints a random script
"""

import json
import sys
from itertools import zip_longest
from pathlib import Path

HERE = Path(__file__).resolve().parent
TOP = HERE.parent.parent
sys.path.append(str(HERE.parent / "changes"))

from doors import doors_of, run
from record import Record, covered_at

import crowd
import flows
from answers import ended, tracked
from tracker import Tracker


def standing(record):
    """The endpoints to which some door of a UDP port sends, in any family of the node."""
    found = set()
    for (space, name), service in record.of("Service").items():
        for port in service["spec"].get("ports") or []:
            key = space, name, port.get("name", ""), port.get("protocol", "TCP")
            for family in record.families() if key[3] == "UDP" else []:
                for door in doors_of(record, key, service, port, family):
                    ends = [*door.side.list, *door.side.inside]
                    found |= {(it.address, it.number) for it in ends}
    return found


def standings(values, replayed):
    """The endpoints that stand after each accepted sync."""
    first = next(filter(None, values), None)
    is_set = isinstance(first, dict) and first.get("op") == "config"
    for objects in covered_at(values, replayed):
        yield standing(Record(first if is_set else {}, objects))


def said_of(program, lines, tracker=Tracker):
    """The status and the lines that the model says."""
    return tracked(lambda data: run(program, "replay", data), lines, standings, tracker)


def fault_of(program, lines, wanted=None):
    """The first line that isn't as it should be, or nothing."""
    status, wanted = wanted or said_of(program, lines)
    found, said = run(program, "track", b"".join(it + b"\n" for it in lines))
    if found != status:
        return f"status {found}, and not {status}"
    pairs = enumerate(zip_longest(ended(said), wanted), 1)
    wrong = (f"line {place}: {it!r}, and not {line!r}" for place, (it, line) in pairs if it != line)
    return next(wrong, "")


def lines_in(path):
    data = path.read_bytes()
    return data.removesuffix(b"\n").split(b"\n") if data else []


def worked_scripts():
    """The lines of worked inputs, by the names of their files."""
    folders = [HERE, HERE.parent / "replays", HERE.parent / "changes", TOP / "examples"]
    paths = (path for folder in folders for path in sorted(folder.glob("*.jsonl")))
    return {str(path.relative_to(TOP)): lines_in(path) for path in paths}


def random_lines(seed, syncs):
    return [json.dumps(value).encode() for value in flows.random_script(seed, syncs)]


def check(program, syncs, count, first):
    """Tells what isn't so of all scripts."""
    random_ones = {f"script {syncs} {it}": random_lines(it, syncs) for it in range(first, first + count)}
    scripts = worked_scripts() | random_ones
    faults = {name: fault_of(program, lines) for name, lines in scripts.items()}
    faults["crowd"] = fault_of(program, crowd.lines(), (0, crowd.said()))
    for name, fault in faults.items():
        if fault:
            print(f"checks: track: {name}: {fault}")
    return int(any(faults.values()))


def main(words):
    """Does what the words ask for; the status."""
    mode, *words = words
    if mode == "script":
        syncs, seed = map(int, words)
        sys.stdout.buffer.write(b"".join(it + b"\n" for it in random_lines(seed, syncs)))
        return 0
    if mode == "check":
        return check(words[0], *map(int, words[1:]))
    program, path = words
    if mode == "say":
        print(*said_of(program, lines_in(Path(path)))[1], sep="\n")
        return 0
    fault = fault_of(program, lines_in(Path(path)))
    print(fault or "as it should be")
    return int(bool(fault))


if __name__ == "__main__":
    sys.exit(main(sys.argv[1:]))
