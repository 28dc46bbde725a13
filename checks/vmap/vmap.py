"""Whether `kproxy vmap` answers by the remainder of a draw as it should, by a model.

The model is written from the rules alone (decision.py): it looks at all doors for each packet. It
says each packet, explanation and trail. All other lines are those of a replay, of which the model
takes only which syncs are accepted, and which lines are refused. Beside a replay of the same lines
an explanation names the same door and the same list, unless a line of the filter decides at one of
the two endpoints. A replay is judged by the model, too, with thresholds in place of the remainder.

    vmap.py check PROGRAM SYNCS COUNT FIRST    judges the scripts beside this file and those of other
                                               checks, and random ones (questions.py and
                                               ../track/flows.py make them), by the seeds from FIRST on
    vmap.py judge PROGRAM SCRIPT               judges a script
    vmap.py say PROGRAM SCRIPT                 prints what the model has to say of a script
    vmap.py script SYNCS SEED                  prints a random script
"""

import json
import sys
from pathlib import Path

HERE = Path(__file__).resolve().parent
TOP = HERE.parent.parent
sys.path += [str(HERE.parent / it) for it in ("changes", "track")]

from doors import run

import flows
import questions
from answers import Known, Model, ended, first_difference, other_door
from decision import Decider
from draws import by_remainder, by_thresholds

FOLDERS = [HERE, *(HERE.parent / it for it in ("replays", "changes", "health", "track")), TOP / "examples"]


def data_of(lines):
    return b"".join(it + b"\n" for it in lines)


def said_of(program, lines, decider=Decider):
    """The lines that the model says."""
    replayed = ended(run(program, "replay", data_of(lines))[1])
    return list(Model(Known(lines, replayed), by_remainder, decider).lines(replayed))


def without_trails(lines):
    """The lines of a replay with other trails, which the model doesn't tell."""
    return [line.split(":")[0] + ": none" if line.startswith("trail ") else line for line in lines]


def fault_of(program, lines):
    """The first thing that isn't as it should be, or nothing."""
    status, replayed = run(program, "replay", data_of(lines))
    found, said = run(program, "vmap", data_of(lines))
    if found != status:
        return f"status {found}, and not {status}"
    replayed, said = ended(replayed), ended(said)
    known = Known(lines, replayed)
    by_rules = list(Model(known, by_thresholds).lines(replayed))
    fault = first_difference(without_trails(replayed), by_rules)
    if fault:
        return f"a replay: {fault}"
    model = Model(known, by_remainder)
    fault = first_difference(said, list(model.lines(replayed)))
    return fault or other_door(said, replayed, lambda number: model.answers[number].is_refused_there)


def lines_in(path):
    data = path.read_bytes()
    return data.removesuffix(b"\n").split(b"\n") if data else []


def worked_scripts():
    """The lines of worked inputs, by the names of their files."""
    paths = (path for folder in FOLDERS for path in sorted(folder.glob("*.jsonl")))
    return {str(path.relative_to(TOP)): lines_in(path) for path in paths}


def lines_of(values):
    return [json.dumps(value).encode() for value in values]


def random_lines(seed, syncs):
    return lines_of(questions.random_script(seed, syncs))


def check(program, syncs, count, first):
    """Tells what isn't so of all scripts."""
    seeds = range(first, first + count)
    scripts = worked_scripts() | {f"script {syncs} {it}": random_lines(it, syncs) for it in seeds}
    scripts |= {f"flows {syncs} {it}": lines_of(flows.random_script(it, syncs)) for it in seeds}
    faults = {name: fault_of(program, lines) for name, lines in scripts.items()}
    for name, fault in faults.items():
        if fault:
            print(f"checks: vmap: {name}: {fault}")
    return int(any(faults.values()))


def main(words):
    """Does what the words ask for; the status."""
    mode, *words = words
    if mode == "script":
        syncs, seed = map(int, words)
        sys.stdout.buffer.write(data_of(random_lines(seed, syncs)))
        return 0
    if mode == "check":
        return check(words[0], *map(int, words[1:]))
    program, path = words
    if mode == "say":
        print(*said_of(program, lines_in(Path(path))), sep="\n")
        return 0
    fault = fault_of(program, lines_in(Path(path)))
    print(fault or "as it should be")
    return int(bool(fault))


if __name__ == "__main__":
    sys.exit(main(sys.argv[1:]))
