"""Whether the program accepts each value that a note says is allowed.

samples.jsonl has a line of each command and each kind, with all members that are read. Each of
these members is made wrong in turn, so that the program refuses it and the note says what is
allowed; then each such value stands in its place. Of numbers what is past their ends is refused."""

import json
import re
from copy import deepcopy
from pathlib import Path

from kp.lint.source import notes_on
from kp.members import COMMANDS, ELEMENTS, OBJECTS

SAMPLES = Path(__file__).resolve().parent / "samples.jsonl"
# of these one at least is of a type, or is a text or a number, that a member may not be
WRONG = (5, "\0", -1, 10**12, True, {}, [], [None], {"a": 5})


def places_in(value, path=""):
    """The path of each member and element, with the keys that lead to it."""
    if isinstance(value, dict):
        items = [(f"{path}.{name}" if path else name, name, it) for name, it in value.items()]
    elif isinstance(value, list):
        items = [(f"{path}[{at}]", at, it) for at, it in enumerate(value)]
    else:
        items = []
    for inner, key, it in items:
        yield inner, (key,)
        for found, keys in places_in(it, inner):
            yield found, (key, *keys)


def replaced(value, keys, other):
    value = deepcopy(value)
    holder = value
    for key in keys[:-1]:
        holder = holder[key]
    holder[keys[-1]] = other
    return value


def lines_of(values):
    return b"".join(json.dumps(it).encode() + b"\n" for it in values)


def refusals_of(values):
    """The notes on refusals of lines, by the place of the line; a setting is tried alone."""
    found = {}
    for at, value in enumerate(values):
        if value.get("op") == "config":
            for note in notes_on(lines_of([value])):
                if note.becomes.startswith("the line is refused"):
                    found.setdefault(at, note)
    others = [(at, it) for at, it in enumerate(values) if it.get("op") != "config"]
    for note in notes_on(lines_of([it for _, it in others])):
        if note.becomes.startswith("the line is refused"):
            found.setdefault(others[note.line - 1][0], note)
    return found


def past_ends(values):
    """Numbers past the ends of those that are allowed; none where they aren't the ends."""
    if len(values) != 2 or not all(type(it) is int for it in values):
        return []
    return [values[0] - 1, values[1] + 1]


def faults():
    """What isn't so of all members."""
    samples = [json.loads(it) for it in SAMPLES.read_text(encoding="utf-8").splitlines()]
    yield from lacking(samples)
    tried = [
        (sample, path, keys, wrong)
        for sample in samples
        for path, keys in places_in(sample)
        for wrong in WRONG
        if not path.startswith("event.")
    ]
    notes = refusals_of([replaced(sample, keys, wrong) for sample, _, keys, wrong in tried])
    asked, told = {}, set()
    for at, note in notes.items():
        sample, path, keys, _ = tried[at]
        if note.member != path:
            continue
        name = (sample.get("op") or sample["kind"]), path
        told.add(name)
        if not note.mends:
            yield f"allowed: {name}: nothing is said to be allowed: {note.text()}"
        for value in note.allowed:
            if type(value) is int and str(value) not in note.mends:
                yield f"allowed: {name}: {value} isn't said: {note.mends}"
            asked[(*name, json.dumps(value))] = replaced(sample, keys, value), False
        for value in past_ends(note.allowed):
            asked[(*name, json.dumps(value))] = replaced(sample, keys, value), True
    for sample in samples:
        for path, _ in places_in(sample):
            name = (sample.get("op") or sample["kind"]), path
            if name not in told and not path.startswith("event.") and path not in ("op", "kind"):
                yield f"allowed: {name}: no wrong value of it is refused with a note"
    found = refusals_of([value for value, _ in asked.values()])
    for at, (name, (_, is_refused)) in enumerate(asked.items()):
        note = found.get(at)
        is_here = note is not None and note.member == name[1]
        if is_here != is_refused:
            what = "is refused" if is_here else "is accepted"
            yield f"allowed: {name} {what}: {note.text() if note else ''}"


def lacking(samples):
    """Members that the tables have and no sample has."""
    has = {}
    for sample in samples:
        name = sample.get("op") or sample["kind"]
        has[name] = {re.sub(r"\[\d+\]", "[]", path) for path, _ in places_in(sample)}
    for op, names in COMMANDS.items():
        for name in {*names} - has[op]:
            yield f"allowed: samples.jsonl has no {name} of {op}"
    for path in ELEMENTS:
        if not any(path in paths for paths in has.values()):
            yield f"allowed: samples.jsonl has no {path}"
    for kind, paths in OBJECTS.items():
        for path in {it for it in paths if "*" not in it} - has[kind]:
            yield f"allowed: samples.jsonl has no {path} of {kind}"
