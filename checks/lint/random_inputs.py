"""Whether each refusal of random scripts comes with its object, its value and what is allowed.

The scripts are those of ../fuzz. What is wanted of a refusal is found from the line and the text
of the refusal alone."""

import json
import re
import subprocess
from functools import partial
from multiprocessing import Pool

from kp.lines import shown_text
from kp.lint.refusals import UNKNOWN
from kp.lint.source import notes_on
from scripts import random_script

REFUSED = re.compile(r"^line (\d+): refused: (.*)$", re.M)
OF_MEMBER = re.compile(r'([a-z ]+) ("(?:[^"\\]|\\.)*")(: \d+)?$')
STEP = re.compile(r"[^.\[\]]+|\[\d+\]")
# what no note may say: where a packet goes
VERDICT = re.compile(r"\b(masked|rejected|dropped|left alone)\b")
# codes of notes that may speak of a line that is refused, beside its refusal
# codes of notes that may speak of a line beside its refusal
BESIDE = ("member-not-read", "before-sync", "after-changes")
NO_VALUE = object()


def refused_by(program, data):
    """The texts of refusals, by the number of the line."""
    ran = subprocess.run([program, "replay"], input=data, stdout=subprocess.PIPE, check=False)
    return {int(line): why for line, why in REFUSED.findall(ran.stdout.decode())}


def read(line):
    try:
        return json.loads(line.decode())
    except (ValueError, RecursionError):
        return NO_VALUE


def object_of(value, path):
    """The object that a path leads into, and what of the path is left; None of a command."""
    if value.get("op") is not None:
        if value["op"] != "event" or not path.startswith("event."):
            return None, path
        value, path = value["event"], path[len("event.") :]
    if value.get("type") is not None and value.get("object") is not None:
        if path == "object":
            return value["object"], ""
        is_inside = path.startswith("object.")
        return (value["object"], path[len("object.") :]) if is_inside else (None, path)
    if value.get("kind") == "List":
        found = re.match(r"items\[(\d+)\]\.?", path)
        return (value["items"][int(found[1])], path[found.end() :]) if found else (None, path)
    return (value, path) if value.get("kind") is not None else (None, path)


def key_of(item):
    """The kind, the namespace and the name of an object that has them."""
    meta = item.get("metadata") if isinstance(item, dict) else None
    if not isinstance(meta, dict):
        return None
    kind, name, space = item.get("kind"), meta.get("name"), meta.get("namespace")
    if not isinstance(kind, str) or not isinstance(name, str) or not kind or not name:
        return None
    space = space if isinstance(space, str) and space else "default"
    return kind, "" if kind == "Node" else space, name


def value_at(item, path):
    """What a path leads to; names of labels and selectors are whole."""
    named = re.match(r"(.*(?:labels|selector))\.(.*)$", path, re.S)
    steps = [*STEP.findall(named[1]), named[2]] if named else STEP.findall(path)
    for step in steps:
        if step.startswith("[") and isinstance(item, list):
            at = int(step[1:-1])
            item = item[at] if at < len(item) else None
        else:
            item = item.get(step) if isinstance(item, dict) else None
    return item


def faults_of(program, seed):
    """What isn't so of the script of a seed."""
    data = random_script(seed)
    refused, notes = refused_by(program, data), notes_on(data)
    lines = data.split(b"\n")
    for note in notes:
        if VERDICT.search(note.says):
            yield f"seed {seed}: a note says where a packet goes: {note.text()}"
        if note.line in refused and not note.becomes:
            yield f"seed {seed}: a note doesn't say what becomes of its line: {note.text()}"
    for number, why in refused.items():
        found = [it for it in notes if it.line <= number <= max(it.line, it.last)]
        found = [it for it in found if it.code not in BESIDE and not it.is_of_object()]
        fault = fault_of(why, read(lines[number - 1]), found)
        if fault:
            said = [it.text() for it in found]
            yield f"seed {seed}: line {number}: {why}: {fault}: {said}"


def fault_of(why, value, notes):
    """What isn't so of the notes on a line that was refused so, or nothing."""
    if len(notes) != 1:
        return f"{len(notes)} notes"
    note, member = notes[0], OF_MEMBER.match(why)
    if note.code == "several-lines":
        return ""  # a part of a value is no object
    if not member or member[1] in ("kind", "op"):
        return fault_of_kind(why, value, note)
    path = json.loads(member[2])
    item, rest = object_of(value, path)
    if note.becomes != f"the line is refused: {why}" or note.mends in ("", UNKNOWN):
        return f"it becomes {note.becomes!r}, and {note.mends!r} mends it"
    if item is None:
        wanted, found = None, value_at(value, path)
    else:
        wanted, found = key_of(item), value_at(item, rest)
    if (tuple(note.key) if note.key else None) != wanted:
        return f"the object is {wanted}"
    if wanted and shown_text(str(note.key)) not in note.text():
        return "the text doesn't name the object"
    if note.member != rest and note.member != path:
        return f"the member is {rest!r}"
    if member[1] != "missing" and note.value != found and type(note.value) is not type(found):
        return f"the value is {found!r}"
    return ""


def fault_of_kind(why, value, note):
    """The same of a refusal that names no member: what stands there is named."""
    found = re.match(r'(kind|op) ("(?:[^"\\]|\\.)*") ', why)
    if not found:
        return ""
    name = json.loads(found[2])
    if found[1] == "op":
        return "" if note.value == name == value["op"] else "the op"
    named = [note.about, note.value, note.key.kind if note.key else ""]
    return "" if name in named or name == "" else f"the kind is {name!r}"


def faults(program, count, first, most=5):
    """What isn't so of so many scripts."""
    with Pool() as pool:
        told = 0
        judge = partial(_listed, program)
        for found in pool.imap_unordered(judge, range(first, first + count), chunksize=10):
            for it in found:
                told += 1
                yield it
            if told >= most:
                pool.terminate()
                return


def _listed(program, seed):
    return list(faults_of(program, seed))
