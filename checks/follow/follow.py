"""Whether many small changes leave what a fresh run makes of the objects as they are then.

A script has a setting on its first line, then events and syncs, and other commands between them.
The program follows it. After some of its syncs, which are its places, there is a fresh run: it has
the setting, each object once, as the events left it by then, in another order, and one sync. Both
say the same:

    the tables, byte for byte;
    where packets go, by which chains, and why, to doors that are there and doors that were;
    the endpoints in slices, by Service and ports: how many a slice has depends on those before;
    the refusal, where two chains would have one name. All else is then as in a fresh run that
    syncs what the last accepted sync covers, and has the other events after that.

At a place the batch of the sync takes the tables before it to those after it, it writes no chain
that stays as it was, and the sync's line has its counts. A script is followed twice, without what
is asked at places and with it: that changes neither its answers nor the slices at its end.

    follow.py check PROGRAM SYNCS COUNT FIRST    follows the scripts beside this file, with each
                                                 sync a place, and random ones with so many syncs,
                                                 by the seeds from FIRST on
    follow.py judge PROGRAM SCRIPT [EVERY]       follows a script, of which each EVERY-th sync is
                                                 a place
    follow.py script SYNCS SEED                  prints the random script of a seed
"""

import json
import os
import random
import re
import subprocess
import sys
from dataclasses import dataclass
from itertools import zip_longest
from pathlib import Path

import changes

EVERY = 10
ASKED = 8  # packets and explanations at a place
SECONDS = 600

SYNC = {"op": "sync"}
END = {"op": "end"}  # not known, so that a refusal ends what the line before it prints
ENDED = re.compile(r'line \d+: refused: op "end" is not known\n')
# the numbers of lines and syncs, which aren't compared
NUMBERS = re.compile(r"^(line|packet|explain|trail) \d+( at \d+)?:", re.M)


class Wrong(Exception):
    """What isn't so, and where."""


def demand(condition, where):
    """Raises where a condition isn't met."""
    if not condition:
        raise Wrong(where)


def compare(text, wanted, where=""):
    """Raises the first line in which a text isn't what is wanted."""
    for line, other in zip_longest(text.split("\n"), wanted.split("\n")):
        demand(line == other, f"{where}{line!r}, and not {other!r}")


def show(what):
    return {"op": "show", "what": what}


TABLES = [show(what) for what in ("nat", "filter", "nat6", "filter6")]
BATCHES = [show("batch"), show("batch6")]
SLICES = [show("slices"), show("endpoints")]


class Program:
    """The built program."""

    def __init__(self, path):
        self.path = path

    def run(self, values):
        """What a replay of these lines prints."""
        data = "".join(json.dumps(value) + "\n" for value in values).encode()
        done = subprocess.run(
            [self.path, "replay"], input=data, capture_output=True, timeout=SECONDS, check=False
        )
        demand(done.returncode in (0, 3), f"the program ends with status {done.returncode}")
        return done.stdout.decode()

    def answers(self, values):
        """What a replay prints for each of these lines."""
        text = self.run([it for value in values for it in (value, END)])
        *answers, rest = ENDED.split(text)
        demand(len(answers) == len(values) and not rest, "the program doesn't answer each line")
        return [NUMBERS.sub(r"\1:", answer) for answer in answers]


# ---- a script


def read_script(data):
    """The lines of a script, as values."""
    return [json.loads(line) for line in data.splitlines() if line.strip()]


def changes_of(value):
    """What a line changes: keys of objects, each with what the object is then, or with nothing."""
    if value.get("op", "event") != "event":
        return []
    value = value.get("event", value)
    if value.get("type") == "BOOKMARK":
        return []
    if "object" in value:
        gone = value["type"] == "DELETED"
        return [(key_of(value["object"]), None if gone else value["object"])]
    items = value["items"] if value["kind"] == "List" else [value]
    return [(key_of(item), item) for item in items]


def key_of(item):
    """By which an object is replaced; a Node is in no namespace."""
    kind, named = item["kind"], item["metadata"]
    return kind, "" if kind == "Node" else named.get("namespace", "default"), named["name"]


@dataclass
class Place:
    """A sync of a script, and what is known of the script by then."""

    line: int  # from 1, as the program counts
    why: str  # what the script says that the sync is for
    accepted: int  # how many syncs were, with this one where it is
    events: int  # how many events came after the last accepted sync before it
    objects: dict
    covered: dict  # the objects at the last accepted sync, this one where it is accepted
    asked: list  # packets and explanations


def places_of(values, said, every):
    """The places of a script whose lines were answered so: each `every`-th sync, the last one, and
    each that is refused where the one before wasn't, or the other way round."""
    rng = random.Random(len(values))
    objects, covered, doors = {}, {}, {}
    accepted = events = number = 0
    was_refused = False
    last = max(i for i, value in enumerate(values) if is_sync(value))
    for i, value in enumerate(values):
        for key, item in changes_of(value):
            events += 1
            objects.pop(key, None)
            if item is not None:
                objects[key] = item
                doors |= dict.fromkeys(doors_of(item, values[0]))
        if not is_sync(value):
            demand(not is_refused(said[i]), f"line {i + 1} is refused")
            continue
        number += 1
        refused = is_refused(said[i])
        if not refused:
            covered, accepted = dict(objects), accepted + 1
        if number % every == 0 or i == last or refused != was_refused:
            present = [it for item in objects.values() for it in doors_of(item, values[0])]
            asked = questions(rng, present or list(doors), list(doors), number)
            why = value.get("for", f"sync {number}")
            yield Place(i + 1, why, accepted, events, dict(objects), covered, asked)
        events = events if refused else 0
        was_refused = refused


def is_sync(value):
    return value.get("op") == "sync"


def is_refused(answer):
    return answer.startswith("line:")


def doors_of(item, setting):
    """Where packets to a Service are sent: addresses, ports and protocols."""
    if item["kind"] != "Service":
        return
    spec = item["spec"]
    ingress = item.get("status", {}).get("loadBalancer", {}).get("ingress", [])
    addresses = [*(spec.get("clusterIPs") or [spec.get("clusterIP", "None")])]
    addresses += spec.get("externalIPs", [])
    addresses += [it["ip"] for it in ingress if "ip" in it]
    for port in spec.get("ports", []):
        proto = port.get("protocol", "TCP")
        for address in addresses:
            if address != "None":
                yield address, port["port"], proto
        for address in setting["nodeAddresses"]:
            if port.get("nodePort"):
                yield address, port["nodePort"], proto


def questions(rng, present, doors, number):
    """Packets and explanations, to doors that are there and to those that ever were. What recent
    lists remember of the place before is too old."""
    values = []
    for _ in range(ASKED if doors else 0):
        address, port, proto = rng.choice(rng.choice([present, doors]))
        sources = changes.SOURCES6 if ":" in address else changes.SOURCES
        value = {"src": rng.choice(sources), "dst": address, "dport": port, "proto": proto}
        value["draws"] = [rng.getrandbits(31) for _ in range(rng.randint(0, 6))]
        value["now"] = number * 1_000_000 + rng.randint(0, 60)
        value |= {"from": "node"} if rng.random() < 0.2 else {}
        values += [{"op": "packet", "trail": True} | value, {"op": "explain"} | value]
    return values


# ---- following


def follow(program, values, every):
    """Raises what isn't so of a program that follows a script."""
    *said, slices, endpoints = program.answers([*values, *SLICES])
    places = list(places_of(values, said, every))
    lines, own = with_questions(values, places)
    *answers, last_slices, last_endpoints = program.answers([*lines, *SLICES])
    for line, (answer, at) in enumerate(zip(said, own), 1):
        compare(answer, answers[at], f"line {line}, if less is asked: ")
    for place in places:
        try:
            check_place(program, values[0], place, answers[own[place.line - 1] - len(TABLES) :])
        except Wrong as fault:
            raise Wrong(f"line {place.line} ({place.why}): {fault}") from fault
    compare(slices + endpoints, last_slices + last_endpoints, "the end, if less is asked: ")


def with_questions(values, places):
    """The lines of a script with what is asked at its places, and where its own lines are."""
    asked = {place.line: place.asked for place in places}
    lines, own = [], []
    for line, value in enumerate(values, 1):
        lines += TABLES if line in asked else []
        own.append(len(lines))
        lines.append(value)
        lines += [*BATCHES, *TABLES, *SLICES, *asked[line]] if line in asked else []
    return lines, own


def fresh_run(program, place, setting, covered):
    """What a fresh run says of its sync, and of what it is asked then. It covers these objects, and
    the place's, where they are others, come after its sync; there is none before the first one."""
    lines = [setting, *(covered[key] for key in sorted(covered))]
    lines += [SYNC] if covered is place.objects or place.accepted else []
    sync, objects = len(lines) - 1, place.objects
    lines += [item for key, item in objects.items() if covered.get(key) is not item]
    gone = [covered[key] for key in covered if key not in objects]
    lines += [{"type": "DELETED", "object": item} for item in gone]
    answers = program.answers([*lines, *TABLES, *SLICES, *place.asked])
    return answers[sync], answers[len(lines) :]


def check_place(program, setting, place, answers):
    """What the program says at a place, beginning with the tables before its sync, is what fresh
    runs say. A refused sync leaves what one of the objects before has, and the events after it."""
    before, said, batches, answers = answers[:4], answers[4], answers[5:7], answers[7:]
    made, wanted = fresh_run(program, place, setting, place.objects)
    if is_refused(made):
        compare(said, made)
        made, wanted = fresh_run(program, place, setting, place.covered)
    else:
        demand(not is_refused(said), f"{said!r}, and a fresh sync is accepted")
        counts = check_batch(before, batches, answers[:4])
        compare(said, f"sync {place.accepted}: events {place.events}, {counts}\n")
    names = ["nat", "filter", "nat6", "filter6", "slices", "endpoints"]
    names += map(json.dumps, place.asked)
    if setting.get("controller", True):
        answers[4:6] = slices_told(place.covered, *answers[4:6])
        wanted[4:6] = slices_told(place.covered, *wanted[4:6])
    for name, answer, other in zip(names, answers, wanted):
        compare(answer, other, f"{name}: ")


def chains_of_both(four, six):
    """The chains of printed tables of both families."""
    chains = {(*place, "4"): rules for place, rules in chains_of(four).items()}
    return chains | {(*place, "6"): rules for place, rules in chains_of(six).items()}


def chains_of(text):
    """The chains of printed tables, each with its line and its rules; those that are removed have
    nothing."""
    chains, table = {}, ""
    for line in text.splitlines():
        sign, name = line[:1], line.split()[-1] if line.startswith("-X") else line.split()[0][1:]
        if sign == "*":
            table = name
        elif sign == ":":
            chains[table, name] = [line]
        elif line.startswith("-X"):
            chains[table, name] = None
        elif line != "COMMIT":
            chains[table, line.split()[1]].append(line)
    return chains


def check_batch(before, batches, after):
    """The batches of both families take the tables to those after them, and no more than that.
    Their counts."""
    old, new = (chains_of_both("".join(it[:2]), "".join(it[2:])) for it in (before, after))
    edits = chains_of_both(*batches)
    edited = {place: rules for place, rules in (old | edits).items() if rules is not None}
    for place in old.keys() | new.keys() | edits.keys():
        demand(edited.get(place) == new.get(place), f"the batch leaves another {' '.join(place)}")
        same = place in edits and old.get(place) == edits[place]
        demand(not same, f"the batch has {' '.join(place)}, which stays as it was")
    removed = sum(rules is None for rules in edits.values())
    return f"written {len(edits) - removed}, removed {removed}"


def slices_told(objects, slices, endpoints):
    """The slices that the controller doesn't make, and what those hold that it makes for Services
    with a selector, by Service, family and ports. Others with its name, such as those of host
    names, stay as they were, or go with their Service."""
    packed = {key[1:] for key, item in objects.items() if is_packed(item)}
    told = re.findall(r"^slice ((\S+)/\S+): (.*, managed, service (.*), ports .*), e", slices, re.M)
    made = {
        name: kind if (space, service) in packed and kind.startswith("IPv") else ""
        for name, space, kind, service in told
    }
    lines = (slices + endpoints).splitlines()
    own = [line for line in lines if line.split()[1].rstrip(":") not in made]
    held = re.findall(r"^endpoint (\S+) \d+: (.*)$", endpoints, re.M)
    held = sorted(f"{made[name]}: {text}" for name, text in held if made.get(name))
    return "\n".join(own), "\n".join(held)


def is_packed(item):
    """Whether the controller makes slices for an object."""
    spec = item.get("spec", {})
    return item["kind"] == "Service" and spec.get("type") != "ExternalName" and spec.get("selector")


# ---- scripts


def worked_scripts():
    """The scripts beside this file, with their names."""
    for path in sorted(Path(__file__).parent.glob("*.jsonl")):
        yield path.name, read_script(path.read_bytes())


def fault_of(program, values, every):
    """What is wrong with a program that follows a script, or nothing."""
    try:
        follow(program, values, every)
    except (Wrong, subprocess.TimeoutExpired) as fault:
        return str(fault)
    return ""


def check(program, syncs, count, first):
    """Tells what is wrong, of the scripts beside this file and of random ones."""
    faults = [(name, fault_of(program, values, 1)) for name, values in worked_scripts()]
    for seed in range(first, first + count):
        values = changes.random_script(seed, syncs)
        faults.append((f"script {syncs} {seed}", fault_of(program, values, EVERY)))
    for name, fault in faults:
        if fault:
            print(f"checks: follow: {name}: {fault}")
    return any(fault for _, fault in faults)


def main(words):
    """Does what the words ask for; the status."""
    mode, *words = words
    if mode == "script":
        for value in changes.random_script(int(words[1]), int(words[0])):
            print(json.dumps(value))
        return 0
    program = Program(os.path.realpath(words[0]))
    if mode == "check":
        return int(check(program, *map(int, words[1:])))
    fault = fault_of(program, read_script(Path(words[1]).read_bytes()), int([*words, EVERY][2]))
    print(fault or "as a fresh run")
    return int(bool(fault))


if __name__ == "__main__":
    sys.exit(main(sys.argv[1:]))
