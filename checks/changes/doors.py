"""Whether `kproxy changes` says what each sync changes, by a model of doors (record.py has the
endpoints behind them).

A script is what ../follow/changes.py makes: small changes to a cluster, with syncs between them.
The program replays it, and says what it changes. Both texts are one but for the lines of changes,
and these are those of the model, byte for byte, which makes all doors of all ports anew at each
accepted sync.

    doors.py check PROGRAM SYNCS COUNT FIRST    judges the scripts beside this file, and random
                                                ones, by the seeds from FIRST on
    doors.py judge PROGRAM SCRIPT               judges a script
    doors.py say PROGRAM SCRIPT                 prints what the model has to say of a script
"""

import base64
import hashlib
import ipaddress
import json
import re
import subprocess
import sys
from dataclasses import dataclass
from itertools import zip_longest
from pathlib import Path

from record import FAMILIES, Record, cluster_address, covered_at, family_of, of_family, place_of

import changes
from follow import read_script

HERE = Path(__file__).resolve().parent
SECONDS = 600
SYNCED = re.compile(r"sync \d+: ")
# how many of the doors beside a door its line names
NAMED = 3
# what is left out of a line of a door that comes
USUAL = ["policy Cluster", "affinity none", "sources any"]


# ---- doors


def port_text(port):
    space, name, port, proto = port
    return f"{space}/{name}{':' + port if port else ''}/{proto}"


def ranges_of(texts, family):
    """The ranges of a family, each once, or none where all sources are admitted."""
    if not texts:
        return None
    own = (it for it in texts if family_of(it) == family)
    return list(dict.fromkeys(str(ipaddress.ip_network(it, strict=False)) for it in own))


@dataclass
class Side:
    """What the doors of a port in a family have in common: the cluster's door has one side, and
    those at which clients come from elsewhere have the other."""

    port: tuple
    family: str
    usable: bool  # whether some endpoint can be used
    affinity: str
    digits: int  # of the hash in a chain's name
    is_local: bool  # the policy
    list: list
    inside: list  # what clients inside the cluster are offered


class Door:
    """A frontend of a Service port, and what decides where a connection through it goes."""

    def __init__(self, side, kind, address, number, ranges=None):
        self.side, self.kind, self.address, self.number = side, kind, address, number
        self.ranges, self.port = ranges, side.port
        self.is_closed = ranges == [] and side.usable
        self.list, self.inside = ([], []) if self.is_closed else (side.list, side.inside)
        self.key = kind, address, number
        self.destination = side.port[3], side.family, address, number

    def state(self):
        if self.list:
            return f"open {len(self.list)}"
        if self.is_closed:
            return "closed"
        return "no local endpoints" if self.side.usable else "no endpoints"

    def values(self):
        policy = "Local" if self.side.is_local else "Cluster"
        sources = "any" if self.ranges is None else ", ".join(self.ranges) or "none"
        return [f"policy {policy}", f"affinity {self.side.affinity}", f"sources {sources}"]

    def jump(self):
        """The chain that the door's rule jumps to, or nothing."""
        if self.kind == "cluster":
            return self.chain("SVL" if self.side.is_local else "SVC") if self.list else ""
        return self.chain("EXT" if self.ranges is None else "FW") if self.side.usable else ""

    def chain(self, prefix):
        space, name, port, proto = self.port
        text = f"{space}/{name}{':' + port if port else ''}{proto.lower()}"
        digest = base64.b32encode(hashlib.sha256(text.encode()).digest()).decode()
        return f"KUBE-{prefix}-{digest[: self.side.digits]}"

    def __str__(self):
        anywhere = f"{'[*]' if self.side.family == 'IPv6' else '*'}:{self.number}"
        place = place_of(self.address, self.number) if self.address else anywhere
        return f"{port_text(self.port)} {self.kind} {place}"


def sides_of(record, key, spec, family):
    """The sides of a port in a family: inside the cluster, and outside."""
    endpoints = record.endpoints(key, spec, family)
    everywhere, local = record.lists(endpoints)
    usable = any(it.state.ready or it.state.leaving for it in endpoints)
    timeout = spec.get("sessionAffinityConfig", {}).get("clientIP", {}).get("timeoutSeconds")
    affinity = str(timeout or 10800) if spec.get("sessionAffinity") == "ClientIP" else "none"
    common = key, family, usable, affinity, record.setting.get("nameLength", 16)
    is_local = [spec.get(f"{it}TrafficPolicy") == "Local" for it in ("internal", "external")]
    inner, outer = (local if it else everywhere for it in is_local)
    return Side(*common, is_local[0], inner, inner), Side(*common, is_local[1], outer, everywhere)


def doors_of(record, key, service, port, family):
    """The doors of a port in a family, in order."""
    spec, number = service["spec"], port["port"]
    cluster = cluster_address(spec, family)
    if not cluster:
        return []
    kind, ingress = spec.get("type"), service.get("status", {}).get("loadBalancer", {})
    given = [it for it in ingress.get("ingress") or [] if it.get("ipMode") != "Proxy"]
    given = [it["ip"] for it in given if it.get("ip") and kind == "LoadBalancer"]
    node = port.get("nodePort") if kind in ("NodePort", "LoadBalancer") else None
    ranges = ranges_of(spec.get("loadBalancerSourceRanges"), family)
    inner, outer = sides_of(record, key, spec, family)
    external = of_family(spec.get("externalIPs") or [], family)
    return [
        Door(inner, "cluster", cluster, number),
        *(Door(outer, "external", it, number) for it in external),
        *(Door(outer, "balancer", it, number, ranges) for it in of_family(given, family)),
        *([Door(outer, "node", None, node)] if node else []),
    ]


class Doors:
    """All doors of a record: of each port and family, in order, and those of each destination."""

    def __init__(self, record):
        self.of, self.at = {}, {}
        for (space, name), service in record.of("Service").items():
            for port in service["spec"].get("ports") or []:
                key = space, name, port.get("name", ""), port.get("protocol", "TCP")
                for family in record.families():
                    self.of[key, family] = doors_of(record, key, service, port, family)
        for key in sorted(self.of):
            for door in self.of[key]:
                self.at.setdefault(door.destination, []).append(door)

    def beside(self, door):
        """What is said of the other doors at a door's destination."""
        there = self.at.get(door.destination, [])
        others = [it for it in there if (it.port, it.kind) != (door.port, door.kind)]
        said = [f"beside {port_text(it.port)} {it.kind}" for it in others[:NAMED]]
        more = len(others) - len(said)
        return [*said, f"{more} more beside"] if more else said


# ---- what a sync changes


def turned(old, new):
    return old if old == new else f"{old}, now {new}"


def new_and_gone(word, old, new):
    """What a list gains and loses."""
    gained, lost = [it for it in new if it not in old], [it for it in old if it not in new]
    pairs = [("new", gained), ("gone", lost)]
    return [f"{word}{name} {', '.join(found)}" for name, found in pairs if found]


def texts(door, name):
    """A list of a door, as it is printed; none of one that is absent."""
    return [str(it) for it in getattr(door, name)] if door else []


def line_of(old, new, doors):
    """The line of a door in the record before and in this one, or nothing where none of its values
    differs."""
    door, is_kept = new or old, bool(old and new)
    states = [it.state() if it else "absent" for it in (old, new)]
    lists, inner = ([texts(it, name) for it in (old, new)] for name in ("list", "inside"))
    parts = new_and_gone("", *lists)
    if is_kept:
        pairs = zip(old.values(), new.values())
        parts += [turned(*pair) for pair in pairs if pair[0] != pair[1]]
    elif new:
        parts += [value for value, usual in zip(new.values(), USUAL) if value != usual]
    if not parts and states[0] == states[1] and inner[0] == inner[1]:
        return ""
    there = [place for place, it in enumerate((old, new)) if it]
    if new and any(lists[place] != inner[place] for place in there):
        sizes = [f"inside open {len(inner[place])}" for place in there]
        parts += [turned(sizes[0], sizes[-1]), *new_and_gone("inside ", *inner)]
    if not is_kept or bool(lists[0]) != bool(lists[1]):
        parts += doors.beside(door)
    by = f" by {door.jump()}" if door.jump() else ""
    return f"change {door}{by}: " + "; ".join([turned(*states), *parts])


def lines_between(old, new):
    """The lines of the doors that differ between two records."""
    for key in sorted({*old.of, *new.of}):
        before = {it.key: it for it in old.of.get(key, [])}
        after = {it.key: it for it in new.of.get(key, [])}
        gone = [it for it in before if it not in after]
        lines = [line_of(before.get(it), after.get(it), new) for it in [*after, *gone]]
        yield from filter(None, lines)


# ---- running


def run(program, mode, data):
    """The status and the text of a run."""
    options = {"capture_output": True, "timeout": SECONDS, "check": False}
    done = subprocess.run([program, mode], input=data, **options)
    return done.returncode, done.stdout.decode()


def data_of(values):
    return "".join(json.dumps(value) + "\n" for value in values).encode()


def lines_with_changes(values, replayed):
    """The lines that a replay prints, with those of changes after each accepted sync."""
    is_set = bool(values) and values[0].get("op") == "config"
    setting = values[0] if is_set else {}
    covered, lines = covered_at(values, replayed), []
    old = Doors(Record(setting, {}))
    for line in replayed.splitlines():
        lines.append(line)
        if SYNCED.match(line):
            new = Doors(Record(setting, next(covered)))
            lines += lines_between(old, new)
            old = new
    return lines


def fault_of(program, values):
    """The first line that isn't as it should be, or nothing."""
    data = data_of(values)
    status, replayed = run(program, "replay", data)
    found, said = run(program, "changes", data)
    if found != status:
        return f"status {found}, and not {status}"
    pairs = enumerate(zip_longest(said.splitlines(), lines_with_changes(values, replayed)), 1)
    wrong = (f"line {place}: {it!r}, and not {line!r}" for place, (it, line) in pairs if it != line)
    return next(wrong, "")


def main(words):
    """Does what the words ask for; the status."""
    mode, program, *words = words
    if mode == "check":
        syncs, count, first = map(int, words)
        names = {path.name: read_script(path.read_bytes()) for path in HERE.glob("*.jsonl")}
        seeds = range(first, first + count)
        scripts = names | {f"{syncs} {it}": changes.random_script(it, syncs) for it in seeds}
        faults = {name: fault_of(program, values) for name, values in scripts.items()}
        for name, fault in faults.items():
            if fault:
                print(f"checks: changes: script {name}: {fault}")
        return int(any(faults.values()))
    values = read_script(Path(words[0]).read_bytes())
    if mode == "say":
        print(*lines_with_changes(values, run(program, "replay", data_of(values))[1]), sep="\n")
        return 0
    fault = fault_of(program, values)
    print(fault or "as it should be")
    return int(bool(fault))


if __name__ == "__main__":
    sys.exit(main(sys.argv[1:]))
