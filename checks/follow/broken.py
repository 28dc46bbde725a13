"""Whether follow.py tells programs that do one thing wrong, by the condition that isn't met.

Such a program is the built one, of which what it is given or what it prints is changed on the way.
A fresh run, which has one sync, is left as it is. Each of these programs is told by one of the
scripts beside this file at least, with each sync a place.

    broken.py PROGRAM
"""

import json
import os
import re
import sys

from follow import Program, changes_of, fault_of, is_sync, worked_scripts

EVENTS = re.compile(r"(?<=: events )\d+")


class Broken(Program):
    """The built program, given other lines or printing another text. The built one is asked the
    same only once."""

    said = {}

    def __init__(self, path, given=None, printed=None):
        super().__init__(path)
        self.given, self.printed = given, printed

    def run(self, values):
        text = self.right(values)
        if sum(map(is_sync, values)) < 2:
            return text
        if self.given:
            counts = iter(EVENTS.findall(text))
            text = self.right(self.given(self, values))
            # what is overlooked isn't told by the number of events alone
            text = EVENTS.sub(lambda at: next(counts, at[0]), text)
        return self.printed(text) if self.printed else text

    def right(self, values):
        """What the built program prints."""
        data = json.dumps(values)
        if data not in self.said:
            self.said[data] = super().run(values)
        return self.said[data]


# ---- what is overlooked


def without(value, is_lost):
    """A line without the events that are lost, by kind and object, which is none where it goes."""
    events = [(key[0], item) for key, item in changes_of(value)]
    if not any(is_lost(*event) for event in events):
        return value
    kept = [item for kind, item in events if not is_lost(kind, item)]
    return {"apiVersion": "v1", "kind": "List", "items": kept}


def loses(kind, goes):
    """Loses that an object of a kind goes, or that it comes or changes, after the first sync."""

    def given(program, values):
        del program
        first = values.index(next(filter(is_sync, values)))
        lost = (without(it, lambda a, item: (a, not item) == (kind, goes)) for it in values[first:])
        return values[:first] + list(lost)

    return given


def takes_first(program, values):
    """Loses what comes of an object after its first event since a sync."""
    del program
    kept, seen = [], set()
    for value in values:
        keys = {key for key, _ in changes_of(value)}
        kept.append(without(value, lambda *_: True) if keys & seen else value)
        seen = set() if is_sync(value) else seen | keys
    return kept


def loses_refused(program, values):
    """Loses what came before the first refused sync and after the last accepted one."""
    refused = re.search(r"^line (\d+): refused: chain name ", program.right(values), re.M)
    if not refused:
        return values
    place = int(refused[1])
    accepted = max(i for i, value in enumerate(values[: place - 1]) if is_sync(value))
    covered, objects = objects_after(values[:accepted]), objects_after(values[:place])
    back = [item for key, item in covered.items() if objects.get(key) is not item]
    gone = [item for key, item in objects.items() if key not in covered]
    back += [{"type": "DELETED", "object": item} for item in gone]
    return values[:place] + back + values[place:]


def objects_after(values):
    """The objects that there are after lines."""
    last = {key: item for value in values for key, item in changes_of(value)}
    return {key: item for key, item in last.items() if item}


KINDS = ["Service", "EndpointSlice", "Pod", "Node"]
GIVEN = {f"a {kind} that goes": loses(kind, True) for kind in KINDS}
GIVEN |= {f"another {kind}": loses(kind, False) for kind in KINDS}
GIVEN |= {"an object's second event": takes_first, "what a refused sync covers": loses_refused}


# ---- what is printed


def prints(pattern, text):
    """Prints another text in one place in which a pattern is met."""

    def printed(said):
        found = list(re.finditer(pattern, said, re.M))
        at = found[len(found) // 2] if found else None
        return said[: at.start()] + at.expand(text) + said[at.end() :] if at else said

    return printed


# how a program is told that holds something else than it should
DIFFERS = "(nat|filter|slices|endpoints): "
# an edit that writes a chain that always is so
EDIT = r":KUBE-MARK-MASQ - [0:0]\n-A KUBE-MARK-MASQ -j MARK --or-mark 0x4000\n"
# what is printed wrong, and how it is told
PRINTED = {
    "a lost rule": (prints(r"^-A KUBE-SVC-.*\n", ""), "nat|the batch"),
    "two rules in another order": (prints(r"^(-A (\S+) .*\n)(-A \2 .*\n)", r"\3\1"), "nat|filter"),
    "a chain that is left": (prints(r"^:KUBE-POSTROUTING", r":KUBE-SEP-X - [0:0]\n\g<0>"), "nat"),
    "a lost edit": (prints(r"^-X .*\n", ""), "the batch leaves"),
    "an edit too many": (prints(r"^-X ", EDIT + r"-X "), "the batch has"),
    "another number of events": (prints(r"(?<=: events )\d+", "1000"), "sync"),
    "another number written": (prints(r"(?<=written )\d+", "1000"), "sync"),
    "another number removed": (prints(r"(?<=removed )\d+", "1000"), "sync"),
    "another clash": (prints(r"chain name KUBE-\S+", "chain name KUBE-SVC-X"), "line:"),
    "no clash": (
        prints(r"^line \d+: refused: chain.*", "sync 9: events 1, written 0, removed 0"),
        "'sync",
    ),
    "a packet that goes elsewhere": (prints(r"^(packet .*: )to .*", r"\1rejected"), "packet"),
    "another trail": (prints(r"^(trail \d+: ).*", r"\1none"), "packet"),
    "another reason": (prints(r"^(explain .*; ).*", r"\1no door decides"), "explain"),
    "a lost endpoint": (prints(r"^endpoint .*\n", ""), "endpoints"),
    "a lost slice": (prints(r"^slice .*, own, .*\n", ""), "slices"),
}


def main(path):
    """Tells the programs that aren't told, and the right one if it is."""
    scripts = [[it for it in values if it.get("op") != "show"] for _, values in worked_scripts()]
    broken = {f"overlooks {name}": (Broken(path, it), DIFFERS) for name, it in GIVEN.items()}
    for name, (it, how) in PRINTED.items():
        broken[f"prints {name}"] = Broken(path, printed=it), how
    wrong = [f"the program itself: {fault}" for fault in faults(Broken(path), scripts) if fault]
    for name, (program, how) in broken.items():
        found = faults(program, scripts)
        if not any(re.search(how, fault) for fault in found):
            wrong.append(f"a program that {name} is told so: {found}")
    for it in wrong:
        print(f"checks: follow: {it}")
    return int(bool(wrong))


def faults(program, scripts):
    """What is told of a program by each script."""
    return [fault_of(program, values, 1) for values in scripts]


if __name__ == "__main__":
    sys.exit(main(os.path.realpath(sys.argv[1])))
