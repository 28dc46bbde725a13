"""What `kproxy vmap` has to print: what a replay prints, with what the model says of packets and
explanations in the place of what the replay says of them."""

import json
import re
from itertools import zip_longest

from record import Record, covered_at

from decision import Decider, Node, Packet, Recent, doors_by_family
from draws import Draws

SYNCED = re.compile(r"sync \d+: ")
REFUSED = re.compile(r"line (\d+): refused: ")
ANSWERED = re.compile(r"(packet|explain|trail) (\d+)(?: at \d+)?: ")
# what is told of a packet that a door sends, up to the list's size
SENT = re.compile(r"explain \d+ at \d+: to .*; (door \S+ \S+ list \S+ size \d+) by ")
NODE, RECENT = "node", 100  # where the setting doesn't say


def ended(text):
    """The lines of a text."""
    return text.split("\n")[:-1]


def value_of(line):
    """The value of a line, or nothing where it is no JSON."""
    try:
        return json.loads(line)
    except (ValueError, RecursionError):
        return None


def setting_of(lines, replayed):
    """The setting: that of the first line that isn't blank, where it is one and isn't refused."""
    refused = {int(REFUSED.match(it)[1]) for it in replayed if REFUSED.match(it)}
    for number, line in enumerate(lines, 1):
        if line.strip(b" \t\r"):
            value = value_of(line)
            is_one = isinstance(value, dict) and value.get("op") == "config" and number not in refused
            said = {name: it for name, it in value.items() if it is not None} if is_one else {}
            return {"node": NODE} | said
    return {"node": NODE}


class Known:
    """What is known of a script, however endpoints are picked: its values, the setting, and the doors
    of each accepted sync, before which there are none."""

    def __init__(self, lines, replayed):
        self.values, self.setting = [value_of(it) for it in lines], setting_of(lines, replayed)
        self.covered = covered_at(self.values, "\n".join(replayed))
        self.node, self.doors = Node(self.setting), [self.of({})]

    def of(self, objects):
        return doors_by_family(Record(self.setting, objects))

    def at(self, sync):
        """The doors at a sync; syncs are asked for one after the other."""
        while len(self.doors) <= sync:
            self.doors.append(self.of(next(self.covered)))
        return self.doors[sync]


class Model:
    """What is said of packets and explanations, sync by sync, by how endpoints are picked."""

    def __init__(self, known, pick, decider=Decider):
        self.known, self.pick, self.decider = known, pick, decider
        self.recent = Recent(known.setting.get("recentSize", RECENT))
        self.syncs, self.answers = 0, {}
        self.decide()

    def decide(self):
        self.by = self.decider(self.known.at(self.syncs), self.known.node, self.pick)

    def answer(self, number, is_kept):
        """What becomes of a packet; whether the recent lists remember it."""
        value = self.known.values[number - 1]
        recent = self.recent if is_kept else self.recent.copy()
        made = self.by.decide(Packet(value), Draws(value, number), recent)
        self.answers[number] = made
        return made

    def line(self, kind, number):
        """A line of an answer."""
        if kind == "trail":
            return f"trail {number}: none"
        made = self.answer(number, kind == "packet")
        reason = f"; {made.reason}" if kind == "explain" else ""
        return f"{kind} {number} at {self.syncs}: {made.verdict}{reason}"

    def lines(self, replayed):
        """The lines that are to be printed, by those of a replay."""
        for line in replayed:
            if SYNCED.match(line):
                self.syncs += 1
                self.decide()
            answered = ANSWERED.match(line)
            yield self.line(answered[1], int(answered[2])) if answered else line


def first_difference(said, wanted):
    """The first line that isn't as it should be, or nothing."""
    pairs = enumerate(zip_longest(said, wanted), 1)
    wrong = (f"line {place}: {it!r}, and not {line!r}" for place, (it, line) in pairs if it != line)
    return next(wrong, "")


def other_door(said, replayed, is_refused_there):
    """The first explanation that doesn't name the door and the list of the replay's, though no line
    of the filter decides at one of the two endpoints; or nothing. Whether one does at the first
    text's is asked."""
    for line, other in zip(said, replayed):
        if not line.startswith("explain "):
            continue
        ours, theirs = (it and it[1] for it in map(SENT.match, (line, other)))
        number = int(line.split()[1])
        if ours == theirs or (theirs is None and is_refused(other)):
            continue
        if ours is not None or not is_refused_there(number):
            return f"{line!r}, and a replay says {other!r}"
    return ""


def is_refused(line):
    """Whether an explanation says that a line of the filter decides."""
    return re.match(r"explain \d+ at \d+: (?:rejected|dropped); door ", line) is not None
