"""What `kproxy track` has to print, by a tracker: what a replay prints, with what owned flows are
answered in its place.

Which flows are owned depends on what others are answered that nobody owns, and the other way round.
So the replay is made until both agree, where each owned flow is another line; each time one flow
more is answered as it should be, at least.
"""

import ipaddress
import json
import re
from functools import lru_cache

from tracker import Tracker, flow_of

OWNED = b'{"op":"owned"}'  # not known: its refusal stands where an owned flow is answered
ANSWERED = re.compile(r"packet (\d+) at \d+: (.*)")
SENT = re.compile(r"to \[?(.+?)\]?:(\d+)( masked)?")
REFUSED = re.compile(r"line (\d+): refused: ")
SYNCED = re.compile(r"sync \d+: ")


@lru_cache(maxsize=4096)
def endpoint_of(address, port):
    return ipaddress.ip_address(address), int(port)


def endpoint_text(address, port):
    return f"[{address}]:{port}" if address.version == 6 else f"{address}:{port}"


def owned_text(how, opener):
    if how == "reply":
        return f"reply as {endpoint_text(*opener.connection.target)}"
    masked = " masked" if opener.is_masked else ""
    return f"later to {endpoint_text(*opener.endpoint)}{masked}"


def ended(text):
    """The lines of a text."""
    return text.split("\n")[:-1]


class Said:
    """What is printed, by what a replay prints in which the flows that are taken for owned are other
    lines. The endpoints that stand after each accepted sync are given in order."""

    def __init__(self, values, replayed, taken, tracker, standing):
        self.values, self.taken, self.tracker, self.standing = values, taken, tracker, standing
        self.owned, self.lines, self.syncs, self.is_refused = set(), [], 0, False
        for line in ended(replayed):
            self.read(line)

    def read(self, line):
        """Says a line of the replay, or what stands in its place."""
        answered, refused = ANSWERED.match(line), REFUSED.match(line)
        if answered:
            self.answer(int(answered[1]), line, answered[2])
        elif refused and int(refused[1]) in self.taken:
            self.answer(int(refused[1]), line, "")
        else:
            self.lines.append(line)
            self.is_refused |= bool(refused)
            if SYNCED.match(line):
                self.syncs += 1
                self.tracker.sync(next(self.standing))

    def answer(self, number, line, verdict):
        """Says a flow: what its owner is told, or what the rules say."""
        value = self.values[number - 1]
        flow = flow_of(value)
        found = self.tracker.arrive(flow)
        if found:
            self.owned.add(number)
            self.lines.append(f"packet {number} at {self.syncs}: {owned_text(*found)}")
            self.lines += [f"trail {number}: none"] if value.get("trail") else []
            return
        sent = SENT.fullmatch(verdict)
        is_kept = not sent or self.tracker.open(flow, endpoint_of(sent[1], sent[2]), bool(sent[3]))
        self.lines.append(line if is_kept else f"{line} untracked")


def value_of(line):
    """The value of a line, or nothing where it is no JSON."""
    try:
        return json.loads(line)
    except (ValueError, RecursionError):
        return None


def tracked(replay, lines, standings, tracker=Tracker):
    """The status and the lines that are to be printed of lines, which are bytes. A replay of bytes
    gives its status and its text; of values and such a text the endpoints come that stand after each
    sync."""
    values, taken = [value_of(line) for line in lines], set()
    while True:
        given = [OWNED if at in taken else line for at, line in enumerate(lines, 1)]
        status, replayed = replay(b"".join(it + b"\n" for it in given))
        if status not in (0, 3):
            return status, ended(replayed)
        said = Said(values, replayed, taken, tracker(), standings(values, replayed))
        if said.owned == taken:
            return 3 if said.is_refused else 0, said.lines
        taken = said.owned
