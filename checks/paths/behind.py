"""What `kproxy paths` prints behind an explanation: where the packet may go, the other endpoints of the
port of the door that answers it, and whom its destination serves.

It is written from docs/FORMAT.md and docs/KUBE-PROXY.md, on the decision of ../vmap/decision.py. A path is
the decision for which one place is picked. A kind of source is what is asked of an address, and its
answer is that to a packet from its least address.
"""

import copy
import ipaddress
import re

from answers import Known as KnownDoors
from answers import Model as Answers
from decision import LOOPBACK, Decider, Packet, named
from doors import port_text
from draws import by_thresholds, threshold
from record import Record

EXPLAINED = re.compile(r"explain (\d+) at ")
WHOLE = 10**10  # what the chances of all places add up to


def chances(count):
    """The chances of so many places, with ten decimals: each has its share of what is left, rounded
    down, and the last one has the rest."""
    left = WHOLE
    for size in range(count, 0, -1):
        share = left * threshold(size) // 2**31 if size > 1 else left
        left -= share
        yield f"{share // WHOLE}.{share % WHOLE:010}"


def bounds(networks, version):
    """Where a kind of address may begin, in order: the least address of the family, and of each network
    the first one and the one after the last."""
    kind = {4: ipaddress.IPv4Address, 6: ipaddress.IPv6Address}[version]
    most, found = int(kind(2 ** (32 if version == 4 else 128) - 1)), {0}
    for it in networks:
        if it.version == version:
            found |= {int(it.network_address), min(int(it.broadcast_address) + 1, most + 1)}
    return [kind(it) for it in sorted(found) if it <= most]


class Known(KnownDoors):
    """What is known of a script: the records of its accepted syncs, too."""

    def __init__(self, lines, replayed):
        self.records = []
        super().__init__(lines, replayed)

    def of(self, objects):
        self.records.append(Record(self.setting, objects))
        return super().of(objects)


class Behind:
    """What is behind explanations, at one sync."""

    decider = Decider

    def __init__(self, record, doors, node):
        self.record, self.doors, self.node = record, doors, node
        self.by, self.served_at = self.picking(0), {}

    def picking(self, place):
        """What decides where this place is picked, from 0, whatever the draws."""
        return self.decider(self.doors, self.node, lambda draws, size: place)

    def lines(self, number, packet, recent):
        """All lines behind the explanation of a line."""
        sent = self.sent(packet, recent)
        is_drawn = sent is not None and sent.by == "draws"
        count = len(sent.list) if is_drawn else 1
        for place, chance in enumerate(self.chances(count)):
            path = self.path(packet, place, recent)
            yield f"path {number} {place + 1} of {count} chance {chance}: {path}"
        door = self.answering(packet, sent)
        if door:
            for end, why in self.asides(packet, door, sent):
                yield f"aside {number} {port_text(door.port)}: {end} {why}"
            for said in self.sources(packet):
                yield f"source {number} {said}"

    def chances(self, count):
        return chances(count)

    def sent(self, packet, recent):
        """Where a door sends a packet, for the first place, or nothing."""
        if packet.family not in self.doors:
            return None
        return self.by.translated(packet, None, recent.copy())

    # ---- paths

    def path(self, packet, place, recent):
        """What becomes of a packet for which this place is picked, and why."""
        by = self.picking(place)
        made = by.decide(packet, None, recent.copy())
        if not made.is_refused_there:
            return f"{made.verdict}; {made.reason}"
        sent = by.translated(packet, None, recent.copy())
        return f"{made.verdict}; {made.reason}; sent to {sent.endpoint}; {sent.reason()}"

    def answering(self, packet, sent):
        """The door that sends a packet; else that of the filter's line that refuses it; else the first
        one that fits; or nothing."""
        if sent:
            return sent.door
        return self.refusing(packet) if packet.family in self.doors else None

    def refusing(self, packet):
        """Which door answers a packet that none sends."""
        lines = (door for door, _ in self.by.refusing(packet, packet.target, packet.port))
        return next(lines, None) or next(self.by.fitting(packet), None)

    # ---- endpoints beside them

    def asides(self, packet, door, sent):
        """The endpoints of a port that a packet isn't sent to, and why."""
        reached = [] if not sent else sent.list if sent.by == "draws" else [sent.endpoint]
        for end in self.endpoints(door, packet.family):
            if end not in reached:
                yield end, self.why(end, door, packet.source)

    def endpoints(self, door, family):
        space, name, *_ = door.port
        spec = self.record.of("Service")[space, name]["spec"]
        return self.record.endpoints(door.port, spec, family)

    def why(self, end, door, source):
        """Why a packet isn't sent to an endpoint of a door's port."""
        if not end.state.ready and not end.state.leaving:
            return "not ready"
        kind, listed = self.by.list_of(door, source)
        if end not in listed:
            if kind == "local" and not self.record.is_local(end.state):
                return "other node"
            return "other zone" if end.state.ready else "terminating"
        return "kept elsewhere" if self.by.admits(door, source) else "not admitted"

    # ---- sources

    def sources(self, packet):
        """Each kind of source by its least address, and what it gets at a packet's destination."""
        key = packet.family, packet.target, packet.port, packet.proto
        if key not in self.served_at:
            self.served_at[key] = list(self.kinds(packet))
        return self.served_at[key]

    def kinds(self, packet):
        seen = set()
        for address in bounds(self.asked_networks(packet), packet.target.version):
            kind = self.kind(packet, address)
            if kind not in seen:
                seen.add(kind)
                yield f"{address}, {kind}: {self.served(packet, address)}"

    def restricted(self, packet):
        """The load balancers' doors that fit and have source ranges."""
        return [it for it in self.by.fitting(packet) if it.kind == "balancer" and it.ranges is not None]

    def asked_networks(self, packet):
        """The networks in which a decision may ask for an address."""
        ranges = [ipaddress.ip_network(it) for door in self.restricted(packet) for it in door.ranges]
        own = [ipaddress.ip_network(it) for it in self.node.addresses]
        return [*self.node.pods, *LOOPBACK, *own, *ranges]

    def kind(self, packet, address):
        """What is asked of an address, as it is printed."""
        where = {"cluster": self.node.is_pods(address), "node": self.node.is_own(address)}
        whence = " and ".join(it for it, is_so in where.items() if is_so) or "outside"
        ports = [it.port for it in self.restricted(packet) if self.by.admits(it, address)]
        return whence + "".join(f", in ranges of {port_text(it)}" for it in ports)

    def asked_from(self, packet, address):
        """The packet of such a source: from the node where the address is its own, and else from the
        wire."""
        asked = copy.copy(packet)
        asked.source, asked.is_of_node = address, self.node.is_own(address)
        return asked

    def served(self, packet, address):
        """What a source gets."""
        asked = self.asked_from(packet, address)
        taken = self.by.taken(asked)
        if not taken:
            refused = self.by.refused(asked, asked.target, asked.port)
            verdict, door = refused[0] if refused else "left alone", self.refusing(asked)
            return f"{verdict}, {self.cause(door, address)}; {named(door)}"
        door, kind, listed = taken
        reached = [it for it in listed if not self.by.refused(asked, it.address, it.number)]
        masked = sum(self.is_masked(door, asked, it.address) for it in reached)
        counts = [("masked", masked), ("refused", len(listed) - len(reached))]
        said = [f"open {len(reached)}", *(f"{word} {it}" for word, it in counts if it)]
        return f"{', '.join(said)}; {named(door)} list {kind}"

    def is_masked(self, door, asked, address):
        """Whether a source that is no endpoint is masqueraded on its way to an address."""
        leaves = asked.is_of_node or not self.node.is_own(address)
        return leaves and self.by.is_marked(door, asked)

    def cause(self, door, address):
        """Why a door has nothing for a source."""
        if not door.side.usable:
            return "no endpoints"
        return "no local endpoints" if self.by.admits(door, address) else "not admitted"


class Model(Answers):
    """What is printed in the mode `paths`, by what a replay prints."""

    behind = Behind

    def __init__(self, known):
        super().__init__(known, by_thresholds)

    def decide(self):
        super().decide()
        # the record is made with the doors
        self.now = self.behind(self.known.records[self.syncs], self.by.ports, self.known.node)

    def lines(self, replayed):
        """The lines that are to be printed. Packets and explanations are those of the replay, which
        ../vmap judges, and packets are remembered."""
        for line, said in zip(replayed, super().lines(replayed)):
            yield line
            explained = EXPLAINED.match(said)
            if explained:
                number = int(explained[1])
                yield from self.now.lines(number, Packet(self.known.values[number - 1]), self.recent)
