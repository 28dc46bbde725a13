"""What becomes of a packet, by the objects that a sync covers.

It is written from docs/FORMAT.md and docs/KUBE-PROXY.md and from the Kubernetes documents "Service"
and "Virtual IPs and Service Proxies". Doors are those of ../changes/doors.py, and all of them are
looked at for each packet: so there is no table, and nothing is looked up by a destination. How an
endpoint is picked of a list is told from outside.
"""

import base64
import hashlib
import ipaddress
from dataclasses import dataclass

from doors import Doors, port_text
from record import family_of, place_of

PARTS = 16  # of a recent list
LOOPBACK = [ipaddress.ip_network(it) for it in ("127.0.0.0/8", "::1/128")]


def is_within(address, networks):
    return any(address.version == it.version and address in it for it in networks)


class Node:
    """What the setting says of the node."""

    def __init__(self, setting):
        self.addresses = [ipaddress.ip_address(it) for it in setting.get("nodeAddresses") or []]
        ranges = (setting.get("clusterCIDR") or "").split(",")
        self.pods = [ipaddress.ip_network(it, strict=False) for it in ranges if it]
        self.masks_all = setting.get("masqueradeAll") or False
        self.digits = setting.get("nameLength", 16)

    def is_own(self, address):
        return address in self.addresses or is_within(address, LOOPBACK)

    def is_pods(self, address):
        return is_within(address, self.pods)

    def knows_pods(self, family):
        return any(f"IPv{it.version}" == family for it in self.pods)


class Packet:
    """A packet's line."""

    def __init__(self, value):
        self.source, self.target = (ipaddress.ip_address(value[it]) for it in ("src", "dst"))
        self.port, self.proto = value["dport"], value.get("proto") or "TCP"
        self.is_of_node = value.get("from") == "node"
        self.now, self.family = value.get("now") or 0, family_of(value["src"])


# ---- recent lists


class Recent:
    """Sources that were sent to endpoints, by the name of a list and by part, the latest first; each
    with the moment of that. A part has so many at most."""

    def __init__(self, size, parts=None):
        self.size, self.parts = size, parts or {}

    def copy(self):
        return Recent(self.size, dict(self.parts))

    def looked(self, name, packet, seconds):
        """Whether a source was set within a timeout. What is past it is forgotten in its part."""
        place = name, int(packet.source) % PARTS
        kept = [it for it in self.parts.get(place, []) if max(0, packet.now - it[1]) <= seconds]
        self.parts[place] = kept
        return any(source == packet.source for source, _ in kept)

    def set(self, name, packet):
        place = name, int(packet.source) % PARTS
        others = [it for it in self.parts.get(place, []) if it[0] != packet.source]
        self.parts[place] = [(packet.source, packet.now), *others][: self.size]


# ---- the decision


@dataclass
class Translation:
    """Where a door sends a packet."""

    door: object
    kind: str  # of the list
    list: list
    place: int  # in it, from 0
    by: str
    is_masked: bool

    @property
    def endpoint(self):
        return self.list[self.place]

    def __str__(self):
        return f"to {self.endpoint}{' masked' if self.is_masked else ''}"

    def reason(self):
        """The door and the list, and then how the endpoint was chosen."""
        offer = f"{named(self.door)} list {self.kind} size {len(self.list)}"
        return f"{offer} by {self.by} place {self.place + 1}"


@dataclass
class Answer:
    verdict: str
    reason: str
    is_refused_there: bool = False  # whether the filter refuses it at an endpoint


def named(door):
    return f"door {door.kind} {port_text(door.port)}"


def doors_by_family(record):
    """For each family of the node the doors of each port, in order."""
    doors = sorted(Doors(record).of.items(), key=lambda it: it[0])
    return {it: [own for (_, of), own in doors if of == it] for it in record.families()}


class Decider:
    """Decides packets by the doors that there are."""

    def __init__(self, ports, node, pick):
        self.ports, self.node, self.pick = ports, node, pick

    def decide(self, packet, draws, recent):
        """What becomes of a packet. The recent lists come to be as it leaves them."""
        if packet.family not in self.ports:
            return Answer("left alone", "no door decides")
        sent = self.translated(packet, draws, recent)
        target = (sent.endpoint.address, sent.endpoint.number) if sent else (packet.target, packet.port)
        refused = self.refused(packet, *target)
        if refused:
            return Answer(*refused, sent is not None)
        if sent:
            return Answer(str(sent), sent.reason())
        return Answer("left alone", "no door decides")

    def fits(self, door, packet, address, number):
        """Whether a destination of a packet's protocol is that of a door."""
        if door.port[3] != packet.proto or door.number != number:
            return False
        if door.address is None:
            return self.node.is_own(address) and not is_within(address, LOOPBACK)
        return door.address == address

    def doors(self, packet):
        """All doors of the family in order: those at addresses, and then those of node ports."""
        found = [door for doors in self.ports[packet.family] for door in doors]
        yield from (it for it in found if it.kind != "node")
        yield from (it for it in found if it.kind == "node")

    def translated(self, packet, draws, recent):
        """The door that takes a packet sends it to one of its endpoints."""
        taken = self.taken(packet)
        if not taken:
            return None
        door, kind, offered = taken
        place, by = self.chosen(door, offered, packet, draws, recent)
        is_masked = self.is_masked(door, packet, offered[place].address)
        return Translation(door, kind, offered, place, by, is_masked)

    def fitting(self, packet):
        """The doors that a packet's destination is, in order."""
        return (it for it in self.doors(packet) if self.fits(it, packet, packet.target, packet.port))

    def taken(self, packet):
        """The first door that fits and has endpoints for the source, with the kind of their list, and
        the list; or nothing."""
        for door in self.fitting(packet):
            kind, offered = self.offered(door, packet.source)
            if offered:
                return door, kind, offered
        return None

    def offered(self, door, source):
        """The kind of the list that a door has for a source, and its endpoints."""
        return self.list_of(door, source) if self.admits(door, source) else ("", [])

    def admits(self, door, source):
        """Whether a source is in one of a door's ranges, where it has some."""
        return door.ranges is None or is_within(source, map(ipaddress.ip_network, door.ranges))

    def list_of(self, door, source):
        """The kind of a door's list for a source, and the list, whoever is admitted."""
        side = door.side
        is_inside = self.node.is_pods(source) or self.node.is_own(source)
        if door.kind != "cluster" and side.is_local and is_inside:
            return "cluster", side.inside
        return "local" if side.is_local else "cluster", side.list

    def chosen(self, door, offered, packet, draws, recent):
        """The place of an endpoint in a list: by affinity, or else by draws."""
        if door.side.affinity == "none":
            return self.pick(draws, len(offered)), "draws"
        names = [self.name_of(door.port, it) for it in offered]
        seconds = int(door.side.affinity)
        known = (place for place, it in enumerate(names) if recent.looked(it, packet, seconds))
        place, by = next(known, None), "affinity"
        if place is None:
            place, by = self.pick(draws, len(offered)), "draws"
        recent.set(names[place], packet)
        return place, by

    def name_of(self, port, endpoint):
        """The name of an endpoint's chain, which its recent list has too."""
        space, name, port, proto = port
        text = f"{space}/{name}{':' + port if port else ''}{proto.lower()}"
        text += place_of(endpoint.address, endpoint.number)
        return base64.b32encode(hashlib.sha256(text.encode()).digest()).decode()[: self.node.digits]

    def is_masked(self, door, packet, address):
        """Whether the source is masqueraded: the packet is marked, and leaves the node."""
        if not packet.is_of_node and self.node.is_own(address):
            return False
        return packet.source == address or self.is_marked(door, packet)

    def is_marked(self, door, packet):
        """Whether a door marks a packet, wherever it sends it."""
        source = packet.source
        is_pods = self.node.is_pods(source)
        if door.kind == "cluster":
            return self.node.masks_all or (self.node.knows_pods(packet.family) and not is_pods)
        return not door.side.is_local or (self.node.is_own(source) and not is_pods)

    # ---- the filter

    def refused(self, packet, address, number):
        """The verdict and the reason of the first line of the filter that a destination meets."""
        for door, why in self.refusing(packet, address, number):
            verdict = "rejected" if why == "has no endpoints" else "dropped"
            return verdict, f"{named(door)} {why}"
        return None

    def refusing(self, packet, address, number):
        """The lines of the filter that a destination meets, in order: each has a door, and why it is
        shut."""
        is_own = self.node.is_own(address)
        hooks = [self.output] if packet.is_of_node else [] if is_own else [self.forward]
        for hook in [*hooks, *([self.input] if is_own else [])]:
            found = hook(packet.family)
            yield from (it for it in found if self.fits(it[0], packet, address, number))

    def input(self, family):
        yield from self.closed(family)
        yield from self.empty_outside(family)

    def forward(self, family):
        yield from self.input(family)
        yield from self.empty_inside(family)

    def output(self, family):
        yield from self.closed(family)
        yield from self.empty_inside(family)

    def closed(self, family):
        """Load balancers' addresses with source ranges: who comes so far was admitted nowhere."""
        for doors in self.ports[family]:
            for door in doors:
                if door.kind == "balancer" and door.ranges is not None and door.side.usable:
                    yield door, "is closed to the source"

    def empty_outside(self, family):
        yield from self.empty(family, ["external", "balancer", "node"])

    def empty_inside(self, family):
        yield from self.empty(family, ["cluster"])

    def empty(self, family, kinds):
        """Doors whose policy has no endpoints."""
        for doors in self.ports[family]:
            for door in doors:
                if door.kind in kinds and not door.side.list:
                    yield door, f"has no {'local ' if door.side.usable else ''}endpoints"
