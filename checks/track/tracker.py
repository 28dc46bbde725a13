"""Who owns a flow, by the rules of connection tracking as docs/FORMAT.md has them: a plain list of
openers, from which nothing is taken.

It knows neither tables nor objects. It is told what the rules answer to a flow that opens, and which
endpoints stand after a sync.
"""

import ipaddress
from dataclasses import dataclass

MOST = 65_536  # live openers that are kept
TIMEOUTS = {"TCP": 432_000, "UDP": 120, "SCTP": 432_000}


@dataclass(frozen=True)
class Connection:
    proto: str
    source: tuple  # an address and a port
    target: tuple


@dataclass(frozen=True)
class Flow:
    """A packet with the port that it comes from."""

    connection: Connection
    now: int


def flow_of(value):
    """The flow of a packet's line, which is accepted."""
    source, target = (ipaddress.ip_address(value[it]) for it in ("src", "dst"))
    connection = Connection(
        value.get("proto") or "TCP", (source, value.get("sport") or 0), (target, value["dport"])
    )
    return Flow(connection, value.get("now") or 0)


@dataclass
class Opener:
    """A flow that opened its connection and was kept."""

    connection: Connection
    endpoint: tuple
    is_masked: bool
    latest: int  # the moment of its last flow
    widest: int = 0  # the most seconds between two flows that follow each other
    is_cleared: bool = False

    def is_live(self, moment):
        widest = max(self.widest, moment - self.latest)
        return not self.is_cleared and widest <= TIMEOUTS[self.connection.proto]

    def replies(self):
        """The connection of its replies, or none."""
        source = self.connection.source
        if self.is_masked or source[1] == 0:
            return None
        return Connection(self.connection.proto, self.endpoint, source)

    def hear(self, moment):
        self.widest = max(self.widest, moment - self.latest)
        self.latest = moment


class Tracker:
    """All openers that were ever kept, in their order, and the greatest moment of the flows."""

    kind = Opener

    def __init__(self):
        self.openers, self.moment = [], 0
        # the same openers by what they have, so that many are looked through in time
        self.of_connection, self.of_replies = {}, {}

    def live(self, openers):
        return [it for it in openers if it.is_live(self.moment)]

    def arrive(self, flow):
        """A flow comes; how it is answered where somebody owns it, and nothing else."""
        self.moment = self.at(flow)
        own = self.live(self.of_connection.get(flow.connection, []))
        for opener in own[:1]:
            opener.hear(self.moment)
            return "later", opener
        others = self.live(self.of_replies.get(flow.connection, []))
        for opener in others[:1]:
            opener.hear(self.moment)
            return "reply", opener
        return None

    def at(self, flow):
        """The moment of a flow."""
        return max(self.moment, flow.now)

    def open(self, flow, endpoint, is_masked):
        """A flow that nobody owns is sent to an endpoint; whether it is kept."""
        if not self.has_room():
            return False
        opener = self.kind(flow.connection, endpoint, is_masked, self.moment)
        self.openers.append(opener)
        self.of_connection.setdefault(opener.connection, []).append(opener)
        if opener.replies():
            self.of_replies.setdefault(opener.replies(), []).append(opener)
        return True

    def has_room(self):
        return len(self.openers) < MOST or len(self.live(self.openers)) < MOST

    def sync(self, standing):
        """Openers of UDP are cleared whose endpoint isn't among those that stand."""
        for opener in self.openers:
            if opener.connection.proto == "UDP" and opener.endpoint not in standing:
                opener.is_cleared = True
