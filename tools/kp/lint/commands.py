"""Notes on commands: members that aren't read, and questions that ask what isn't there."""

import difflib
from functools import lru_cache

from ..lines import shown
from ..members import COMMANDS, NEEDED
from ..objects import address_of, text
from .notes import Note

# what others call a member, in small letters without - and _
OTHER_NAMES = {
    "addr": "nodeAddresses",
    "address": "nodeAddresses",
    "addresses": "nodeAddresses",
    "cidr": "clusterCIDR",
    "clusterrange": "clusterCIDR",
    "dest": "dst",
    "destination": "dst",
    "destinationport": "dport",
    "destport": "dport",
    "dstport": "dport",
    "draw": "draws",
    "kubenode": "node",
    "masquerade": "masqueradeAll",
    "name": "node",
    "nodeip": "nodeAddresses",
    "nodeips": "nodeAddresses",
    "nodename": "node",
    "object": "event",
    "origin": "from",
    "podcidr": "clusterCIDR",
    "podcidrs": "clusterCIDR",
    "port": "dport",
    "protocol": "proto",
    "random": "draws",
    "source": "src",
    "sourceport": "sport",
    "srcport": "sport",
    "stream": "by",
    "table": "what",
    "time": "now",
    "timestamp": "now",
    "to": "dst",
    "trace": "trail",
}


def plain(name):
    return name.lower().replace("_", "").replace("-", "")


@lru_cache(maxsize=4096)
def nearest(op, name):
    """The member of a command that a name comes near, or ""."""
    known = {plain(it): it for it in COMMANDS[op]}
    other = OTHER_NAMES.get(plain(name))
    if other in COMMANDS[op]:
        return other
    near = difflib.get_close_matches(plain(name)[:100], known, 1, 0.65)
    return known[near[0]] if near else ""


def not_read(number, op, value):
    """A note for each member of a command that isn't read."""
    for name in value:
        if name != "op" and name not in COMMANDS[op] and value[name] is not None:
            yield _not_read(number, op, name, value)


def _not_read(number, op, name, value):
    near = nearest(op, name)
    asks = f" ({shown(near)}?)" if near else ""
    default = COMMANDS[op][near].default if near and value.get(near) is None else NEEDED
    counts = "" if default is NEEDED else f"{default} counts"
    return Note(
        "member-not-read",
        f"{shown(name)} isn't read{asks}" + (f": {counts}" if counts else ""),
        line=number,
        about=op,
        member=name,
        value=value[name],
        becomes="it isn't read" + (f", and {near} is {default}" if counts else ""),
        mends=f"name it {near}" if near else "leave it out",
    )


def without_effect(number, op, value):
    """Members that are read, and change nothing here."""
    if op == "explain" and value.get("trail") is True:
        yield Note(
            "no-trail",
            '"trail" prints nothing: a packet has one, {"op":"packet",..}',
            line=number,
            about=op,
            member="trail",
            value=True,
            becomes="an explanation prints no trail",
            mends='ask it as {"op":"packet",..}',
        )
    if value.get("draws") is not None and value.get("seed") is not None:
        yield Note(
            "seed-beside-draws",
            '"seed" beside "draws" counts for nothing: leave one of them out',
            line=number,
            about=op,
            member="seed",
            value=value["seed"],
            becomes="the draws that are listed count",
            mends="leave out draws or seed",
        )


class Doors:
    """Where Services are found, by what packets ask for, as the objects are at a moment."""

    def __init__(self):
        self.node_ports = {}  # by number and protocol, the keys of Services
        self.balancers = {}  # by address, the keys of Services that have source ranges
        self._of = {}

    def put(self, key, node_ports, balancers):
        self.drop(key)
        for holder, names in ((self.node_ports, node_ports), (self.balancers, balancers)):
            for name in names:
                holder.setdefault(name, {})[key] = True
        if node_ports or balancers:
            self._of[key] = node_ports, balancers

    def drop(self, key):
        for holder, names in zip((self.node_ports, self.balancers), self._of.pop(key, ())):
            for name in names:
                holder.get(name, {}).pop(key, None)

    def asked(self, number, op, value, addresses):
        """Notes on a question whose source or destination no rule here speaks of as a node does."""
        if self.node_ports:
            yield from self._at_loopback(number, op, value, addresses)
        if self.balancers:
            yield from self._from_balancer(number, op, value)

    def _at_loopback(self, number, op, value, addresses):
        port = value.get("dport"), text(value, "proto") or "TCP"
        if not isinstance(port[0], int) or not self.node_ports.get(port):
            return
        address = address_of(value.get("dst"))
        if address is None or not address.is_loopback:
            return
        key = next(iter(self.node_ports[port]))
        own = next((it for it in addresses if it.version == address.version), None)
        other = f" ({own})" if own else ""
        yield Note(
            "loopback-node-port",
            f"dst {address} is loopback, where node port {port[0]} of {key} isn't open here: "
            f"ask for an address of the node{other}",
            line=number,
            about=op,
            key=key,
            member="dst",
            value=value["dst"],
            becomes="node ports aren't open at loopback; kube-proxy may open those of IPv4",
            mends=f"ask for an address of the node{other}",
        )

    def _from_balancer(self, number, op, value):
        source, target = address_of(value.get("src")), address_of(value.get("dst"))
        both = self.balancers.get(source, {}).keys() & self.balancers.get(target, {}).keys()
        if not both:
            return
        key = min(both)
        yield Note(
            "balancer-as-source",
            f"src {source} is an address of the load balancer of {key}: its source ranges decide "
            "here; kube-proxy lets it in where they admit the node: ask from the node's address",
            line=number,
            about=op,
            key=key,
            member="src",
            value=value["src"],
            becomes="source ranges decide; kube-proxy has a rule for it where they admit the node",
            mends="ask with an address of the node as src",
        )
