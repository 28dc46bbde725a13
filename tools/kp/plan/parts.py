"""Parts of all sources: addresses that neither side of a change tells apart. What tells them apart
is what a decision asks of an address: ranges for Pods, the node's addresses, and source ranges."""

from bisect import bisect_right
from dataclasses import dataclass, field
from ipaddress import IPv4Address, IPv6Address, collapse_addresses, summarize_address_range
from typing import NamedTuple

from .. import objects
from ..objects import address_of, range_of
from ..state import some
from ..why.said import key_of

ADDRESSES = {4: IPv4Address, 6: IPv6Address}
LOOPBACK = {4: range_of("127.0.0.0/8"), 6: range_of("::1/128")}
OUTSIDE = "outside"
MOST = 3  # ranges that are told


class Kind(NamedTuple):
    """Of which kind a source is on a side."""

    whence: str
    within: frozenset  # the Services in whose source ranges it is


@dataclass
class Part:
    """Addresses of one kind before, and of one kind after."""

    kinds: tuple
    version: int
    spans: list = field(default_factory=list)  # the first and the last of each, as numbers

    @property
    def least(self):
        return ADDRESSES[self.version](self.spans[0][0])

    def is_of_node(self, at):
        return "node" in self.kinds[at].whence

    def is_loopback(self):
        return all(it.is_loopback for it in self.networks())

    def networks(self):
        return networks_of(self.version, self.spans)


class Numbers:
    """The addresses of ranges, as numbers."""

    def __init__(self, ranges):
        self.firsts, self.lasts = [], []
        for it in collapse_addresses(ranges):
            self.firsts.append(int(it.network_address))
            self.lasts.append(int(it.broadcast_address))

    def __contains__(self, number):
        at = bisect_right(self.firsts, number) - 1
        return at >= 0 and number <= self.lasts[at]


class Side:
    """What tells sources apart on a side, at the doors that an answer is about."""

    def __init__(self, state, answer):
        version = answer.question.address.version
        own = [range_of(f"{it}/{it.max_prefixlen}") for it in state.addresses_of(answer.question.node)]
        self.of_pods = [it for it in state.ranges_of_pods() if it.version == version]
        self._cluster = Numbers(self.of_pods)
        self._node = Numbers(it for it in [LOOPBACK[version], *own] if it.version == version)
        keys = {key_of(port) for it in answer.sources for port in it["inRangesOf"]}
        self._ranges = {it: Numbers(ranges_of(state, it, version)) for it in keys}
        self.leasts = [int(address_of(it["address"])) for it in answer.sources]

    def bounds(self):
        """Where a kind may begin: at the first of a range, and behind its last."""
        yield from self.leasts
        for it in (self._cluster, self._node, *self._ranges.values()):
            yield from it.firsts
            yield from (last + 1 for last in it.lasts)

    def kind(self, number):
        words = ["cluster"] * (number in self._cluster) + ["node"] * (number in self._node)
        within = frozenset(key for key, it in self._ranges.items() if number in it)
        return Kind(" and ".join(words) or OUTSIDE, within)


def ranges_of(state, key, version):
    found = objects.source_ranges(state.services.get(key))
    return [it for it in found if it.version == version]


def parts_of(version, sides):
    """The parts of all addresses of a family, in the order of their least ones."""
    past = 1 << ADDRESSES[version](0).max_prefixlen
    firsts = sorted({0, *(it for side in sides for it in side.bounds() if it < past)})
    found = {}
    for first, after in zip(firsts, [*firsts[1:], past]):
        kinds = tuple(it.kind(first) for it in sides)
        part = found.setdefault(kinds, Part(kinds, version))
        if part.spans and part.spans[-1][1] + 1 == first:
            part.spans[-1] = part.spans[-1][0], after - 1
        else:
            part.spans.append((first, after - 1))
    return list(found.values())


def networks_of(version, spans):
    made = ADDRESSES[version]
    return [net for first, last in spans for net in summarize_address_range(made(first), made(last))]


# ---- how a part is called


def ranges_text(part, parts, of_pods):
    """The ranges by which a part is called; "" where its kind says it all."""
    whence, within = (tuple(getattr(it, name) for it in part.kinds) for name in Kind._fields)
    if whence[0] == whence[1]:
        if whence[0] == OUTSIDE:
            return outer_text(part, parts, of_pods) if any(within) else ""
        alike = alike_of(part, parts)
        if [part] in (alike, [it for it in alike if not it.is_loopback()]):
            return ""
        if whence[0] == "cluster" and of_pods:
            rest = outer_of([it for it in alike if it is not part], ())
            return shorter_text(part.networks(), rest, f"{of_pods[0]} outside ")
    return some(map(str, part.networks()), MOST)


def alike_of(part, parts):
    """The parts that come from where a part does."""
    whence = [it.whence for it in part.kinds]
    return [it for it in parts if [one.whence for one in it.kinds] == whence]


def outer_text(part, parts, of_pods):
    """The ranges of a part that is outside: what of them is of Pods or the node's isn't told."""
    within = [it.within for it in part.kinds]
    same = [it for it in parts if [one.within for one in it.kinds] == within]
    rest = outer_of([it for it in parts if it not in same], of_pods)
    given = outer_of(same, of_pods) or part.networks()
    return shorter_text(given, [*of_pods[:1], *rest], "outside ")


def shorter_text(networks, rest, words):
    """Some ranges, or where they are many, and fewer are left, these."""
    if len(networks) > MOST and len(rest) <= MOST:
        return words + ", ".join(map(str, rest))
    return some(map(str, networks), MOST)


def outer_of(parts, of_pods):
    """The ranges of parts together, without those of Pods."""
    found = collapse_addresses(net for it in parts for net in it.networks())
    return [it for it in found if not any(it.subnet_of(one) for one in of_pods)]
