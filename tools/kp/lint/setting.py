"""The setting, and notes on it beside all that an input has."""

import json
from typing import NamedTuple

from ..lines import shown
from ..objects import address_of, member, members, range_of, text
from .notes import Note


class Setting(NamedTuple):
    """What is asked of a line `config`, with the defaults of what it lacks."""

    line: int = 0  # of the setting; 0 where there is none
    node: str = "node"
    has_node: bool = False
    addresses: tuple = ()
    ranges: tuple = ()
    dual_stack: bool = False
    controller: bool = True
    is_controller_given: bool = False
    name_length: int = 16
    most_events: int = 1_000_000

    @property
    def versions(self):
        """The families of the node's tables."""
        return (4, 6) if self.dual_stack else (4,)

    @staticmethod
    def read(number, value):
        ranges = (range_of(it) for it in text(value, "clusterCIDR").split(","))
        addresses = map(address_of, members(value, "nodeAddresses"))
        length, most = member(value, "nameLength"), member(value, "maxEvents")
        controller = member(value, "controller")
        return Setting(
            number,
            text(value, "node") or "node",
            bool(text(value, "node")),
            tuple(it for it in addresses if it is not None),
            tuple(it for it in ranges if it is not None),
            member(value, "dualStack") is True,
            controller is not False,
            controller is not None,
            length if isinstance(length, int) else 16,
            most if isinstance(most, int) else 1_000_000,
        )


def _note(code, says, name="", value=None, becomes="", mends=""):
    return Note(code, says, about="config", member=name, value=value, becomes=becomes, mends=mends)


def notes_on(setting, seen, is_refused):
    """The notes on a setting beside all that was seen; `is_refused` tells that a line of it was."""
    if not setting.line and not is_refused:
        yield from _none(seen)
    if setting.line:
        yield from _node(setting, seen)
        yield from _ranges(setting, seen)
        yield from _addresses(setting, seen)
        yield from _node_ports(setting, seen)
    if not setting.dual_stack:
        yield from _six(seen)
    if setting.controller:
        yield from _controller(setting, seen)


def _some(names, most=5):
    names = list(names)
    more = f" and {len(names) - most} more" if len(names) > most else ""
    return ", ".join(shown(str(it))[1:-1] for it in names[:most]) + more


def _none(seen):
    node = next(iter(seen.nodes), "") or next(iter(seen.named_nodes), "n1")
    given = [str(it) for it in seen.nodes.get(node, {}).get("InternalIP", [])] or ["192.0.2.1"]
    line = json.dumps({"op": "config", "node": node, "nodeAddresses": given}, separators=(",", ":"))
    yield _note(
        "no-setting",
        f'there is none, so the node is "node" and has no addresses: begin with {line}',
        becomes="the defaults count",
        mends=f"begin with {line}",
    )


def _node(setting, seen):
    names = {**seen.nodes, **seen.named_nodes}
    if not names or setting.node in names:
        return
    what = f"node {shown(setting.node)}" if setting.has_node else 'node is absent, and "node"'
    yield _note(
        "unknown-node",
        f"{what} is in no Node, Pod or endpoint; there {'is' if len(names) == 1 else 'are'} "
        f"{_some(names)}",
        "node",
        setting.node,
        "no endpoint is on this node, and it has no zone",
        f"one of {_some(names)}",
    )


def _ranges(setting, seen):
    for it in setting.ranges:
        what, outside = seen.addresses_of_pods(setting, it.version)
        if not outside or any(address in it for address in outside):
            continue
        are = "is" if len(outside) == 1 else "are"
        yield _note(
            "unknown-range",
            f"clusterCIDR {it} has no {what} address; {len(outside)} {are} outside, "
            f"as {outside[0]}",
            "clusterCIDR",
            str(it),
            "no source counts as a Pod's",
            "write the range of the Pods",
        )


def _addresses(setting, seen):
    own = seen.nodes.get(setting.node, {})
    own_addresses = {it for form in own.values() for it in form}
    for name, forms in seen.nodes.items():
        others = {it for form in forms.values() for it in form} - own_addresses
        for it in setting.addresses if name != setting.node else ():
            if it in others:
                yield _note(
                    "unknown-address",
                    f"nodeAddresses {it} is Node {name}'s, and the node is {setting.node}",
                    "nodeAddresses",
                    str(it),
                    f"packets to {it} count as the node's",
                    f"leave it out, or write {shown(name)} as node",
                )
    internal = own.get("InternalIP", [])
    for version in setting.versions:
        given = [it for it in setting.addresses if it.version == version]
        listed = [it for it in internal if it.version == version]
        if given and listed and not set(given) & set(listed):
            yield _note(
                "unknown-address",
                f"nodeAddresses {_some(given)} {'is' if len(given) == 1 else 'are'} none of Node "
                f"{setting.node}'s, which has {_some(listed)}",
                "nodeAddresses",
                str(given[0]),
                f"packets to {listed[0]} don't count as the node's",
                f"write {_some(listed)}",
            )


def _node_ports(setting, seen):
    for version in setting.versions:
        if any(it.version == version for it in setting.addresses):
            continue
        found = seen.node_ports.get(version)
        if not found:
            continue
        key, port = next(iter(found.items()))
        none, by = "are none", ""
        if setting.addresses:
            none, by = f"have none of IPv{version}", f" by IPv{version}"
        yield _note(
            "no-node-addresses",
            f"nodeAddresses {none}, so node ports are open nowhere{by}, as {port} of {key}: write "
            "the node's addresses",
            "nodeAddresses",
            None,
            "node ports are open nowhere",
            "write the addresses of the node",
        )


def _six(seen):
    found = seen.six_services
    if not found and not seen.six_questions:
        return
    parts = []
    if found:
        key, address = next(iter(found.items()))
        more = f", and {len(found) - 1} more have one" if len(found) > 1 else ""
        parts.append(f"{key} has {address}{more}")
    if seen.six_questions:
        count, line = seen.six_questions
        more = f", and {count - 1} more" if count > 1 else ""
        parts.append(f"the question of line {line} is of it{more}")
    yield _note(
        "no-dual-stack",
        f'no tables of IPv6 are made; {"; ".join(parts)}: "dualStack":true makes them',
        "dualStack",
        False,
        "the node has no tables of IPv6",
        '"dualStack":true',
    )


def _controller(setting, seen):
    found = seen.slices_of_selecting()
    if not found:
        return
    given = "true" if setting.is_controller_given else "absent, so true"
    more = f" and {len(found) - 1} more" if len(found) > 1 else ""
    yield _note(
        "controller-beside-slices",
        f"controller is {given}, and makes slices of Services with a selector from Pods, beside "
        f'{found[0]}{more}: "controller":false takes those alone',
        "controller",
        True,
        "the slices of Services with a selector are made from Pods",
        '"controller":false where the slices are the cluster\'s',
    )
