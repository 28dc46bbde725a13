"""A cluster as tools/cluster writes it: the setting of one node, and the objects that are there in
the end. Of other Nodes the setting is made as tools/cluster makes it."""

import json
import re
import sys
from functools import cached_property
from typing import Any, NamedTuple

from . import lines, objects
from .objects import Key, member, members, text

FINISHED = ("Succeeded", "Failed")
NODES, DUAL = "nodeAddresses", "dualStack"
encode = json.JSONEncoder(separators=(",", ":")).encode


class Fault(Exception):
    """What can't be answered, and what to do: a sentence."""


class Held(NamedTuple):
    """The line of an object as the program is given it, and that of the state which brought it."""

    line: bytes
    number: int


class Pod(NamedTuple):
    """What is asked of a Pod: of many there are, most are never asked."""

    key: Key
    given: tuple  # its addresses, as texts
    node: str
    labels: Any
    containers: list
    owners: list
    is_finished: bool

    @property
    def name(self):
        return f"{self.key.namespace}/{self.key.name}"

    @property
    def addresses(self):
        return objects.addresses_in(self.given)

    @property
    def port_names(self):
        """The names of its containers' ports."""
        ports = (it for one in self.containers for it in members(one, "ports"))
        return {text(it, "name") for it in ports} - {""}

    @property
    def owner(self):
        """The kind of its controller."""
        return only(text(it, "kind") for it in self.owners)


class State:
    """All that a file of lines has in its end."""

    def __init__(self, path):
        self._begin(path, None)
        for number, line in numbered_lines(path):
            if not lines.is_blank(line):
                self._take(number, line)
        if self.setting is None:
            raise Fault(f"{path} has no setting of a node: write it by tools/cluster NODE")

    def _begin(self, path, setting):
        self.path, self.setting, self.passed_over = path, setting, 0
        self._ends = {}  # of each Service, by address
        self.held = {}  # by key, in the order in which they came
        self.services, self.slices, self.pods, self.nodes = {}, {}, {}, {}
        self._kept = {"Service": self.services, "EndpointSlice": self.slices}
        self._kept |= {"Pod": self.pods, "Node": self.nodes}

    def changed(self, items=(), gone=(), **setting):
        """This state with objects in place of those of their keys, without some, and with members
        of its setting."""
        made = State.__new__(State)
        made._begin(self.path, {**self.setting, **setting})
        made.held = dict(self.held)
        for kind, kept in self._kept.items():
            made._kept.setdefault(kind, {}).update(kept)
        for key in gone:
            made._drop(key)
        for item in items:
            made._put(item, Held(encode(item).encode(), 0))
        return made

    def _take(self, number, line):
        value = lines.value_of(line)
        if not isinstance(value, dict):
            where = f"line {number} of {self.path}"
            raise Fault(f"{where} is no object: write it by tools/cluster NODE")
        op = value.get("op")
        if op == "config" and self.setting is None:
            self.setting = value
        elif op in (None, "event"):
            for event in objects.events_of(value):
                whole = line if event.object is value else encode(event.object).encode()
                self._hold(event, Held(whole, number))
        elif op != "sync":
            self.passed_over += 1

    def _hold(self, event, held):
        if event.verb == objects.APPLIES:
            self._put(event.object, held)
        elif event.verb == objects.DELETES:
            self._drop(objects.key_of(event.object))

    def _drop(self, key):
        self.held.pop(key, None)
        if key is not None:
            self._kept.get(key.kind, {}).pop(key, None)

    def _put(self, item, held):
        key = objects.key_of(item)
        self._drop(key)
        if key is not None:
            self.held[key] = held
            kept = self._kept.setdefault(key.kind, {})
            kept[key] = pod_of(key, item) if key.kind == "Pod" else item

    # ---- nodes

    @property
    def node(self):
        """The node for which it was written."""
        return text(self.setting, "node") or "node"

    def node_names(self):
        """The names of all nodes, in order."""
        return sorted({self.node, *(it.name for it in self.nodes)}, key=by_number)

    def setting_of(self, name):
        """The setting of a node: the one that came, or one that is made of the Node."""
        if name == self.node:
            return self.setting
        node = self.nodes.get(Key("Node", "", name))
        if node is None:
            raise Fault(f"there is no Node {name}; there are: {some(self.node_names())}")
        given = [str(it) for it in objects.node_addresses(node, "InternalIP")]
        made = {"op": "config", "node": name, NODES: given}
        made |= {it: value for it, value in self.setting.items() if it not in (*made, DUAL)}
        return made | ({DUAL: True} if self._has_six(given) else {})

    def _has_six(self, addresses):
        """Whether something of IPv6 came, for which tools/cluster asks for its tables."""
        is_asked = any(":" in it for it in (text(self.setting, "clusterCIDR"), *addresses))
        return is_asked or self._has_service_of_six

    @cached_property
    def _has_service_of_six(self):
        return any(6 in objects.cluster_addresses(it) for it in self.services.values())

    def addresses_of(self, name):
        """The addresses of a node, those of its setting."""
        return objects.addresses_in(members(self.setting_of(name), NODES))

    @cached_property
    def node_at(self):
        """The node of each address of one."""
        return {it: name for name in self.node_names() for it in self.addresses_of(name)}

    def ranges_of_pods(self):
        """The ranges that the setting has for Pods."""
        given = map(objects.range_of, text(self.setting, "clusterCIDR").split(","))
        return [it for it in given if it is not None]

    # ---- Pods and slices

    @cached_property
    def _pods_by_address(self):
        found = {}
        for pod in self.pods.values():
            for it in () if pod.is_finished else pod.given:
                written = str(objects.address_of(it)) if ":" in it else it
                found.setdefault(written, []).append(pod)
        return found

    def pods_at(self, address):
        """The Pods that have an address and haven't finished."""
        return self._pods_by_address.get(str(address), [])

    @cached_property
    def _slices_by_service(self):
        found = {}
        for key, item in self.slices.items():
            owner = Key("Service", key.namespace, objects.label(item, objects.OF_SERVICE))
            found.setdefault(owner, []).append(key)
        return found

    def slice_keys_of(self, service):
        """The keys of the slices of a Service, by its own."""
        return self._slices_by_service.get(service, [])

    def slices_of(self, service):
        return [self.slices[it] for it in self.slice_keys_of(service)]

    def end(self, service, address):
        """What is known of an endpoint of a Service by its address."""
        if service not in self._ends:
            self._ends[service] = entries_by_address(self.slices_of(service))
        entries = self._ends[service].get(address, [])
        named = dict.fromkeys(it for it in map(pod_named_by, entries) if it)
        pods = self.pods_at(address)
        names = [name if "/" in name else f"{service.namespace}/{name}" for name in named]
        node = only(text(it, "nodeName") for it in entries) or only(it.node for it in pods)
        zone = only(text(it, "zone") for it in entries) or self.zone_of(node)
        return End(tuple(names or (it.name for it in pods)), node, zone)

    def zone_of(self, node):
        return objects.label(self.nodes.get(Key("Node", "", node)), objects.ZONE)


class End(NamedTuple):
    """The Pods, the node and the zone of an endpoint, as far as objects say."""

    pods: tuple
    node: str
    zone: str


def entries_by_address(slices):
    found = {}
    for item in slices:
        for entry in members(item, "endpoints"):
            for address in objects.addresses_in(members(entry, "addresses")[:1]):
                found.setdefault(address, []).append(entry)
    return found


def pod_named_by(entry):
    """The Pod that an endpoint names, with its namespace where that is said."""
    ref = member(entry, "targetRef")
    name = text(ref, "name") if text(ref, "kind") == "Pod" else ""
    space = text(ref, "namespace")
    return f"{space}/{name}" if space and name else name


def only(names):
    """The one name among these that isn't empty; "" where there are more."""
    found = set(names) - {""}
    return found.pop() if len(found) == 1 else ""


def by_number(name):
    """A key by which n2 stands before n10."""
    return [(it.isdigit(), int(it) if it.isdigit() else it) for it in re.split("([0-9]+)", name)]


def numbered_lines(path):
    """The lines of a file with their numbers, as bytes."""
    try:
        with open(path, "rb") if path != "-" else sys.stdin.buffer as file:
            for number, line in enumerate(file, 1):
                yield number, line.rstrip(b"\n")
    except OSError as error:
        raise Fault(f"{path} can't be read: {error.strerror}") from error


def pod_of(key, item):
    status, spec, meta = (member(item, it) for it in ("status", "spec", "metadata"))
    listed = [text(it, "ip") for it in members(status, "podIPs")]
    return Pod(
        key,
        tuple(listed or [text(status, "podIP")]),
        text(spec, "nodeName"),
        member(meta, "labels"),
        members(spec, "containers"),
        members(meta, "ownerReferences"),
        text(status, "phase") in FINISHED,
    )


def some(names, most=5):
    """The first of these names, and how many more there are."""
    names = list(names)
    more = f" and {len(names) - most} more" if len(names) > most else ""
    return ", ".join(names[:most]) + more
