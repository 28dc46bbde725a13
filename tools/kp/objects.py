"""Objects of a cluster in the lines that bring them: kinds, keys, and the members that tools ask
for. Lines may hold anything, so each call takes any JSON value."""

import ipaddress
import re
from typing import Any, NamedTuple, Optional

KINDS = {
    "Service": "v1",
    "EndpointSlice": "discovery.k8s.io/v1",
    "Pod": "v1",
    "Node": "v1",
}
APPLIES, DELETES, PASSES = "apply", "delete", "bookmark"
VERBS = {"ADDED": APPLIES, "MODIFIED": APPLIES, "DELETED": DELETES, "BOOKMARK": PASSES}

OF_SERVICE = "kubernetes.io/service-name"
MANAGED_BY = "endpointslice.kubernetes.io/managed-by"
CONTROLLER = "endpointslice-controller.k8s.io"
ZONE = "topology.kubernetes.io/zone"
PROXY_NAME = "service.kubernetes.io/service-proxy-name"
HEADLESS = "service.kubernetes.io/headless"


class Key(NamedTuple):
    """What names an object; a Node has no namespace."""

    kind: str
    namespace: str
    name: str

    def __str__(self):
        return f"{self.kind} {self.namespace}{'/' if self.namespace else ''}{self.name}"


class Event(NamedTuple):
    """What a line does with an object; `path` leads to the object from the line's root."""

    verb: str
    path: str
    object: Any


def member(value, *names):
    """The member that names lead to; None where it isn't there or is null, which is the same."""
    for name in names:
        if not isinstance(value, dict):
            return None
        value = value.get(name)
    return value


def members(value, *names):
    """The list that names lead to; an empty one where there is none."""
    found = member(value, *names)
    return found if isinstance(found, list) else []


def text(value, *names):
    """The text that names lead to; "" where there is none."""
    for name in names:
        if not isinstance(value, dict):
            return ""
        value = value.get(name)
    return value if isinstance(value, str) else ""


def events_of(value, path=""):
    """The events that a line brings, as the program reads it: a watch event, a command `event`, a
    List or an object. Of what is refused it gives the objects that can be told."""
    if not isinstance(value, dict):
        return
    if value.get("op") is not None:
        if value["op"] == "event" and not path:
            yield from events_of(value.get("event"), "event.")
    elif value.get("type") is not None and value.get("object") is not None:
        verb = VERBS.get(value["type"]) if isinstance(value["type"], str) else None
        yield Event(verb or "", path + "object.", value["object"])
    elif value.get("kind") == "List":
        for at, item in enumerate(members(value, "items")):
            yield Event(APPLIES, f"{path}items[{at}].", item)
    elif value.get("kind") is not None:
        yield Event(APPLIES, path, value)


def key_of(item) -> Optional[Key]:
    """The key of an object, or None where it has no kind or no name."""
    kind, meta = text(item, "kind"), member(item, "metadata")
    name = text(meta, "name")
    if not kind or not name:
        return None
    return Key(kind, "" if kind == "Node" else text(meta, "namespace") or "default", name)


def is_read(item):
    """Whether the program reads objects of this kind and version."""
    version = member(item, "apiVersion")
    kind = text(item, "kind")
    return kind in KINDS and version in (None, KINDS[kind])


# ---- paths, as refusals have them


def steps_of(value, path):
    """The names and indexes that a path of a refusal stands for. A member's name may hold dots and
    brackets, or nothing, so the value decides; the last step may lead to what isn't there."""
    if path == "":
        return []
    return _steps(value, path, True) or _steps(value, path, False)


def _steps(value, path, is_there):
    if found := re.match(r"\[(\d+)\]", path):
        at = int(found[1])
        has = isinstance(value, list) and at < len(value)
        inner = value[at] if has else None
        return _on(at, inner, path[found.end() :], is_there) if has or not is_there else None
    names = value if isinstance(value, dict) else ()
    for name in sorted((it for it in names if path.startswith(it)), key=len):
        steps = _on(name, value[name], path[len(name) :], is_there)
        if steps is not None:
            return steps
    if is_there:
        return None
    name = re.match(r"[^.[]*", path)[0]
    return _on(name, None, path[len(name) :], False) or [path]


def _on(step, inner, rest, is_there):
    """A step and those of the rest of its path, or None where the path goes on otherwise."""
    if rest == "":
        return [step]
    if rest[0] not in ".[":
        return None
    steps = _steps(inner, rest[rest[0] == "." :], is_there)
    return None if steps is None else [step, *steps]


def at(value, steps):
    """What steps lead to; None where it isn't there."""
    for step in steps:
        if isinstance(step, int):
            value = value[step] if isinstance(value, list) and step < len(value) else None
        else:
            value = member(value, step)
    return value


def owner_of(value, path):
    """The event whose object a path of a refusal leads into, and the rest of the path; None and
    the path where it names the line itself. Without a path: the only event of the line."""
    events = list(events_of(value))
    for event in events:
        if event.path and path.startswith(event.path):
            return event, path[len(event.path) :]
    for event in events:
        if event.path and path + "." == event.path:
            return event, ""
        if not event.path:
            return event, path
    return None, path


# ---- addresses


def address_of(value):
    """An address of either family, or None; zones aren't read."""
    try:
        return None if "%" in value or "/" in value else ipaddress.ip_address(value)
    except (ValueError, TypeError):
        return None


def range_of(value):
    """A range of either family, or None; bits past its length are cleared."""
    try:
        is_one = "/" in value and "%" not in value
        return ipaddress.ip_network(value, strict=False) if is_one else None
    except (ValueError, TypeError):
        return None


def addresses_in(values):
    """The addresses among values, in order."""
    return [it for it in map(address_of, values) if it is not None]


# ---- what objects have


def label(item, name):
    return text(item, "metadata", "labels", name)


def cluster_addresses(service):
    """The cluster address of each family that a Service has one of, by family; none of a headless
    one."""
    values = members(service, "spec", "clusterIPs") or [member(service, "spec", "clusterIP")]
    if "None" in values:
        return {}
    found = {}
    for it in addresses_in(values):
        found.setdefault(it.version, it)
    return found


def external_addresses(service):
    return addresses_in(members(service, "spec", "externalIPs"))


def balancer_addresses(service):
    """The addresses of its load balancer that are doors."""
    if text(service, "spec", "type") != "LoadBalancer":
        return []
    given = members(service, "status", "loadBalancer", "ingress")
    return addresses_in(member(it, "ip") for it in given if text(it, "ipMode") != "Proxy")


def source_ranges(service):
    ranges = map(range_of, members(service, "spec", "loadBalancerSourceRanges"))
    return [it for it in ranges if it is not None]


def node_ports(service):
    """Its node ports with their protocols, in order."""
    ports = members(service, "spec", "ports")
    found = [(member(it, "nodePort"), text(it, "protocol") or "TCP") for it in ports]
    return [it for it in found if isinstance(it[0], int) and it[0] > 0]


def has_selector(service):
    return bool(member(service, "spec", "selector"))


def pod_addresses(pod):
    listed = addresses_in(member(it, "ip") for it in members(pod, "status", "podIPs"))
    return listed or addresses_in([member(pod, "status", "podIP")])


def node_addresses(node, form):
    """The addresses of a Node of a form, such as InternalIP."""
    given = members(node, "status", "addresses")
    return addresses_in(member(it, "address") for it in given if text(it, "type") == form)
