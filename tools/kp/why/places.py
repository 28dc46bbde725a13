"""What is asked for: a source, and the places of a destination at which it is asked."""

import difflib
import re
from dataclasses import dataclass
from typing import Any, Optional

from .. import objects
from ..objects import Key, member, members, text
from ..state import Fault, some

PROTOCOLS = ("TCP", "UDP", "SCTP")
# what stands behind a Service, and the kind of door that it names
KINDS = {"cluster": "cluster", "external": "external", "lb": "balancer", "nodeport": "node"}
CALLED = {
    "cluster": "cluster IP",
    "external": "external IP",
    "balancer": "load balancer",
    "node": "node port",
}
FORMS_OF_TO = "svc/NAMESPACE/NAME[:PORT][/nodeport|/lb|/external|/cluster], or ADDRESS:PORT[/udp]"

is_service = re.compile(r"svc/([^/:]+)/([^/:]+)(?::([^/:]+))?(?:/([a-z]+))?").fullmatch
is_address = re.compile(r"(?:\[([^]]+)\]|([^][:/]+)):([0-9]+)(?:/([A-Za-z]+))?").fullmatch


@dataclass(frozen=True)
class Source:
    """Who asks: its address of each family, and its node where that is known."""

    said: str
    addresses: dict  # by family
    node: str

    def text(self):
        """How it is called at the head of an answer."""
        given = [str(it) for it in self.addresses.values()]
        if self.said == given[0]:
            return self.said
        where = [f"node {self.node}"] if self.node and not self.said.startswith("Node ") else []
        return f"{self.said} ({', '.join([*given, *where])})"


@dataclass(frozen=True, eq=False)
class Target:
    """A place at which is asked. A node port has no address: it is asked at that of each node."""

    kind: str  # of the door; "" where an address was given
    address: Any
    version: int
    number: int
    protocol: str
    service: Optional[Key] = None
    port: Optional[dict] = None

    def at(self):
        """Address, port and protocol, as far as they are those of each node."""
        return f"{host_text(self.address, self.version)}:{self.number}/{self.protocol}"

    def service_text(self):
        return f"Service {self.service.namespace}/{self.service.name}"


def host_text(address, version):
    """An address in front of a port; * stands for those of nodes."""
    host = "*" if address is None else str(address)
    return f"[{host}]" if version == 6 else host


def first_by_family(addresses):
    found = {}
    for it in addresses:
        found.setdefault(it.version, it)
    return found


def near_names(name, names):
    """What to say of names that a wrong one comes near."""
    close = difflib.get_close_matches(name, names, 3, 0.6)
    if close:
        return f": is it {' or '.join(close)}?"
    return f"; there are: {some(sorted(names)) or 'none'}"


# ---- sources


def source_of(state, words):
    kind, _, name = words.partition("/")
    if kind == "pod" and name.count("/") == 1:
        return source_of_pod(state, name)
    if kind == "node" and name and "/" not in name:
        found = first_by_family(state.addresses_of(name))
        if not found:
            raise Fault(f"Node {name} has no InternalIP: give its address as --from")
        return Source(f"Node {name}", found, name)
    address = objects.address_of(words)
    if address is None:
        raise Fault(f"--from {words}: give pod/NAMESPACE/NAME, node/NAME or an address")
    return source_of_address(state, address)


def source_of_pod(state, name):
    pod = state.pods.get(Key("Pod", *name.split("/")))
    if pod is None:
        names = [it.name for it in state.pods.values()]
        raise Fault(f"there is no Pod {name}{near_names(name, names)}")
    if pod.is_finished:
        raise Fault(f"Pod {name} has finished, and sends nothing: give another one, or an address")
    if not pod.addresses:
        raise Fault(f"Pod {name} has no address yet: give another one, or an address")
    return Source(f"Pod {name}", first_by_family(pod.addresses), pod.node)


def source_of_address(state, address):
    """Those who have an address; that of a node may be of Pods besides."""
    found = {address.version: address}
    node, pods = state.node_at.get(address, ""), state.pods_at(address)
    if node:
        return Source(f"Node {node}", found, node)
    nodes = {it.node for it in pods}
    said = f"Pod {' or '.join(it.name for it in pods)}" if pods else str(address)
    return Source(said, found, nodes.pop() if len(nodes) == 1 else "")


# ---- destinations


def targets_of(state, words):
    """The places that a destination stands for."""
    if found := is_service(words):
        return targets_of_service(state, words, *found.groups())
    if found := is_address(words):
        return [target_of_address(words, *found.groups())]
    raise Fault(f"--to {words}: give {FORMS_OF_TO}")


def service_named(words):
    """The key of the Service that a destination names."""
    return Key("Service", *is_service(words).groups()[:2])


def target_of_address(words, six, four, number, protocol):
    address, protocol = objects.address_of(six or four), (protocol or "TCP").upper()
    if address is None or (address.version == 6) != bool(six):
        raise Fault(f"--to {words}: {six or four} is no address; one of IPv6 stands in brackets")
    if not 1 <= int(number) <= 65535:
        raise Fault(f"--to {words}: {number} is no port: give 1 to 65535")
    if protocol not in PROTOCOLS:
        raise Fault(f"--to {words}: {protocol} is no protocol: give tcp, udp or sctp")
    return Target("", address, address.version, int(number), protocol)


def targets_of_service(state, words, namespace, name, port, suffix):
    key, name = Key("Service", namespace, name), f"{namespace}/{name}"
    service = state.services.get(key)
    if service is None:
        names = [f"{it.namespace}/{it.name}" for it in state.services]
        raise Fault(f"there is no Service {name}{near_names(name, names)}")
    if suffix is not None and suffix not in KINDS:
        is_port = any(text(it, "name") == suffix for it in ports_of(service))
        meant = f"svc/{name}:{suffix}" if is_port else FORMS_OF_TO
        raise Fault(f"--to {words}: there is no /{suffix}: give {meant}")
    ports = [it for it in ports_of(service) if port in (None, text(it, "name"), str(it["port"]))]
    if not ports and port is not None:
        raise Fault(f"Service {name} has no port {port}{other_ports(service, port)}")
    found = [it for one in ports for it in targets_at(key, service, one)]
    asked = [it for it in found if suffix is None or it.kind == KINDS[suffix]]
    if suffix and not asked and found:
        there = some(dict.fromkeys(CALLED[it.kind] for it in found))
        if KINDS[suffix] == "balancer" and (lack := lack_of_balancer(service)):
            raise Fault(f"Service {name}, load balancer: {lack}; it has {there}")
        raise Fault(f"Service {name} has no {CALLED[KINDS[suffix]]}: it has {there}")
    return asked


def lack_of_balancer(service):
    """Why the load balancer of a Service has no address that is a door; "" where it has one, or
    where there is none."""
    if text(service, "spec", "type") != "LoadBalancer" or objects.balancer_addresses(service):
        return ""
    given = members(service, "status", "loadBalancer", "ingress")
    if objects.addresses_in(member(it, "ip") for it in given):
        return "ipMode Proxy: nodes have no rules for it"
    if any(text(it, "hostname") for it in given):
        return "a hostname only: nodes have no rules for it"
    return "no address in status yet"


def ports_of(service):
    """The ports of a Service that have a number."""
    ports = members(service, "spec", "ports")
    return [it for it in ports if isinstance(member(it, "port"), int)]


def port_text(port):
    """A port of a Service in a sentence."""
    name = f" ({text(port, 'name')})" if text(port, "name") else ""
    return f"{port['port']}/{text(port, 'protocol') or 'TCP'}{name}"


def other_ports(service, asked):
    """Which ports a Service has instead, and whether one sends to the one that was asked for."""
    for it in ports_of(service):
        if str(member(it, "targetPort")) == asked:
            return f": that is the targetPort of its port {port_text(it)}"
    return f"; it has {some(map(port_text, ports_of(service))) or 'none'}"


def targets_at(key, service, port):
    """The places of a port of a Service: its addresses in their order, and then its node port."""
    protocol, families = text(port, "protocol") or "TCP", objects.cluster_addresses(service)
    given = [("cluster", it) for it in families.values()]
    given += [("external", it) for it in objects.external_addresses(service)]
    given += [("balancer", it) for it in objects.balancer_addresses(service)]
    for kind, address in given:
        yield Target(kind, address, address.version, port["port"], protocol, key, port)
    number = member(port, "nodePort")
    if isinstance(number, int) and number > 0:
        for version in families:
            yield Target("node", None, version, number, protocol, key, port)
