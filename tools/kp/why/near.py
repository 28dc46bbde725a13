"""What comes near a destination at which no Service answers. It is read off objects, and says where
to look: where a packet goes is the program's to say."""

from .. import objects
from ..objects import address_of, member, members, text
from ..state import some
from .places import CALLED, port_text, ports_of


NO_RULES = ", and no node has rules for it"


def without_places(state, key):
    """Why a Service has no place at which it could be asked."""
    service, name = state.services[key], service_name(key)
    if text(service, "spec", "type") == "ExternalName":
        host = text(service, "spec", "externalName")
        return f"{name} is an ExternalName: its name resolves to {host}{NO_RULES}"
    if is_headless(service):
        return f"{name} is headless: its name resolves to the Pods' own addresses{NO_RULES}"
    if not ports_of(service):
        return f"{name} has no ports, so that no node has rules for it"
    return f"{name} has no address yet: spec.clusterIP is empty"


def service_name(key):
    return f"Service {key.namespace}/{key.name}"


def is_headless(service):
    spec = member(service, "spec")
    return "None" in (text(spec, "clusterIP"), *members(spec, "clusterIPs"))


def near_misses(state, answer):
    """Sentences on what the destination of an answer may have been meant to be."""
    question = answer.question
    if answer.door or answer.sources:
        return []
    found = [
        *without_tables(state, question),
        *at_address(state, question),
        *at_proxies(state, question),
        *at_node(state, question),
        *at_pods(state, question),
    ]
    return found or [f"no Service, no Pod and no Node has {question.address}"]


def without_tables(state, question):
    if question.address.version == 6 and not member(state.setting_of(question.node), "dualStack"):
        yield f"{question.node} has no tables of IPv6, as its setting has no dualStack"


def addresses_by_kind(service):
    """The addresses of a Service, by the kind of door that they are."""
    yield from (("cluster", it) for it in objects.cluster_addresses(service).values())
    yield from (("external", it) for it in objects.external_addresses(service))
    yield from (("balancer", it) for it in objects.balancer_addresses(service))


def at_address(state, question):
    """Services that have the address, with other ports."""
    for key, service in state.services.items():
        for kind, address in addresses_by_kind(service):
            if address == question.address:
                name, ports = service_name(key), ports_beside(state, key, question)
                yield f"{address} is the {CALLED[kind]} of {name}: {ports}"


def ports_beside(state, key, question):
    """Which port of a Service may have been meant."""
    asked, service = question.target, state.services[key]
    for it in ports_of(service):
        if it["port"] == asked.number:
            return f"port {asked.number} is of {text(it, 'protocol') or 'TCP'} there"
    for it in ports_of(service):
        if asked.number in (member(it, "targetPort"), *numbers_behind(state, key, it)):
            return f"{asked.number} is the targetPort of its port {port_text(it)}"
    return f"it has {some(map(port_text, ports_of(service)))} there"


def numbers_behind(state, key, port):
    """The numbers that slices have for a port of a Service."""
    return {
        member(it, "port")
        for item in state.slices_of(key)
        for it in members(item, "ports")
        if text(it, "name") == text(port, "name")
    }


def at_proxies(state, question):
    """Services whose load balancer has the address and keeps it to itself."""
    for key, service in state.services.items():
        for it in members(service, "status", "loadBalancer", "ingress"):
            if text(it, "ipMode") == "Proxy" and address_of(member(it, "ip")) == question.address:
                said = f"is of the load balancer of {service_name(key)}, whose ipMode is Proxy"
                yield f"{question.address} {said}: no node has rules for it"


def at_node(state, question):
    """Whose address it is where it is that of a node."""
    name, asked = state.node_at.get(question.address, ""), question.target
    if name and name != question.node:
        yield f"{question.address} is of node {name}: ask there with --node {name}"
    elif name:
        protocols = [
            f"node port {asked.number} of {service_name(key)} is of {protocol}"
            for key, service in state.services.items()
            for number, protocol in objects.node_ports(service)
            if number == asked.number
        ]
        none = f"no Service has the node port {asked.number}: the packet is for {name} itself"
        yield from protocols or [none]


def at_pods(state, question):
    """The Pods that have the address."""
    pods = state.pods_at(question.address)
    if pods and question.address not in state.node_at:
        names = " and ".join(it.name for it in pods)
        yield f"{question.address} is the own address of Pod {names}: no Service is in between"
