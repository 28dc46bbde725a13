"""The members that the program reads: of its commands and of objects, with what each may be. What
is refused is the program's to say; this says what is allowed in its place."""

import re
from typing import Any, NamedTuple

from .objects import OF_SERVICE, ZONE

NEEDED = object()


class Form(NamedTuple):
    """What a member may be, in words, and values that are accepted: all of a choice, both ends of
    a number, and one of each kind of a grammar."""

    says: str
    accepted: tuple = ()


class Member(NamedTuple):
    """A member of a command; `default` in words, or NEEDED."""

    form: Form
    default: Any


def choice(*values):
    return Form(", ".join(values), values)


def whole(low, high):
    return Form(f"a whole number, {low} to {high}", (low, high))


AN_OBJECT = Form("an object")
A_LIST = Form("a list")
A_TEXT = Form("a text", ("a", ""))
A_TRUTH = Form("true or false", (True, False))
A_NAME = Form(
    "1 to 253 small letters, digits, - and ., with a letter or digit at both ends",
    ("a", "web-1.example", "9" * 253),
)
A_PORT_NAME = Form("at most 63 small letters, digits and -", ("http", "", "-", "a" * 63))
A_STREAM = Form("1 to 63 small letters, digits and -", ("main", "a" * 63))
A_LABEL_VALUE = Form("1 to 63 letters, digits, -, _ and .", ("a", "Zone_1.b", "a" * 63))
AN_ADDRESS = Form(
    "an address of IPv4 or IPv6, without a zone or a length",
    ("192.0.2.1", "2001:db8::1"),
)
A_RANGE = Form(
    "a range such as 192.0.2.0/24 or 2001:db8::/32, without blanks",
    ("192.0.2.0/24", "0.0.0.0/0", "2001:db8::/32"),
)
CLUSTER_RANGES = Form(
    "a range, or one of each family with a comma and no blank between them",
    ("10.244.0.0/16", "fd00:10:244::/56", "10.244.0.0/16,fd00:10:244::/56"),
)
A_CLUSTER_ADDRESS = Form(f"None, or {AN_ADDRESS.says}", ("None", *AN_ADDRESS.accepted))
A_TARGET_PORT = Form("a whole number, 0 to 65535, or the name of a port", (0, 65535, "http"))
PROTOCOL = choice("TCP", "UDP", "SCTP")
POLICY = choice("Cluster", "Local")
A_PORT = whole(1, 65535)
A_PORT_OR_NONE = whole(0, 65535)
DRAWS = Form("at most 1000 whole numbers, 0 to 2147483647", ([], [0, 2**31 - 1], [0] * 1000))

_OF_ANY = {"by": Member(A_STREAM, "main")}
_OF_PACKET = {
    "from": Member(choice("wire", "node"), "wire"),
    "src": Member(AN_ADDRESS, NEEDED),
    "dst": Member(AN_ADDRESS, NEEDED),
    "proto": Member(PROTOCOL, "TCP"),
    "sport": Member(A_PORT_OR_NONE, "0"),
    "dport": Member(A_PORT, NEEDED),
    "now": Member(whole(0, 2**64 - 1), "0"),
    "draws": Member(DRAWS, "none"),
    "seed": Member(whole(0, 2**64 - 1), "none"),
    "trail": Member(A_TRUTH, "false"),
}
SHOWN = ("slices", "endpoints", "nat", "filter", "batch", "nat6", "filter6", "batch6")

# by op, in the order of reading
COMMANDS = {
    "config": {
        **_OF_ANY,
        "node": Member(A_NAME, 'the name "node"'),
        "nodeAddresses": Member(Form("a list of addresses of IPv4 or IPv6", ([],)), "none"),
        "clusterCIDR": Member(CLUSTER_RANGES, "none"),
        "masqueradeAll": Member(A_TRUTH, "false"),
        "dualStack": Member(A_TRUTH, "false"),
        "controller": Member(A_TRUTH, "true"),
        "maxEndpointsPerSlice": Member(whole(1, 1000), "100"),
        "maxEvents": Member(whole(1, 1000000), "1000000"),
        "recentSize": Member(whole(1, 1000), "100"),
        "nameLength": Member(whole(0, 16), "16"),
    },
    "event": {**_OF_ANY, "event": Member(AN_OBJECT, NEEDED)},
    "sync": _OF_ANY,
    "packet": {**_OF_ANY, **_OF_PACKET},
    "explain": {**_OF_ANY, **_OF_PACKET},
    "show": {**_OF_ANY, "what": Member(choice(*SHOWN), NEEDED)},
}
ELEMENTS = {"nodeAddresses[]": AN_ADDRESS, "draws[]": whole(0, 2**31 - 1)}

_NAMED = {"metadata": AN_OBJECT, "metadata.name": A_NAME}
_META = {**_NAMED, "metadata.namespace": A_NAME}
_LABELS = {"metadata.labels": Form("an object of texts"), "metadata.labels.*": A_TEXT}
_TRUTHS = ("ready", "serving", "terminating")

# by kind; [] is any index, and * any name
OBJECTS = {
    "Service": {
        **_META,
        "spec": AN_OBJECT,
        "spec.type": choice("ClusterIP", "NodePort", "LoadBalancer", "ExternalName"),
        "spec.clusterIP": A_CLUSTER_ADDRESS,
        "spec.clusterIPs": Form("a list of addresses, or of None"),
        "spec.clusterIPs[]": A_CLUSTER_ADDRESS,
        "spec.ipFamilies": Form("a list of IPv4 and IPv6"),
        "spec.ipFamilies[]": choice("IPv4", "IPv6"),
        "spec.ports": A_LIST,
        "spec.ports[]": AN_OBJECT,
        "spec.ports[].name": A_PORT_NAME,
        "spec.ports[].protocol": PROTOCOL,
        "spec.ports[].port": A_PORT,
        "spec.ports[].targetPort": A_TARGET_PORT,
        "spec.ports[].nodePort": A_PORT_OR_NONE,
        "spec.selector": Form("an object of texts"),
        "spec.selector.*": A_TEXT,
        "spec.externalIPs": Form("a list of addresses"),
        "spec.externalIPs[]": AN_ADDRESS,
        "spec.sessionAffinity": choice("None", "ClientIP"),
        "spec.sessionAffinityConfig": AN_OBJECT,
        "spec.sessionAffinityConfig.clientIP": AN_OBJECT,
        "spec.sessionAffinityConfig.clientIP.timeoutSeconds": whole(1, 86400),
        "spec.internalTrafficPolicy": POLICY,
        "spec.externalTrafficPolicy": POLICY,
        "spec.publishNotReadyAddresses": A_TRUTH,
        "spec.loadBalancerSourceRanges": Form("a list of ranges"),
        "spec.loadBalancerSourceRanges[]": A_RANGE,
        "spec.trafficDistribution": A_TEXT,
        "spec.healthCheckNodePort": A_PORT_OR_NONE,
        "status": AN_OBJECT,
        "status.loadBalancer": AN_OBJECT,
        "status.loadBalancer.ingress": A_LIST,
        "status.loadBalancer.ingress[]": AN_OBJECT,
        "status.loadBalancer.ingress[].ip": AN_ADDRESS,
        "status.loadBalancer.ingress[].ipMode": A_TEXT,
    },
    "EndpointSlice": {
        **_META,
        **_LABELS,
        f"metadata.labels.{OF_SERVICE}": A_NAME,
        "addressType": choice("IPv4", "IPv6", "FQDN"),
        "endpoints": Form("a list of at most 1000 endpoints"),
        "endpoints[]": AN_OBJECT,
        "endpoints[].addresses": Form("a list of addresses, of which the first counts"),
        "endpoints[].addresses[]": AN_ADDRESS,
        "endpoints[].conditions": AN_OBJECT,
        **{f"endpoints[].conditions.{it}": A_TRUTH for it in _TRUTHS},
        "endpoints[].nodeName": A_NAME,
        "endpoints[].zone": A_LABEL_VALUE,
        "endpoints[].hints": AN_OBJECT,
        "endpoints[].hints.forZones": A_LIST,
        "endpoints[].hints.forZones[]": AN_OBJECT,
        "endpoints[].hints.forZones[].name": A_LABEL_VALUE,
        "endpoints[].targetRef": AN_OBJECT,
        "endpoints[].targetRef.kind": A_TEXT,
        "endpoints[].targetRef.namespace": A_NAME,
        "endpoints[].targetRef.name": A_NAME,
        "ports": Form("a list of at most 100 ports"),
        "ports[]": AN_OBJECT,
        "ports[].name": A_PORT_NAME,
        "ports[].protocol": PROTOCOL,
        "ports[].port": A_PORT,
    },
    "Pod": {
        **_META,
        **_LABELS,
        "metadata.deletionTimestamp": A_TEXT,
        "spec": AN_OBJECT,
        "spec.nodeName": A_NAME,
        "spec.containers": A_LIST,
        "spec.containers[]": AN_OBJECT,
        "spec.containers[].ports": A_LIST,
        "spec.containers[].ports[]": AN_OBJECT,
        "spec.containers[].ports[].name": A_PORT_NAME,
        "spec.containers[].ports[].protocol": PROTOCOL,
        "spec.containers[].ports[].containerPort": A_PORT,
        "status": AN_OBJECT,
        "status.phase": A_TEXT,
        "status.podIP": AN_ADDRESS,
        "status.podIPs": A_LIST,
        "status.podIPs[]": AN_OBJECT,
        "status.podIPs[].ip": AN_ADDRESS,
        "status.conditions": A_LIST,
        "status.conditions[]": AN_OBJECT,
        "status.conditions[].type": A_TEXT,
        "status.conditions[].status": A_TEXT,
    },
    "Node": {
        **_NAMED,
        **_LABELS,
        f"metadata.labels.{ZONE}": A_LABEL_VALUE,
    },
}
_ANY_NAME = re.compile(r"^(metadata\.labels|spec\.selector)\..*$", re.S)


def form_of(kind, path):
    """What an object's member may be, by the path that a refusal names; None of one that isn't
    known."""
    table = OBJECTS.get(kind, _META)
    if path in table:
        return table[path]
    named = _ANY_NAME.sub(r"\1.*", path)
    return table.get(named) or table.get(re.sub(r"\[\d+\]", "[]", path))


def form_in_command(op, path):
    """The same of a command's member."""
    if path == "by":
        return A_STREAM
    if path == "op":
        return choice(*COMMANDS)
    if path in COMMANDS.get(op, {}):
        return COMMANDS[op][path].form
    return ELEMENTS.get(re.sub(r"\[\d+\]", "[]", path))
