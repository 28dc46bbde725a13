"""More connections than are kept: 70,000 that open at once, of which 65,536 are, and what becomes of
them. What is printed is told by counting alone."""

import json

MOST, ALL, OF_TCP = 65_536, 70_000, 40_000
WEB, DNS, OTHER = "10.244.1.2", "10.244.1.53", "10.244.2.53"
CLUSTER, DNS_CLUSTER = "10.96.0.20", "10.96.0.10"


def objects(name, address, proto, number, target):
    """A Service with one port and one endpoint."""
    port = {"port": number, "targetPort": target, "protocol": proto}
    return [
        {
            "apiVersion": "v1",
            "kind": "Service",
            "metadata": {"name": name},
            "spec": {"clusterIP": address, "ports": [port]},
        },
        slice_of(name, WEB if name == "web" else DNS, proto, target),
    ]


def slice_of(name, address, proto, target):
    return {
        "apiVersion": "discovery.k8s.io/v1",
        "kind": "EndpointSlice",
        "metadata": {"name": f"{name}-x", "labels": {"kubernetes.io/service-name": name}},
        "addressType": "IPv4",
        "ports": [{"port": target, "protocol": proto}],
        "endpoints": [{"addresses": [address], "nodeName": "n1"}],
    }


def source(number):
    """The source of a connection and its port: of each port there are a thousand sources."""
    place, port = divmod(number, 70)
    return f"10.244.{100 + place // 250}.{place % 250}", 40_000 + port


def flow(number, now):
    address, port = source(number)
    to = (CLUSTER, 80, "TCP") if number < OF_TCP else (DNS_CLUSTER, 53, "UDP")
    value = {"op": "packet", "src": address, "sport": port, "dst": to[0], "dport": to[1]}
    return value | {"proto": to[2], "now": now}


def reply(number, now):
    """What the endpoint of a connection sends back."""
    address, port = source(number)
    end = (WEB, 8080, "TCP") if number < OF_TCP else (DNS, 5353, "UDP")
    value = {"op": "packet", "src": end[0], "sport": end[1], "dst": address, "dport": port}
    return value | {"proto": end[2], "now": now}


def steps():
    """Each line with what is printed of it, without its beginning; of other lines nothing."""
    web, dns = (f"to {it}" for it in (f"{WEB}:8080", f"{DNS}:5353"))
    yield {"op": "config", "node": "n1", "clusterCIDR": "10.244.0.0/16", "controller": False}, ""
    for value in objects("web", CLUSTER, "TCP", 80, 8080) + objects("dns", DNS_CLUSTER, "UDP", 53, 5353):
        yield value, ""
    yield {"op": "sync"}, "events 4, written 5, removed 0"
    # all open at once; the first are kept
    for number in range(ALL):
        to = web if number < OF_TCP else dns
        yield flow(number, 0), to if number < MOST else f"{to} untracked"
    yield flow(0, 0), f"later {web}"
    yield reply(OF_TCP - 1, 0), f"reply as {CLUSTER}:80"
    yield flow(MOST - 1, 0), f"later {dns}"
    yield reply(MOST - 1, 0), f"reply as {DNS_CLUSTER}:53"
    yield flow(MOST, 0), f"{dns} untracked"
    yield reply(MOST, 0), "left alone"
    # at the timeout those of UDP live, and one is heard of; a second past it the others make room
    yield flow(MOST - 2, 120), f"later {dns}"
    yield flow(ALL - 1, 120), f"{dns} untracked"
    yield flow(MOST - 1, 121), dns
    yield flow(MOST - 2, 121), f"later {dns}"
    room = MOST - OF_TCP - 2
    for place, number in enumerate([*range(OF_TCP, MOST - 2), *range(MOST, ALL)]):
        yield flow(number, 121), dns if place < room else f"{dns} untracked"
    yield flow(1, 121), f"later {web}"
    # a sync takes UDP its endpoint, which makes room as well
    yield slice_of("dns", OTHER, "UDP", 5353), ""
    yield {"op": "sync"}, "events 1, written 2, removed 1"
    for number in range(OF_TCP, ALL):
        to = f"to {OTHER}:5353"
        yield flow(number, 121), to if number < MOST else f"{to} untracked"
    yield reply(OF_TCP, 121), "left alone"
    # those of TCP end all at once, but for the two that were heard of later
    yield flow(0, 432_000), f"later {web}"
    yield flow(1, 432_001), f"later {web}"
    yield flow(2, 432_001), web
    yield flow(0, 432_001), f"later {web}"


def lines():
    return [json.dumps(value).encode() for value, _ in steps()]


def said():
    """The lines that are printed."""
    syncs, text = 0, []
    for number, (value, told) in enumerate(steps(), 1):
        if value.get("op") == "sync":
            syncs += 1
            text.append(f"sync {syncs}: {told}")
        elif told:
            text.append(f"packet {number} at {syncs}: {told}")
    return text
