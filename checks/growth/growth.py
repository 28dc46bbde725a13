"""What a change costs doesn't grow with the cluster.

    growth.py PROGRAM [--figures]

A cluster of 4,000 Services and one of 200 go through the same changes of each kind: a line of an
event, a sync, and what else a kind does. What the changes cost is the processor time of the whole
run less that of the run without them, each the least of some runs by turns. In the large cluster
they may cost LIMIT times as much as in the small one, and SLACK seconds more. A body that looks at
all ports, Services or Pods for a change takes some 20 times as long there. Changes that write a
shared chain aren't among them: it is joined from all ports.
With --figures the costs are printed.
"""

import json
import os
import resource
import subprocess
import sys
import tempfile

LARGE, SMALL = 4000, 200
CHANGES = 2000
RUNS = 3
LIMIT, SLACK = 3, 0.2
PODS = 3  # of each Service
ON_NODE = 10  # Services whose Pods stand on one node
COMMON = 10  # Services of whose selectors the first pair is that of all Pods
# Two names of Services whose chains have one name where it has 8 characters of the hash.
CLASH = ("c577056", "c1150673")


def line(**members):
    return json.dumps(members, separators=(",", ":"))


def address(first, second, number):
    return f"{first}.{second}.{number // 256}.{number % 256}"


def service(name, number, selector):
    return {
        "apiVersion": "v1",
        "kind": "Service",
        "metadata": {"name": name},
        "spec": {
            "clusterIP": address(10, 96, number + 1),
            "ports": [{"port": 80, "targetPort": 8080}],
            "selector": selector,
        },
    }


def pod(number, network=244, version="1"):
    of = number // PODS
    return {
        "apiVersion": "v1",
        "kind": "Pod",
        "metadata": {
            "name": f"p{number}",
            "resourceVersion": version,
            "labels": {"app": "shop", "name": f"s{of}"},
        },
        "spec": {"nodeName": f"n{1 + of // ON_NODE}"},
        "status": {
            "phase": "Running",
            "podIP": address(10, network, number + 1),
            "conditions": [{"type": "Ready", "status": "True"}],
        },
    }


def node(number, zone):
    labels = {"topology.kubernetes.io/zone": zone}
    return {
        "apiVersion": "v1",
        "kind": "Node",
        "metadata": {"name": f"n{number}", "labels": labels},
    }


SYNC = line(op="sync")
EXPLAIN = line(op="explain", src="10.244.255.1", dst="10.96.0.1", dport=80, seed=1)


def selector_of(number):
    return ({"app": "shop"} if number < COMMON else {}) | {"name": f"s{number}"}


def cluster(services):
    """The lines of a cluster, whose own node has no Pod, and its first sync."""
    yield line(
        op="config",
        node="n0",
        nodeAddresses=["10.0.0.1"],
        clusterCIDR="10.244.0.0/16",
        nameLength=8,
    )
    for number in range(1 + services // ON_NODE):
        yield line(**node(number, "abc"[number % 3]))
    for number in range(services):
        yield line(**service(f"s{number}", number, selector_of(number)))
    for number in range(services * PODS):
        yield line(**pod(number))
    yield SYNC


def refused():
    """Two Services whose chains have one name, and a sync that is refused for that."""
    for number, name in enumerate(CLASH):
        yield line(**service(name, 60000 + number, {"name": "s0"}))
    yield SYNC
    yield EXPLAIN


# What the n-th change of a kind is, in the order of its lines.
def moves(n):
    return [line(**pod(n % (COMMON * PODS), 100 + n % 99)), SYNC]


def moves_and_explains(n):
    return [*moves(n), EXPLAIN]


def heartbeats(n):
    return [line(**pod(n % (SMALL * PODS), version=f"{n + 2}")), SYNC]


def zones(n):
    turn, number = divmod(n, SMALL // ON_NODE)
    return [line(**node(1 + number, "abc"[turn % 3])), SYNC]


def explains_after_a_refused_sync(n):
    return [EXPLAIN]


KINDS = (
    moves,
    moves_and_explains,
    heartbeats,
    zones,
    explains_after_a_refused_sync,
)


def took(program, path, wanted):
    """The processor time of a run, in seconds."""
    before = resource.getrusage(resource.RUSAGE_CHILDREN)
    with open(path, "rb") as lines:
        done = subprocess.run([program, "replay"], stdin=lines, stdout=subprocess.DEVNULL)
    if done.returncode != wanted:
        sys.exit(f"checks: growth: {os.path.basename(path)}: status {done.returncode}")
    after = resource.getrusage(resource.RUSAGE_CHILDREN)
    return after.ru_utime + after.ru_stime - before.ru_utime - before.ru_stime


def write(path, *parts):
    with open(path, "w", encoding="ascii") as lines:
        for part in parts:
            for each in part:
                lines.write(each + "\n")


def files_of(work, services):
    """The files of a cluster by name, each with the file that it goes beyond, or none, and the
    status of a run."""
    lines = list(cluster(services))
    files = {"cluster": (None, 0), "refused": (None, 3)}
    write(f"{work}/{services} cluster", lines)
    write(f"{work}/{services} refused", lines, refused())
    for kind in KINDS:
        is_refused = kind is explains_after_a_refused_sync
        files[kind.__name__] = ("refused", 3) if is_refused else ("cluster", 0)
        changes = (each for n in range(CHANGES) for each in kind(n))
        write(f"{work}/{services} {kind.__name__}", lines, refused() if is_refused else (), changes)
    return files


def costs(program, work):
    """What the changes of each kind cost, in each cluster."""
    files = {services: files_of(work, services) for services in (LARGE, SMALL)}
    least = {}
    for _ in range(RUNS):
        for services, names in files.items():
            for name, (_, status) in names.items():
                seconds = took(program, f"{work}/{services} {name}", status)
                key = services, name
                least[key] = min(least.get(key, seconds), seconds)
    return {
        kind.__name__: tuple(
            least[services, kind.__name__] - least[services, files[services][kind.__name__][0]]
            for services in (LARGE, SMALL)
        )
        for kind in KINDS
    }


def main():
    program, figures = sys.argv[1], "--figures" in sys.argv[2:]
    failed = False
    with tempfile.TemporaryDirectory() as work:
        for name, (large, small) in costs(program, work).items():
            kind = name.replace("_", " ")
            if figures:
                print(f"{kind}: {large:.3f} s and {small:.3f} s")
            if large > LIMIT * max(small, 0) + SLACK:
                failed = True
                print(
                    f"checks: growth: {kind}: {CHANGES} cost {large:.2f} s among {LARGE} Services,"
                    f" {small:.2f} s among {SMALL}"
                )
    sys.exit(failed)


main()
