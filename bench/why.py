"""Writes the lines of a large cluster as tools/cluster would: nodes of three zones, and Services of
each type with slices of as many endpoints each as there are Pods for.

    why.py SERVICES PODS NODES
"""

import json
import sys
from pathlib import Path

sys.path.append(str(Path(__file__).resolve().parent.parent / "checks" / "why"))

import kubectl

FORMS = ("ClusterIP", "ClusterIP", "NodePort", "LoadBalancer")
NODE_PORTS = 2768  # from 30000 on
encode = json.JSONEncoder(separators=(",", ":")).encode


def trimmed(item):
    """What tools/cluster leaves of an object."""
    item["metadata"].pop("annotations", None)
    if item["kind"] == "Pod":
        item["status"].pop("containerStatuses")
        names = ("name", "ports")
        kept = [{it: one[it] for it in names} for one in item["spec"]["containers"]]
        item["spec"] = {"nodeName": item["spec"]["nodeName"], "containers": kept}
    if item["kind"] == "Node":
        item["status"].pop("images")
    return item


def address(first, number):
    return f"{first}.{number // 62_500}.{number // 250 % 250}.{number % 250 + 1}"


def service(number):
    form, name = FORMS[number % len(FORMS)], f"s{number}"
    has_node_port, is_balancer = form in ("NodePort", "LoadBalancer"), form == "LoadBalancer"
    more = {"externalTrafficPolicy": ("Cluster", "Local")[number % 8 // 4]} if has_node_port else {}
    more |= {"healthCheckNodePort": 32_000} if is_balancer else {}
    ingress = [{"ip": address(203, number), "ipMode": "VIP"}] if is_balancer else None
    port = kubectl.port("http", 80, 8080, 30_000 + number % NODE_PORTS if has_node_port else None)
    return kubectl.service(name, address(11, number), [port], {"app": name}, form, ingress, **more)


def main(services, pods, nodes):
    put = sys.stdout.write
    names = [f"n{it}" for it in range(1, nodes + 1)]
    for at, name in enumerate(names):
        kubectl.NODES[name] = ("abc"[at % 3], address(192, at), "")
    own = kubectl.NODES["n1"][1]
    setting = {"op": "config", "node": "n1", "nodeAddresses": [own], "clusterCIDR": "10.0.0.0/8"}
    items = [kubectl.node(it) for it in names]
    items += map(service, range(services))
    put(encode({**setting, "controller": False}) + "\n")
    for at in range(services):
        mine = range(at, pods, services)
        on = {it: names[it * 7 % nodes] for it in mine}
        ends = [kubectl.entry(address(10, it), on[it], f"s{at}-{it}") for it in mine]
        items.append(kubectl.slice_of(f"s{at}", ends))
        items += (kubectl.pod(f"s{at}-{it}", address(10, it), on[it]) for it in mine)
        while items:
            put(encode(trimmed(items.pop(0))) + "\n")
    put('{"op":"sync"}\n')


if __name__ == "__main__":
    main(*map(int, sys.argv[1:]))
