"""Whether slices hold what the controller has to put into them, by a model of the rules.

Services, Pods, Nodes and slices of both address families come, change and go, with syncs between
them. Now and then the slices and their endpoints are shown. The model has read the same lines, and
says what is shown, byte for byte: who is wanted in which family, the three steps of packing, the
names of new slices, and what is left over. It is written from the rules alone: KEP-752, the
Kubernetes documents "EndpointSlices" and "IPv4/IPv6 dual-stack", and docs/FORMAT.md.

    slices.py check PROGRAM COUNT FIRST    judges random scripts, by the seeds from FIRST on
    slices.py script SEED                  prints the random script of a seed
"""

import ipaddress
import json
import random
import subprocess
import sys
from dataclasses import dataclass
from itertools import count, zip_longest

SECONDS = 600
FAMILIES = ["IPv4", "IPv6"]
ZONE = "topology.kubernetes.io/zone"
OF_SERVICE = "kubernetes.io/service-name"
MANAGER = "endpointslice.kubernetes.io/managed-by"
CONTROLLER = "endpointslice-controller.k8s.io"


# ---- what lines say


@dataclass(frozen=True)
class Entry:
    """An endpoint of a slice."""

    address: str
    state: str  # r, s and t, or - for each
    node: str
    zone: str
    hints: tuple
    pod: tuple  # its namespace and name, or nothing


@dataclass
class Slice:
    service: str
    is_managed: bool
    kind: str
    ports: list  # names, protocols and numbers
    entries: list


def key_of(item):
    named = item["metadata"]
    return "" if item["kind"] == "Node" else named.get("namespace", "default"), named["name"]


def printed(address):
    return ipaddress.ip_address(address).compressed


def family_of(address):
    return "IPv6" if ":" in address else "IPv4"


def state_of(ready, serving, terminating):
    return "".join(sign if it else "-" for sign, it in zip("rst", (ready, serving, terminating)))


def families_of(spec):
    """The families of a Service: those it lists, or those of its cluster addresses, or IPv4."""
    single = [spec["clusterIP"]] if spec.get("clusterIP") else []
    written = spec.get("clusterIPs") or single
    addresses = [] if "None" in written else written
    return spec.get("ipFamilies") or [family_of(it) for it in addresses] or ["IPv4"]


def addresses_of(status):
    """The addresses of a Pod: those of its list, or the single one where the list has none."""
    listed = [it["ip"] for it in status.get("podIPs") or [] if it.get("ip")]
    return listed or [it for it in [status.get("podIP")] if it]


def read_slice(item):
    labels, kind = item["metadata"]["labels"], item["addressType"]
    is_managed = labels.get(MANAGER) == CONTROLLER
    ports = [port_of(it) for it in item["ports"]]
    entries = [read_entry(it, kind, key_of(item)[0]) for it in item["endpoints"]]
    return Slice(labels.get(OF_SERVICE, ""), is_managed, kind, ports, entries)


def port_of(item):
    return item.get("name", ""), item.get("protocol", "TCP"), item.get("port")


def read_entry(item, kind, space):
    is_so = item.get("conditions", {})
    ready = is_so.get("ready", True)
    state = state_of(ready, is_so.get("serving", ready), is_so.get("terminating", False))
    address = "-" if kind == "FQDN" else printed(item["addresses"][0])
    pod = (space, item["targetRef"]["name"]) if "targetRef" in item else ()
    return Entry(address, state, item.get("nodeName", ""), item.get("zone", ""), (), pod)


# ---- the rules


def resolved_ports(spec, pod):
    """The ports of a Service as a Pod has them, without those of names that the Pod lacks."""
    own = [it for box in pod["spec"]["containers"] for it in box["ports"]]
    for port in spec["ports"]:
        proto, target = port.get("protocol", "TCP"), port.get("targetPort") or port["port"]
        if isinstance(target, str):
            named = (it for it in own if (it["name"], it.get("protocol", "TCP")) == (target, proto))
            target = next(named, {}).get("containerPort")
        if target:
            yield port.get("name", ""), proto, target


def in_order(ports):
    return sorted(ports, key=lambda port: port[:2])


class Model:
    """The objects by now, and the slices as they were fed and as the controller left them."""

    def __init__(self, setting):
        self.most, self.is_on = setting["maxEndpointsPerSlice"], setting["controller"]
        self.objects = {"Service": {}, "Pod": {}, "Node": {}, "EndpointSlice": {}}
        self.slices = self.objects["EndpointSlice"]

    def shown(self, value):
        """What a line shows, after what it does."""
        if value.get("type") == "DELETED":
            self.objects[value["object"]["kind"]].pop(key_of(value["object"]), None)
        elif "kind" in value:
            is_slice = value["kind"] == "EndpointSlice"
            self.objects[value["kind"]][key_of(value)] = read_slice(value) if is_slice else value
        elif value["op"] == "sync" and self.is_on:
            self.control()
        elif value["op"] == "show":
            lines_of = {"slices": slice_lines, "endpoints": entry_lines}[value["what"]]
            return [line for key in sorted(self.slices) for line in lines_of(key, self.slices[key])]
        return []

    def control(self):
        """Leftovers go, and each Service with a selector is packed, for IPv4 and then for IPv6."""
        services = self.objects["Service"]
        for key, it in list(self.slices.items()):
            if it.is_managed and it.service and (key[0], it.service) not in services:
                del self.slices[key]
        for key in sorted(services):
            spec = services[key]["spec"]
            if spec.get("selector") and spec.get("type") != "ExternalName":
                for family in FAMILIES:
                    self.pack(key, family, list(self.wanted(key[0], spec, family)))

    def wanted(self, space, spec, family):
        """The endpoints that a Service wants in a family, by the pods' names, with their ports."""
        for key, pod in sorted(self.objects["Pod"].items()):
            own = [it for it in addresses_of(pod["status"]) if family_of(it) == family]
            ports = list(resolved_ports(spec, pod))
            labels = pod["metadata"]["labels"].items()
            is_selected = key[0] == space and spec["selector"].items() <= labels
            is_over = pod["status"].get("phase") in ("Succeeded", "Failed")
            if family in families_of(spec) and is_selected and not is_over and own and ports:
                yield ports, self.entry(spec, key, pod, own[0])

    def entry(self, spec, key, pod, address):
        """What a Service wants of a Pod at an address."""
        terminating = "deletionTimestamp" in pod["metadata"]
        serving = pod["status"]["conditions"] == [{"type": "Ready", "status": "True"}]
        ready = spec.get("publishNotReadyAddresses", False) or (serving and not terminating)
        node = pod["spec"].get("nodeName", "")
        zone = self.zone_of(node)
        hints = (zone,) if zone and spec.get("trafficDistribution") == "PreferClose" else ()
        state = state_of(ready, serving, terminating)
        return Entry(printed(address), state, node, zone, hints, key)

    def zone_of(self, node):
        found = self.objects["Node"].get(("", node))
        return found["metadata"]["labels"].get(ZONE, "") if found else ""

    def pack(self, service, family, wanted):
        """Packs a Service's managed slices of a family, each group of equal ports by itself."""
        space, name = service
        taken = {key[1] for key in self.slices if key[0] == space}
        managed = {
            key: self.slices.pop(key)
            for key, it in sorted(self.slices.items())
            if key[0] == space and it.is_managed and (it.service, it.kind) == (name, family)
        }
        groups = []
        for ports, _ in wanted:
            groups += [in_order(ports)] if in_order(ports) not in groups else []
        for group in groups:
            old = {key: it for key, it in managed.items() if in_order(it.ports) == group}
            left = [entry for ports, entry in wanted if in_order(ports) == group]
            made = self.pack_group(list(old.values()), left)
            self.slices.update({key: it for key, it in old.items() if it.entries})
            for entries in made:
                new = next(it for it in (f"{name}-kp{k}" for k in count(1)) if it not in taken)
                taken.add(new)
                self.slices[space, new] = Slice(name, True, family, group, entries)

    def pack_group(self, slices, left):
        """Packs endpoints into slices of their ports by the three steps; what new slices get."""
        fresh, changed = [], []
        for it in slices:
            kept = self.keep(it.entries, left)
            (fresh if kept == it.entries else changed).append(it)
            it.entries = kept
        for it in changed:
            while left and len(it.entries) < self.most:
                it.entries.append(left.pop(0))
        made = []
        while left:
            roomy = [it for it in fresh if len(it.entries) + len(left) <= self.most]
            if len(left) < self.most and roomy:
                max(roomy, key=lambda it: len(it.entries)).entries += left
                break
            made.append(left[: self.most])
            left = left[self.most :]
        return made

    def keep(self, entries, left):
        """The entries of a slice that are wanted still, as they are wanted now."""
        kept = []
        for entry in entries:
            place = (entry.pod, entry.address)
            fit = next((it for it in left if (it.pod, it.address) == place), None)
            if fit and len(kept) < self.most:
                left.remove(fit)
                kept.append(fit)
        return kept


def slice_lines(key, it):
    ports = ",".join(f"{name}:{number or '*'}/{proto}" for name, proto, number in it.ports)
    managed, size = "managed" if it.is_managed else "own", len(it.entries)
    text = f"{it.kind}, {managed}, service {it.service or '-'}, ports {ports or '-'}"
    return [f"slice {'/'.join(key)}: {text}, endpoints {size}"]


def entry_lines(key, it):
    return [
        f"endpoint {'/'.join(key)} {place}: {entry.address} {entry.state} node {entry.node or '-'}"
        f" zone {entry.zone or '-'} hints {','.join(entry.hints) or '-'}"
        for place, entry in enumerate(it.entries, 1)
    ]


# ---- scripts


NAMES = ["a", "b", "a-b"]
PORTS = [
    [{"port": 80, "targetPort": 8080}],
    [{"name": "http", "port": 80, "targetPort": "web"}],
    [{"name": "http", "port": 80, "targetPort": 8080}, {"name": "dns", "port": 53}],
    [{"name": "dns", "port": 53, "protocol": "UDP"}, {"name": "dns", "port": 53}],
    [],
]
SLICE_PORTS = [
    [{"port": 8080}],
    [{"name": "http", "port": 8080, "protocol": "TCP"}, {"name": "dns", "port": 53}],
    [{"name": "dns", "port": 53}, {"name": "http", "port": 8080}],
    [{"name": "dns", "port": 53, "protocol": "UDP"}, {"name": "dns", "port": 53}],
    [{"name": "http"}],
    [],
]
CONTAINERS = [
    [{"ports": [{"name": "web", "containerPort": number, "protocol": proto}]}]
    for number, proto in ((8080, "TCP"), (8080, "TCP"), (90, "TCP"), (80, "UDP"))
]


def some(rng, **choices):
    """Members, each with one of its values; of None there is no such member."""
    members = {name: rng.choice(values) for name, values in choices.items()}
    return {name: value for name, value in members.items() if value is not None}


def named(rng, kind, name, **members):
    """An object of this name in one of two namespaces."""
    space = some(rng, namespace=[None, "default", "default", "shop"])
    version = "discovery.k8s.io/v1" if kind == "EndpointSlice" else "v1"
    return {"apiVersion": version, "kind": kind, "metadata": {"name": name} | space} | members


def service(rng):
    name = rng.choice(NAMES)
    four, six = f"10.96.0.{len(name)}", f"fd00:10:96::{len(name)}"
    spec = some(
        rng,
        clusterIP=[None, "", "None", four, six],
        clusterIPs=[None, [], [four], [six], [four, six], [six, four], ["None"], [six, "None"]],
        ipFamilies=[None, None, [], ["IPv4"], FAMILIES, ["IPv6", "IPv4", "IPv6"], ["IPv6"]],
        type=[None, None, "ClusterIP", "LoadBalancer", "ExternalName"],
        selector=[None, {"app": "x"}, {"app": "x"}, {"app": "x", "tier": "1"}, {"app": "y"}],
        publishNotReadyAddresses=[None, None, True],
        trafficDistribution=[None, "PreferClose"],
        ports=PORTS,
    )
    return named(rng, "Service", name, spec=spec)


def pod_addresses(number):
    """The addresses of a Pod, one of each family; every second one of IPv6 is written at length."""
    six = ipaddress.ip_address(f"fd00:10:244::{number:x}")
    return f"10.244.0.{number}", six.exploded.upper() if number % 2 else six.compressed


def pod(rng):
    number = rng.randint(1, 8)
    four, six = pod_addresses(number + rng.choice([0, 0, 0, 8]))
    lists = [[four], [six], [four, six], [six, four], [six, six], ["", four]]
    status = some(
        rng,
        podIP=[None, "", four, four, six],
        podIPs=[None, None, [], [{}]] + [[{"ip": it} for it in found] for found in lists],
        phase=[None, "Running", "Running", "Running", "Pending", "Failed"],
        conditions=[[]] + [[{"type": "Ready", "status": it}] for it in ("True", "True", "False")],
    )
    labels = rng.choice([{"app": "x"}, {"app": "x", "tier": "1"}, {"app": "y", "tier": "1"}, {}])
    spec = some(rng, nodeName=["n1", "n2", None], containers=CONTAINERS)
    made = named(rng, "Pod", f"p{number}", spec=spec, status=status)
    made["metadata"] |= some(rng, labels=[labels], deletionTimestamp=[None, None, "2026-03-02"])
    return made


def node(rng):
    made = named(rng, "Node", rng.choice(["n1", "n2"]))
    made["metadata"]["labels"] = some(rng, **{ZONE: [None, "a", "b"]})
    return made


def endpoint(rng):
    number = rng.randint(1, 8)
    members = some(
        rng,
        nodeName=[None, "n1"],
        zone=[None, "a"],
        conditions=[None, None, {"ready": False}, {"serving": False}, {"terminating": True}],
        targetRef=[None] + [{"kind": "Pod", "name": f"p{number}"}] * 3,
    )
    return {"addresses": [rng.choice(pod_addresses(number))]} | members


def fed_slice(rng):
    name, owner = rng.choice(NAMES), rng.choice([*NAMES, "gone"])
    labels = some(rng, **{OF_SERVICE: [name, name, owner, None], MANAGER: [CONTROLLER, None]})
    made = named(rng, "EndpointSlice", f"{name}-{rng.choice(['kp1', 'kp2', 'kp3', 'x'])}")
    made["metadata"]["labels"] = labels
    made["endpoints"] = [endpoint(rng) for _ in range(rng.randint(0, 4))]
    made["addressType"] = rng.choice(FAMILIES * 2 + ["FQDN"])
    return made | {"ports": rng.choice(SLICE_PORTS)}


def deleted(rng):
    return {"type": "DELETED", "object": rng.choice([service, pod, pod, node, fed_slice])(rng)}


def sync(_):
    return {"op": "sync"}


def show(rng):
    return {"op": "show", "what": rng.choice(["slices", "endpoints"])}


CHANGES = [service] * 6 + [pod] * 10 + [node, fed_slice, fed_slice, deleted, deleted] + [sync] * 4


def random_script(seed):
    """The lines of a seed, as values: a setting, and what the model reads."""
    rng = random.Random(f"slices {seed}")
    lines = [{"op": "config"} | some(rng, maxEndpointsPerSlice=[1, 2, 3, 100])]
    lines[0]["controller"] = rng.random() < 0.95
    lines += [rng.choice([*CHANGES, show])(rng) for _ in range(rng.choice([20, 60, 120]))]
    return [*lines, sync(rng), *({"op": "show", "what": it} for it in ("slices", "endpoints"))]


def fault_of(path, values):
    """The first line of what a program shows that isn't what the model says, or nothing."""
    text = "".join(json.dumps(value) + "\n" for value in values)
    words = {"capture_output": True, "text": True, "timeout": SECONDS, "check": False}
    ran = subprocess.run([path, "replay"], input=text, **words)
    found = [it for it in ran.stdout.splitlines() if not it.startswith("sync ")]
    model = Model(values[0])
    wanted = [line for value in values[1:] for line in model.shown(value)]
    wrong = (f"{it!r}, and not {line!r}" for it, line in zip_longest(found, wanted) if it != line)
    return next(wrong, "" if ran.returncode == 0 else f"status {ran.returncode}")


def main(words):
    """Does what the words ask for; the status."""
    if words[0] == "script":
        for value in random_script(int(words[1])):
            print(json.dumps(value))
        return 0
    path, size, first = words[1], int(words[2]), int(words[3])
    faults = [(seed, fault_of(path, random_script(seed))) for seed in range(first, first + size)]
    for seed, fault in faults:
        if fault:
            print(f"checks: slices: script {seed}: {fault}")
    return int(any(fault for _, fault in faults))


if __name__ == "__main__":
    sys.exit(main(sys.argv[1:]))
