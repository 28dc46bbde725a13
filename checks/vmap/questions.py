"""Random scripts with packets and explanations after each sync, and before the first one.

Their changes are those of ../follow/changes.py, and others of a few Services that have endpoints for
each of their ports and share addresses: their ports have other protocols and numbers, they lose their
addresses and get them back, and some of their endpoints are doors themselves. Asked is for doors that
are there and for those that ever were, again and again from few sources, so that affinity finds many
of them. The same seed makes the same script."""

import random
import sys
from pathlib import Path

HERE = Path(__file__).resolve().parent
sys.path.append(str(HERE.parent / "follow"))

import changes
from follow import changes_of, doors_of

ASKED = 12  # questions after a sync
# a destination that is no door's, and those of the node's own that no door answers at
OTHERS = ["10.99.0.1", "127.0.0.1", "fd00:99::1", "::1"]
# sources, of which some are endpoints, and several have one part of a recent list
SOURCES = ["10.244.40.2", "10.244.40.3", "192.0.2.7", "192.0.2.23", "192.0.2.39", "10.0.0.1", "127.0.0.1"]
SOURCES6 = ["fd00:10:244:28::2", "fd00:10:244:28::3", "2001:db8::7", "2001:db8::17", "fd00::1", "::1"]
MOST_SEED = 2**64 - 1
# endpoints at which there may be doors, some of which the filter refuses
AT_DOORS = ["10.96.0.50", "10.96.0.51", "10.96.0.52", "10.96.0.200", "203.0.113.5", "203.0.113.8"]
AT_DOORS6 = ["fd00:10:96::32", "fd00:10:96::33", "fd00:10:96::34", "2001:db8::5", "2001:db8::9"]
NAMES = ["s40", "s41", "s42"]
SHARED = {
    "spec.type": ["ClusterIP", "NodePort", "LoadBalancer", "LoadBalancer", "LoadBalancer", "ExternalName"],
    "spec.externalIPs": [None, ["203.0.113.5"], ["203.0.113.5", "2001:db8::5", "203.0.113.5"]],
    "spec.sessionAffinity": ["None", "ClientIP", "ClientIP"],
    "status.loadBalancer.ingress": [[{"ip": "203.0.113.8"}, {"ip": "2001:db8::9"}]],
}


def random_script(seed, syncs):
    """A script of so many syncs, as values."""
    rng = random.Random(f"vmap {seed}")
    values = changes.random_script(seed, syncs)
    values[0] |= {"recentSize": rng.choice([1, 2, 2, 100])}
    asked = Questions(values[0], rng)
    lines = [values[0], *asked.some(2)]
    for name in NAMES:
        lines += asked.told([service(name, rng), *slices(name, rng)])
    for value in values[1:]:
        if value.get("op") == "sync":
            name = rng.choice(NAMES)
            for how in rng.choice([[], [service], [slices], [slices], [service, slices]]):
                made = how(name, rng)
                lines += asked.told(made if how is slices else [made])
        lines += asked.told([value])
        if value.get("op") == "sync":
            lines += asked.some(ASKED)
    return lines


# ---- Services that share addresses


def service(name, rng):
    """A Service becomes another one, or goes."""
    item = changes.made("Service", name, changes.service_choices(name) | SHARED, rng)
    own, six = item_addresses(name)
    lists = [*[[own, six]] * 6, [own], [six], ["None"], [own, "fd00:10:96::200"], ["10.96.0.200", six]]
    item["spec"] |= {"clusterIPs": rng.choice(lists), "ports": []}
    item["spec"].pop("selector", None)
    item["spec"].pop("ipFamilies", None)
    for _ in range(rng.choice([1, 2, 3])):
        changes.more_ports(item["spec"]["ports"], rng)
    return {"type": "DELETED", "object": item} if rng.random() < 0.05 else item


def item_addresses(name):
    number = int(name[1:]) + 10
    return f"10.96.0.{number}", f"fd00:10:96::{number:x}"


def slices(name, rng):
    """What its endpoints are in both families: of each port all, or now and then none."""
    return [ends_in(name, is_six, rng) for is_six in (False, True)]


def ends_in(name, is_six, rng):
    ports = [
        {"name": it, "port": rng.choice([8080, 8080, *changes.PORT["port"]]), "protocol": proto}
        for it in changes.PORT["name"]
        for proto in dict.fromkeys(changes.PORT["protocol"])
    ]
    own = f"fd00:10:244:{int(name[1:]):x}::" if is_six else f"10.244.{name[1:]}."
    addresses = [f"{own}{end}" for end in rng.sample(range(2, 8), rng.choice([0, 1, 2, 3, 3, 4, 5]))]
    if rng.random() < 0.3:
        addresses += rng.sample(AT_DOORS6 if is_six else AT_DOORS, rng.choice([1, 2]))
    ends = [{"addresses": [it], "nodeName": rng.choice(["n1", "n1", "n2"])} for it in addresses]
    for end in ends:
        if rng.random() < 0.15:
            changes.change(end, "conditions", changes.ENDPOINT, rng)
    item = {"apiVersion": "discovery.k8s.io/v1", "kind": "EndpointSlice"}
    item |= {"metadata": {"name": f"{name}-z{'6' * is_six}", "labels": {changes.OF_SERVICE: name}}}
    return item | {"addressType": "IPv6" if is_six else "IPv4", "ports": ports, "endpoints": ends}


# ---- questions


class Questions:
    """What may be asked of a cluster by now."""

    def __init__(self, setting, rng):
        self.setting, self.rng = setting, rng
        self.doors, self.present, self.asked = {}, {}, []
        self.clock = 0

    def told(self, lines):
        """The same lines, of which the Services are known. One that goes is known as it was."""
        for value in lines:
            for _, item in changes_of(value):
                if item and item["kind"] == "Service":
                    found = list(doors_of(item, self.setting))
                    self.present[item["metadata"]["name"]] = found
                    self.doors |= dict.fromkeys(found)
        return lines

    def some(self, count):
        return [line for _ in range(count) for line in self.question()]

    def question(self):
        """A packet, an explanation, or the one after the other of the same."""
        rng = self.rng
        self.clock += rng.choice([0] * 12 + [1, 1, 4, 5, 6, 100, 101])
        is_again = self.asked and rng.random() < 0.7
        value = rng.choice(self.asked[-8:]) if is_again else self.first()
        value = value | {"now": max(0, self.clock - rng.choice([0, 0, 0, 0, 7]))} | self.draws()
        explained = {"op": "explain"} | value
        sent = {"op": "packet"} | value | ({"trail": True} if rng.random() < 0.1 else {})
        return rng.choice([[explained, sent], [explained, sent], [explained], [sent]])

    def first(self):
        """A packet to a door, or now and then to none, which may be asked again."""
        rng = self.rng
        own = [door for name in NAMES for door in self.present.get(name, [])]
        others = [door for doors in self.present.values() for door in doors]
        doors = rng.choice([own, own, own, own, others, list(self.doors)])
        if not self.setting.get("dualStack") and rng.random() < 0.9:
            doors = [door for door in doors if ":" not in door[0]]
        address, port, proto = rng.choice(doors or [("10.96.0.10", 80, "TCP")])
        if rng.random() < 0.06:
            address = rng.choice(OTHERS)
        is_six = ":" in address
        value = {"src": rng.choice(SOURCES6 if is_six else SOURCES), "dst": address}
        value |= {"dport": port, "proto": proto}
        if rng.random() < 0.2:
            value |= {"from": "node"}
        self.asked.append(value)
        return value

    def draws(self):
        rng = self.rng
        value = {"seed": rng.choice([rng.getrandbits(8), rng.randint(0, MOST_SEED)])}
        if rng.random() < 0.7:
            small = [rng.randrange(40)] if rng.random() < 0.4 else []
            value |= {"draws": small + [rng.getrandbits(31) for _ in range(rng.choice([0, 1, 6]))]}
        return value if rng.random() < 0.9 else {}
