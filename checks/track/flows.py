"""Random scripts of connections to a few Services whose endpoints come and go: flows that open, later
ones and replies, at moments that rise, stand and fall, with syncs between them, some of which are
refused. The same seed makes the same script. Of every other seed endpoints come from Pods."""

import random

NODE_ADDRESSES = ["10.0.0.1", "fd00::1"]
SOURCES = ["10.244.1.2", "10.244.9.9", "10.244.9.8", "192.0.2.7"]  # the first is an endpoint, too
SOURCES6 = ["fd00:10:244:1::2", "fd00:10:244:9::9", "fd00:10:244:9::8", "2001:db8::7"]
INSIDE = SOURCES[:3] + SOURCES6[:3]
# the ports that clients use, of which 0 is one that isn't told
SOURCE_PORTS = [0, 40000, 40000, 40001]
PORTS = [("tcp", "TCP", 80), ("udp", "UDP", 53), ("sctp", "SCTP", 90), ("more", "UDP", 54)]
TIMEOUTS = {"TCP": 432_000, "UDP": 120, "SCTP": 432_000}
NAMES = ["a", "b", "c"]
NODES = ["n1", "n1", "n2"]
ENDS = range(2, 6)
ZONE = "topology.kubernetes.io/zone"
LENGTHS = [16, 16, 3, 16, 2]  # of the hash in a chain's name: short names clash now and then
CONDITIONS = [
    *[{}] * 6,
    {"ready": False},
    {"ready": False, "serving": True, "terminating": True},
]
# by how many seconds the clock goes on before a flow, and what a flow's own moment is beside it
STEPS = [0] * 12 + [1, 1, 2, 30, 60]
LATE = [0] * 10 + [-1, -120, -121, -500]
JUMPS = [119, 120, 121, 432_000, 432_001]
LAST = 2**64 - 1


class Cluster:
    """The objects that there are, and the lines that bring them."""

    def __init__(self, rng, is_of_pods):
        self.rng, self.is_of_pods = rng, is_of_pods
        self.ends = {name: {} for name in NAMES}  # conditions and nodes by numbers of endpoints
        self.ports = {name: list(PORTS) for name in NAMES}
        self.policies = {name: {} for name in NAMES}

    def setting(self, length):
        both = self.rng.random() < 0.7
        ranges = ["10.244.0.0/16", "10.244.0.0/16,fd00:10:244::/48"]
        value = {"op": "config", "node": "n1", "nodeAddresses": NODE_ADDRESSES, "nameLength": length}
        value |= {"clusterCIDR": ranges[both]} if self.rng.random() < 0.9 else {}
        return value | {"dualStack": both, "controller": self.is_of_pods}

    def service(self, name):
        """A Service with all kinds of doors in both families."""
        place = NAMES.index(name)
        ports = [
            {"name": port, "protocol": proto, "port": number, "targetPort": 8080}
            | {"nodePort": 30000 + 10 * place + PORTS.index((port, proto, number))}
            for port, proto, number in self.ports[name]
        ]
        spec = {"clusterIPs": addresses_of(name), "ports": ports, "type": "NodePort"}
        spec |= {"externalIPs": [f"203.0.113.{place}", f"2001:db8:1::{place}"]}
        spec |= {"selector": {name: "yes"}} if self.is_of_pods else {}
        item = {"apiVersion": "v1", "kind": "Service", "metadata": {"name": name}}
        return item | {"spec": spec | self.policies[name]}

    def slices(self, name):
        """What says who the endpoints of a Service are; Pods do, where they are selected."""
        if self.is_of_pods:
            return []
        return [self.slice_of(name, 0, "IPv4"), self.slice_of(name, 1, "IPv6")]

    def slice_of(self, name, place, family):
        ports = [{"name": port, "protocol": proto, "port": 8080} for port, proto, _ in PORTS]
        ends = [
            {"addresses": [own_addresses(end)[place]], "conditions": state[0], "nodeName": state[1]}
            | ({"hints": {"forZones": [{"name": state[2]}]}} if state[2] else {})
            for end, state in sorted(self.ends[name].items())
        ]
        labels = {"kubernetes.io/service-name": name}
        item = {"apiVersion": "discovery.k8s.io/v1", "kind": "EndpointSlice"}
        item |= {"metadata": {"name": f"{name}-{family[-1]}", "labels": labels}}
        return item | {"addressType": family, "ports": ports, "endpoints": ends}

    def pod(self, end):
        """A Pod, which may be an endpoint of several Services; or that it is gone."""
        states = {name: self.ends[name][end] for name in NAMES if end in self.ends[name]}
        item = {"apiVersion": "v1", "kind": "Pod"}
        item |= {"metadata": {"name": f"p{end}", "labels": {name: "yes" for name in states}}}
        if not states:
            return {"type": "DELETED", "object": item}
        said, node, _ = next(iter(states.values()))
        if said.get("terminating"):
            item["metadata"]["deletionTimestamp"] = "2026-03-02T09:00:00Z"
        is_serving = said.get("serving", said.get("ready", True))
        item["spec"] = {"nodeName": node, "containers": []}
        addresses = [{"ip": it} for it in own_addresses(end)]
        ready = [{"type": "Ready", "status": "True" if is_serving else "False"}]
        return item | {"status": {"phase": "Running", "podIPs": addresses, "conditions": ready}}

    def node(self):
        """This node, with a zone or without."""
        labels = self.rng.choice([{}, {ZONE: "a"}, {ZONE: "b"}])
        item = {"apiVersion": "v1", "kind": "Node"}
        return item | {"metadata": {"name": "n1", "labels": labels}}

    def change(self):
        """The lines of a change, most of which are of an endpoint."""
        rng, name = self.rng, self.rng.choice(NAMES)
        how = rng.random()
        if how < 0.7:
            return self.changed_end(name)
        if how < 0.8:
            self.ports[name] = [it for it in PORTS if rng.random() < 0.8] or PORTS[:1]
        elif how < 0.92:
            self.policies[name] = random_policies(rng)
        elif how < 0.96:
            return [self.node()]
        else:
            return [{"type": "DELETED", "object": self.service(name)}, *self.random_again(name)]
        return [self.service(name)]

    def random_again(self, name):
        return [self.service(name)] if self.rng.random() < 0.7 else []

    def changed_end(self, name):
        rng, end = self.rng, self.rng.choice(ENDS)
        if end in self.ends[name] and rng.random() < 0.6:
            del self.ends[name][end]
        else:
            hint = rng.choice(["", "", "a", "b"])
            self.ends[name][end] = rng.choice(CONDITIONS), rng.choice(NODES), hint
        return [self.pod(end)] if self.is_of_pods else self.slices(name)

    def doors(self):
        for name in NAMES:
            place = NAMES.index(name)
            for port in self.ports[name]:
                for address in addresses_of(name) * 4 + self.service(name)["spec"]["externalIPs"]:
                    yield address, port[2], port[1]
                for address in NODE_ADDRESSES:
                    yield address, 30000 + 10 * place + PORTS.index(port), port[1]


def own_addresses(end):
    """The addresses of an endpoint, which several Services may have."""
    return f"10.244.1.{end}", f"fd00:10:244:1::{end}"


def addresses_of(name):
    place = NAMES.index(name)
    return [f"10.96.0.{10 + place}", f"fd00:10:96::{place + 10:x}"]


def random_policies(rng):
    """How a Service chooses among endpoints, and whether it is one at all."""
    policies = {"sessionAffinity": rng.choice(["None", "None", "ClientIP"])}
    policies |= {"sessionAffinityConfig": {"clientIP": {"timeoutSeconds": rng.choice([60, 10800])}}}
    policies |= {"externalTrafficPolicy": rng.choice(["Cluster", "Local", "Local"])}
    policies |= {"internalTrafficPolicy": rng.choice(["Cluster", "Cluster", "Local"])}
    policies |= {"trafficDistribution": "PreferClose"} if rng.random() < 0.3 else {}
    odd = [{"type": "ExternalName"}, {"clusterIPs": ["None"]}, {"type": "ClusterIP"}]
    return policies | (rng.choice(odd) if rng.random() < 0.2 else {})


class Clients:
    """Those who connect, and what they have sent so far."""

    def __init__(self, cluster, setting, rng):
        self.cluster, self.rng = cluster, rng
        self.is_both = setting["dualStack"]
        self.sent, self.clock = [], rng.choice([0, 0, 1000, 500_000])

    def flow(self):
        """The line of a flow: mostly one of a connection that may be open."""
        rng, how = self.rng, self.rng.random()
        recent = self.sent[-12:]
        replied = [it for it in recent if it["sport"] and it["src"] in INSIDE]
        if how < 0.25 or not recent:
            value = self.first()
        elif how < 0.45:
            value = rng.choice(recent)
        elif how < 0.6 or not replied:
            value = self.at_timeout(rng.choice(recent))
        else:
            value = self.reply(rng.choice(replied))
        self.clock += rng.choice(STEPS)
        if "now" not in value:
            value = value | {"now": max(0, self.clock + rng.choice(LATE))}
        return value | self.choices()

    def first(self):
        """To a door."""
        rng = self.rng
        is_six = self.is_both and rng.random() < 0.3
        doors = [it for it in self.cluster.doors() if (":" in it[0]) == is_six]
        address, port, proto = rng.choice(doors)
        source = rng.choice(SOURCES6 if is_six else SOURCES)
        value = {"op": "packet", "src": source, "sport": rng.choice(SOURCE_PORTS)}
        value |= {"dst": address, "dport": port, "proto": proto}
        if rng.random() < 0.1:
            value |= {"from": "node", "src": NODE_ADDRESSES[is_six]}
        self.sent.append(value)
        return value

    def at_timeout(self, value):
        """A flow some time later: when its connection ends, or a second before or after that."""
        jump = self.rng.choice(JUMPS[:3] if value["proto"] == "UDP" else [0, 0, 0, *JUMPS])
        self.clock += jump
        return value | {"now": self.clock}

    def reply(self, value):
        """From what may be the endpoint of a flow."""
        is_six = ":" in value["src"]
        address = own_addresses(self.rng.choice(ENDS))[is_six]
        made = {"op": "packet", "src": address, "sport": 8080, "dst": value["src"]}
        return made | {"dport": value["sport"] or 1, "proto": value["proto"]}

    def choices(self):
        """Draws, and now and then a trail."""
        rng = self.rng
        value = {"seed": rng.getrandbits(8)}
        if rng.random() < 0.7:
            value = {"draws": [rng.getrandbits(31) for _ in range(rng.choice([1, 6]))]}
        return value | ({"trail": True} if rng.random() < 0.1 else {})


def random_script(seed, syncs):
    """A script of so many syncs, as values."""
    rng = random.Random(f"track {seed}")
    cluster = Cluster(rng, seed % 2 == 1)
    setting = cluster.setting(LENGTHS[seed % len(LENGTHS)])
    clients, lines = Clients(cluster, setting, rng), [setting, cluster.node()]
    for name in NAMES:
        lines.append(cluster.service(name))
        for _ in range(3):
            lines += cluster.changed_end(name)
    for _ in range(syncs):
        lines.append({"op": "sync"})
        for _ in range(rng.choice([2, 4, 8, 16])):
            flow = clients.flow()
            lines += [flow | {"op": "explain"}] * (rng.random() < 0.1) + [flow]
        for _ in range(rng.choice([0, 1, 1, 2, 4])):
            lines += cluster.change()
    return lines + [clients.flow() | {"now": LAST} for _ in range(rng.choice([0, 0, 5]))]
