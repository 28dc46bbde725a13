"""Random scripts of a few Services that share addresses, each with up to six endpoints, of which some
are not ready, terminate, are of other nodes or zones, or are doors or the node itself. After each sync
packets are sent, and explained. The same seed makes the same script."""

import random
import sys
from pathlib import Path

HERE = Path(__file__).resolve().parent
sys.path.append(str(HERE.parent / "follow"))

import changes

MOST = 6  # endpoints
NAMES = ["s0", "s1", "s2"]
NODES = ["n1", "n1", "n1", "n2", "n2", None]
ZONES = ["a", "b"]
PORTS = [("", 80, 30000), ("http", 80, 30000), ("https", 443, 30001), ("dns", 80, None)]
# addresses of the node, of which some are in the cluster's range, in ranges of load balancers, or at the
# end of the family
OWN = ["10.0.0.1", "10.0.0.2", "10.244.1.1", "192.0.2.255", "255.255.255.255", "0.0.0.0"]
OWN6 = ["fd00::1", "fd00:10:244:1::1", "2001:db8::ff", "ffff:ffff:ffff:ffff:ffff:ffff:ffff:ffff"]
CIDRS = ["10.244.0.0/16", "10.0.0.0/8", "0.0.0.0/0", "128.0.0.0/1"]
CIDRS6 = ["fd00:10:244::/48", "::/0", "fd00::/8", "2001:db8::/32"]
RANGES = [
    *["192.0.2.0/24", "192.0.2.7/32", "10.244.0.0/16", "10.0.0.0/7", "0.0.0.0/0", "127.0.0.0/9"],
    *["192.0.2.128/25", "224.0.0.0/3", "2001:db8::/32", "fd00::/7", "::/1", "8000::/1"],
]
CLUSTER = ["10.96.0.10", "10.96.0.11", "10.96.0.12"]
CLUSTER6 = ["fd00:10:96::a", "fd00:10:96::b", "fd00:10:96::c"]
OUTSIDE, OUTSIDE6 = ["203.0.113.5", "203.0.113.8"], ["2001:db8:1::5", "2001:db8:1::8"]
SOURCES = ["10.244.1.2", "10.244.1.3", "192.0.2.7", "198.51.100.7", "127.0.0.1"]
SOURCES6 = ["fd00:10:244:1::2", "fd00:10:244:1::3", "2001:db8::7", "2001:db9::7", "::1"]


def random_script(seed):
    """A script, as values."""
    return World(random.Random(f"paths {seed}")).script()


class World:
    """A node, and what is told of the cluster."""

    def __init__(self, rng):
        self.rng, self.has_pods = rng, rng.random() < 0.25
        self.own = self.some(OWN, 3) + self.some(OWN6, 3)
        self.has_both = rng.random() < 0.7
        self.doors, self.clock = [], 0

    def some(self, items, most):
        return self.rng.sample(items, self.rng.randint(0, most))

    def script(self):
        rng = self.rng
        lines = [self.setting(), *self.questions(rng.choice([0, 0, 1]))]
        for name in ("n1", "n2"):
            labels = {changes.ZONE: rng.choice(ZONES)} if rng.random() < 0.8 else {}
            lines.append(item_of("Node", name, {"labels": labels}))
        names = NAMES[: rng.choice([1, 2, 3])]
        for name in names:
            lines += [self.service(name), *self.ends(name)]
        lines += [{"op": "sync"}, *self.questions(4)]
        if rng.random() < 0.5:
            name = rng.choice(names)
            lines += [self.service(name)] if rng.random() < 0.5 else self.ends(name)
            lines += [{"op": "sync"}, *self.questions(3)]
        return lines

    def setting(self):
        rng = self.rng
        ranges = [rng.choice(CIDRS[:1] * 3 + CIDRS)] if rng.random() < 0.85 else []
        ranges += [rng.choice(CIDRS6[:1] * 3 + CIDRS6)] if rng.random() < 0.7 else []
        value = {"op": "config", "node": "n1", "nodeAddresses": self.own, "controller": self.has_pods}
        value |= {"clusterCIDR": ",".join(ranges)} if ranges else {}
        value |= {"dualStack": True} if self.has_both else {}
        value |= {"masqueradeAll": True} if rng.random() < 0.15 else {}
        return value | ({"recentSize": 1} if rng.random() < 0.3 else {})

    def service(self, name):
        """A Service becomes another one."""
        rng, place = self.rng, NAMES.index(name)
        choices = changes.SERVICE | {
            "spec.type": ["ClusterIP", "NodePort", *["LoadBalancer"] * 3],
            "spec.ipFamilies": [None],
            "spec.externalIPs": [None, None, self.some(OUTSIDE, 2) + self.some(OUTSIDE6 + self.own, 2)],
            "spec.sessionAffinity": ["None", "None", "ClientIP"],
            "spec.loadBalancerSourceRanges": [None, self.some(RANGES, 4), self.some(RANGES, 4)],
            "status.loadBalancer.ingress": [
                [{"ip": it} for it in self.some(OUTSIDE, 2) + self.some(OUTSIDE6, 2)],
            ],
        }
        item = changes.made("Service", name, choices, rng)
        addresses = [rng.choice([CLUSTER[place]] * 4 + CLUSTER), rng.choice([CLUSTER6[place]] * 4 + CLUSTER6)]
        ports = [self.port(*it, place) for it in self.ports()]
        item["spec"] |= {"clusterIPs": rng.choice([addresses] * 3 + [addresses[::-1]]), "ports": ports}
        item["spec"] |= {"selector": {"of": name}} if self.has_pods else {}
        self.told(item)
        return item

    def ports(self):
        return self.rng.choice([PORTS[:1], PORTS[1:2], PORTS[1:3], [PORTS[1], PORTS[3]]])

    def port(self, name, number, node, place):
        proto = "UDP" if name == "dns" else "TCP"
        value = {"name": name} if name else {}
        value |= {"protocol": proto, "port": number, "targetPort": 8080}
        is_own = self.rng.random() < 0.8
        return value | ({"nodePort": node + (10 * place if is_own else 0)} if node else {})

    def told(self, item):
        """What may be asked of a Service."""
        spec = item["spec"]
        is_balanced = spec["type"] == "LoadBalancer"
        given = [it["ip"] for it in item["status"]["loadBalancer"]["ingress"] if is_balanced]
        for port in spec["ports"]:
            addresses = [*spec["clusterIPs"], *(spec.get("externalIPs") or []), *given]
            found = [(it, port["port"]) for it in addresses]
            if "nodePort" in port and spec["type"] != "ClusterIP":
                found += [(it, port["nodePort"]) for it in self.own]
            self.doors += [(*it, port["protocol"]) for it in found]

    # ---- endpoints

    def ends(self, name):
        return self.pods(name) if self.has_pods else [self.slice(name, six) for six in (False, True)]

    def addresses(self, name, is_six):
        """Addresses of endpoints: most are pods, some are doors, and some the node's own."""
        place = NAMES.index(name)
        own = [f"fd00:10:244:{place + 1}::{it:x}" if is_six else f"10.244.{place + 1}.{it}" for it in range(2, 12)]
        doors = CLUSTER6 + OUTSIDE6 if is_six else CLUSTER + OUTSIDE
        node = [it for it in self.own if (":" in it) == is_six]
        rng = self.rng
        odd = self.some(doors, 2) + node[:1] if rng.random() < 0.4 else []
        count = rng.choice([0, 1, 2, 3, 4, 5, 6, 6])
        return rng.sample(own, max(0, count - len(odd))) + odd

    def slice(self, name, is_six):
        rng, ports = self.rng, []
        for port, number, _ in PORTS:
            proto = "UDP" if port == "dns" else "TCP"
            ports.append({"name": port, "protocol": proto, "port": rng.choice([8080, number, number])})
        ends = [self.end(it) for it in self.addresses(name, is_six)[:MOST]]
        if rng.random() < 0.3:  # all have hints
            for it in ends:
                it["hints"] = {"forZones": [{"name": rng.choice(ZONES)}]}
        meta = {"labels": {changes.OF_SERVICE: name}}
        item = item_of("EndpointSlice", f"{name}-{'6' if is_six else '4'}", meta)
        return item | {"addressType": "IPv6" if is_six else "IPv4", "ports": ports, "endpoints": ends}

    def end(self, address):
        rng, end = self.rng, {"addresses": [address]}
        node = rng.choice(NODES)
        end |= {"nodeName": node} if node else {}
        if rng.random() < 0.4:
            changes.change(end, "conditions", changes.ENDPOINT, rng)
        if rng.random() < 0.1:
            changes.change(end, "hints", changes.ENDPOINT, rng)
        return end

    def pods(self, name):
        """Pods of a Service, of both families."""
        four, six = self.addresses(name, False), self.addresses(name, True)
        lines = []
        for number in range(max(len(four), len(six))):
            pod = changes.made("Pod", f"{name}-{number}", changes.POD, self.rng)
            ips = four[number : number + 1] + six[number : number + 1]
            pod["metadata"]["labels"] = {"of": name}
            pod["status"] |= {"podIP": ips[0], "podIPs": [{"ip": it} for it in ips]}
            pod["spec"]["nodeName"] = self.rng.choice(["n1", "n2"])
            lines.append(pod)
        return lines

    # ---- questions

    def questions(self, count):
        """Packets and explanations, of which many ask for doors."""
        lines = []
        for _ in range(count):
            value = self.packet()
            if self.rng.random() < 0.5:
                lines.append({"op": "packet"} | value | self.draws())
                value |= {"now": self.clock + self.rng.choice([0, 0, 0, 5, 6, 101])}
            lines.append({"op": "explain"} | value | self.draws())
        return lines

    def draws(self):
        rng = self.rng
        return rng.choice([{}, {"seed": rng.getrandbits(8)}, {"draws": [rng.getrandbits(31) for _ in range(6)]}])

    def packet(self):
        rng = self.rng
        self.clock += rng.choice([0, 0, 1, 5])
        doors = [it for it in self.doors if self.has_both or ":" not in it[0]]
        address, number, proto = rng.choice(doors or [(CLUSTER[0], 80, "TCP")])
        if rng.random() < 0.05:
            address, number = rng.choice([("10.99.0.1", 80), ("::1", 80), (address, 81)])
        is_six = ":" in address
        own = [it for it in self.own if (":" in it) == is_six]
        value = {"src": rng.choice((SOURCES6 if is_six else SOURCES) + own), "dst": address}
        value |= {"dport": number, "proto": proto, "now": self.clock}
        return value | ({"from": "node"} if rng.random() < 0.2 else {})


def item_of(kind, name, meta):
    version = "discovery.k8s.io/v1" if kind == "EndpointSlice" else "v1"
    return {"apiVersion": version, "kind": kind, "metadata": {"name": name} | meta}
