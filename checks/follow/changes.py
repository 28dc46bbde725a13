"""Random scripts of small changes to a cluster: to its Services, their families, ports and
policies, to endpoints in slices or pods, to zones of nodes, and to which of these there are. The
same seed makes the same script."""

import random
from functools import lru_cache

SOURCES = ["10.244.1.2", "10.244.2.3", "192.0.2.7", "198.51.100.7", "10.0.0.1"]
SOURCES6 = ["fd00:10:244:1::2", "fd00:10:244:2::3", "2001:db8:7::7", "2001:db9::7", "fd00::1"]
NODES = ["n1", "n2", "n3", "n4"]  # the first is the proxy's own
ZONES = ["a", "b", "c"]
ZONE = "topology.kubernetes.io/zone"
OF_SERVICE = "kubernetes.io/service-name"
MANAGER = "endpointslice.kubernetes.io/managed-by"
CONTROLLER = "endpointslice-controller.k8s.io"
# how many Services there are at most, and how long the hash in a chain's name is: names of two
# characters clash now and then
SIZES = [(60, 16), (60, 16), (20, 2), (32, 2)]
# what the names of slices of IPv6 end with
SIX = "vw"
# how many changes come before a sync
COUNTS = [0, 1, 1, 1, 1, 1, 2, 2, 3, 8]
HOLDERS = {dict, list}  # the types of values that have members

# What the members of an object may be. Of None there is no such member.
SERVICE = {
    "spec.type": ["ClusterIP", *["NodePort"] * 3, *["LoadBalancer"] * 4, "ExternalName"],
    "spec.internalTrafficPolicy": [None, None, "Cluster", "Cluster", "Local"],
    "spec.externalTrafficPolicy": [None, "Cluster", "Local", "Local"],
    "spec.ipFamilies": [*[None] * 3, ["IPv4"], ["IPv4", "IPv6"], ["IPv6", "IPv4"], ["IPv6"]],
    "spec.externalIPs": [None, ["203.0.113.5"], ["203.0.113.6", "203.0.113.5"], ["2001:db8::5"]],
    "spec.loadBalancerSourceRanges": [
        None,
        ["192.0.2.0/24"],
        ["192.0.2.0/24", "10.244.0.0/16"],
        ["2001:db8::/32", "0.0.0.0/0"],
        ["2001:db8::/32"],
    ],
    "spec.sessionAffinity": ["None", "ClientIP"],
    "spec.sessionAffinityConfig": [
        {"clientIP": {"timeoutSeconds": seconds}} for seconds in (5, 100, 10800)
    ],
    "spec.publishNotReadyAddresses": [None, False, True],
    "spec.trafficDistribution": [None, "PreferClose"],
    "status.loadBalancer.ingress": [
        None,
        [{"ip": "203.0.113.8"}],
        [{"ip": "203.0.113.9", "ipMode": "VIP"}, {"ip": "2001:db8::9"}, {"ip": "203.0.113.8"}],
        [{"ip": "203.0.113.9", "ipMode": "Proxy"}],
        [{"hostname": "web.example"}],
    ],
}
PORT = {
    "name": ["http", "https", "dns", "grpc"],
    "port": [53, 80, 443, 8443],
    "protocol": ["TCP", "TCP", "UDP", "SCTP"],
    "targetPort": [None, 8080, "http", "web"],
    "nodePort": [None, *range(30000, 30060)],
}
SLICE = {
    "addressType": ["IPv4"] * 12 + ["IPv6", "IPv6", "FQDN"],
    "ports": [
        [{"name": name, "port": 8080 + step} for name in PORT["name"][:count]]
        for step, count in [*[(0, 4)] * 6, (1, 4), (0, 2), (0, 0)]
    ],
}
ENDPOINT = {
    "nodeName": [None, *NODES],
    "zone": [None, *ZONES],
    "hints": [None, *({"forZones": [{"name": zone}]} for zone in ZONES)],
    "conditions": [
        *[None] * 4,
        *[{"ready": True}] * 4,
        {"ready": False},
        {"ready": False, "serving": True, "terminating": True},
        {"ready": False, "serving": False, "terminating": True},
    ],
}
POD = {
    "metadata.deletionTimestamp": [*[None] * 6, "2026-03-02T09:00:00Z"],
    "spec.nodeName": [*NODES, *NODES, "n9"],
    "spec.containers": [
        [{"name": "main", "ports": [{"name": name, "containerPort": number, "protocol": proto}]}]
        for name, number, proto in (("http", 8080, "TCP"), ("http", 90, "TCP"), ("web", 80, "UDP"))
    ],
    "status.phase": ["Running"] * 8 + ["Succeeded", "Pending"],
    "status.conditions": [[{"type": "Ready", "status": it}] for it in ["True"] * 4 + ["False"]],
}
NODE = {"metadata.labels": [{}, *({ZONE: zone} for zone in ZONES)]}


def random_script(seed, syncs):
    """A script of so many syncs, as values. Of every other seed endpoints come from pods."""
    rng = random.Random(f"follow {seed}")
    services, length = SIZES[seed % len(SIZES)]
    cluster = Cluster(rng, services, seed % 2 == 1)
    lines = [cluster.setting(length)]
    for name in NODES:
        lines += cluster.put(made("Node", name, NODE, rng))
    for _ in range(services):
        lines += made_service(cluster, rng)
    for _ in range(services * 5):
        lines += (made_pod if cluster.controller else more_endpoints)(cluster, rng)
    for sync in range(syncs):
        for _ in range(rng.choice(COUNTS) if sync else 0):
            lines += rng.choice(cluster.changes)(cluster, rng)
        lines.append({"op": "sync"})
        lines += [{"op": "show", "what": "slices"}] * (rng.random() < 0.05)
    return lines


class Cluster:
    """The objects that there are, which change a little at a time."""

    def __init__(self, rng, services, controller):
        self.rng, self.controller = rng, controller
        self.names = [f"s{i}" for i in range(services)]
        self.changes = EVERYWHERE + (OF_PODS if controller else OF_SLICES)
        self.objects = {}

    def setting(self, length):
        addresses = ["10.0.0.1", "10.0.0.2", "fd00::1", "fd00::2"]
        setting = {"op": "config", "node": NODES[0], "nodeAddresses": addresses}
        setting |= {"dualStack": True} if self.rng.random() < 0.6 else {}
        ranges = ["10.244.0.0/16", "10.244.0.0/16,fd00:10:244::/48", "fd00:10:244::/48"]
        setting |= {"clusterCIDR": self.rng.choice(ranges)} if self.rng.random() < 0.8 else {}
        setting |= {"masqueradeAll": True} if self.rng.random() < 0.2 else {}
        setting |= {"maxEndpointsPerSlice": self.rng.choice([2, 3, 100]), "nameLength": length}
        return setting | {"controller": self.controller}

    def put(self, *items):
        """A line for each object, that it is so. Objects that are put aren't changed any more."""
        return [self.put_line(item) for item in items]

    def put_line(self, item):
        self.objects[item["kind"], item["metadata"]["name"]] = item
        watched = {"type": self.rng.choice(["ADDED", "MODIFIED"]), "object": item}
        listed = {"apiVersion": "v1", "kind": "List", "items": [item]}
        forms = [item, item, watched, watched, listed, {"op": "event", "event": item}]
        return self.rng.choice(forms)

    def drop(self, *items):
        """A line for each object, that it is gone."""
        for item in items:
            self.objects.pop((item["kind"], item["metadata"]["name"]), None)
        return [{"type": "DELETED", "object": copied(item)} for item in items]

    def named(self, kind, name):
        """A copy of the object of this name, in a list that is empty where there is none."""
        found = self.objects.get((kind, name))
        return [copied(found)] if found else []

    def some(self, kind, count=1):
        """Copies of so many of the objects of a kind, or of all where there are fewer."""
        items = [item for key, item in self.objects.items() if key[0] == kind]
        return copied(self.rng.sample(items, min(len(items), count)))


def made(kind, name, choices, rng):
    """An object with some values of its members."""
    version = "discovery.k8s.io/v1" if kind == "EndpointSlice" else "v1"
    item = {"apiVersion": version, "kind": kind, "metadata": {"name": name}}
    for path in choices:
        change(item, path, choices, rng)
    return item


def copied(value):
    """A copy of a value that has no other parts than those of JSON, which is quickly made: of most
    members nothing is to be copied."""
    kind = type(value)
    if kind is dict:
        return {name: copied(it) if type(it) in HOLDERS else it for name, it in value.items()}
    return [copied(it) for it in value] if kind is list else value


def change(item, path, choices, rng):
    """Gives the member of this path one of its values."""
    above, name = parts_of(path)
    for word in above:
        item = item.setdefault(word, {})
    item.pop(name, None)
    value = rng.choice(choices[path])
    if value is not None:
        item[name] = copied(value) if type(value) in HOLDERS else value


@lru_cache(maxsize=None)
def parts_of(path):
    *above, name = path.split(".")
    return above, name


def change_one(item, choices, rng):
    """Gives one of the members another value, or the one that it has."""
    change(item, rng.choice(list(choices)), choices, rng)


# ---- Services


def service_choices(name):
    """A Service has its own cluster addresses, mostly, and selects its own pods."""
    number = int(name[1:]) + 10
    own, six = f"10.96.0.{number}", f"fd00:10:96::{number:x}"
    return SERVICE | {
        "spec.clusterIP": [*[own] * 8, "None", "10.96.0.200", six],
        "spec.clusterIPs": [*[None] * 5, [], [own], [own, six], [six, own], [six], ["None"]],
        "spec.selector": [*[{"app": name}] * 4, {"app": name, "tier": "a"}, None],
    }


def made_service(cluster, rng):
    """A Service comes, or becomes another one."""
    name = rng.choice(cluster.names)
    service = made("Service", name, service_choices(name), rng)
    service["spec"]["ports"] = []
    for _ in range(rng.choice([1, 2, 3])):
        more_ports(service["spec"]["ports"], rng)
    return cluster.put(service)


def changed_service(cluster, rng):
    services = cluster.some("Service")
    for service in services:
        change_one(service, service_choices(service["metadata"]["name"]), rng)
    return cluster.put(*services)


def changed_ports(cluster, rng):
    """A port comes or goes, or is another one."""
    services = cluster.some("Service")
    for service in services:
        kind_of_change = rng.choice([more_ports, fewer_ports, change_port, change_port])
        kind_of_change(service["spec"]["ports"], rng)
    return cluster.put(*services)


def deleted_service(cluster, rng):
    return cluster.drop(*cluster.named("Service", rng.choice(cluster.names)))


def service_made_again(cluster, rng):
    """A Service goes and comes back, as it was or with a change."""
    services = cluster.some("Service")
    gone = cluster.drop(*services)
    for service in services if rng.random() < 0.5 else []:
        change_one(service, service_choices(service["metadata"]["name"]), rng)
    return gone + cluster.put(*services)


def swapped_addresses(cluster, rng):
    """Two Services have each other's cluster addresses."""
    services = cluster.some("Service", 2)
    for member in ("clusterIP", "clusterIPs"):
        addresses = [service["spec"].pop(member, None) for service in services]
        for service, address in zip(services, reversed(addresses)):
            service["spec"] |= {member: address} if address is not None else {}
    return cluster.put(*services)


def swapped_node_ports(cluster, rng):
    """Two ports, of one Service or of two, have each other's node port."""
    services = cluster.some("Service", rng.choice([1, 2]))
    ports = [port for service in services for port in service["spec"]["ports"]]
    ports = rng.sample(ports, min(len(ports), 2))
    numbers = [port.pop("nodePort", None) for port in ports]
    for port, number in zip(ports, reversed(numbers)):
        port |= {"nodePort": number} if number else {}
    return cluster.put(*services)


def more_ports(ports, rng):
    """One port more, where it can be told from the others."""
    port = {}
    for member in PORT:
        change(port, member, PORT, rng)
    if are_distinct([*ports, port]):
        ports.insert(rng.randint(0, len(ports)), port)


def fewer_ports(ports, rng):
    if len(ports) > 1:
        ports.pop(rng.randrange(len(ports)))


def change_port(ports, rng):
    """A port has another name, number, protocol, target or node port, where it stays distinct."""
    place = rng.randrange(len(ports))
    port = dict(ports[place])
    change_one(port, PORT, rng)
    if are_distinct([*ports[:place], *ports[place + 1 :], port]):
        ports[place] = port


def are_distinct(ports):
    names = {port["name"] for port in ports}
    return len(ports) == len(names) == len({(port["port"], port["protocol"]) for port in ports})


# ---- slices


def slice_choices(name):
    """A slice is mostly of the Service that it is named after, and of the family of its name."""
    own = name.partition("-")[0]
    labels = [{OF_SERVICE: "s0"}, {OF_SERVICE: own, MANAGER: CONTROLLER}]
    choices = SLICE | {"metadata.labels": [{OF_SERVICE: own}] * 8 + labels}
    return choices | {"addressType": ["IPv6"] * 12 + ["IPv4"]} if name[-1] in SIX else choices


def slice_name(cluster, rng):
    return f"{rng.choice(cluster.names)}-{rng.choice('xxy' + SIX)}"


def more_endpoints(cluster, rng):
    """An endpoint comes to a slice that was there or is new."""
    name = slice_name(cluster, rng)
    found = cluster.named("EndpointSlice", name)
    slices = found or [made("EndpointSlice", name, slice_choices(name), rng) | {"endpoints": []}]
    slices[0]["endpoints"].append(endpoint(name, rng))
    return cluster.put(*slices)


def endpoint(name, rng):
    """One of a few addresses for each Service, some of which it has in common with others; now and
    then one of the family that its slice isn't of."""
    network, number = int(name[1:-2]) // 2, rng.randint(2, 6)
    four, six = f"10.244.{network}.{number}", f"fd00:10:244:{network:x}::{number}"
    own, other = (six, four) if name[-1] in SIX else (four, six)
    made = {"addresses": [other if rng.random() < 0.1 else own]}
    for member in ENDPOINT:
        change(made, member, ENDPOINT, rng)
    return made


def changed_endpoint(cluster, rng):
    slices = cluster.some("EndpointSlice")
    for endpoints in [it["endpoints"] for it in slices if it["endpoints"]]:
        change_one(rng.choice(endpoints), ENDPOINT, rng)
    return cluster.put(*slices)


def changed_hints(cluster, rng):
    """All endpoints of a slice get hints for their own zones, or lose theirs."""
    slices = cluster.some("EndpointSlice")
    lost = rng.random() < 0.5
    for it in (it for found in slices for it in found["endpoints"]):
        it.pop("hints", None)
        it |= {} if lost else {"hints": {"forZones": [{"name": it.get("zone", "a")}]}}
    return cluster.put(*slices)


def fewer_endpoints(cluster, rng):
    slices = cluster.some("EndpointSlice")
    for endpoints in [it["endpoints"] for it in slices if it["endpoints"]]:
        endpoints.pop(rng.randrange(len(endpoints)))
    return cluster.put(*slices)


def moved_endpoint(cluster, rng):
    """An endpoint goes from a slice to another."""
    slices = cluster.some("EndpointSlice", 2)
    if len(slices) == 2 and slices[0]["endpoints"]:
        slices[1]["endpoints"].append(slices[0]["endpoints"].pop())
    return cluster.put(*slices)


def changed_slice(cluster, rng):
    slices = cluster.some("EndpointSlice")
    for it in slices:
        change_one(it, slice_choices(it["metadata"]["name"]), rng)
    return cluster.put(*slices)


def deleted_slice(cluster, rng):
    return cluster.drop(*cluster.named("EndpointSlice", slice_name(cluster, rng)))


# ---- pods and nodes


def pod_choices(cluster, name):
    """A pod is selected by one Service or by none, and has one of two addresses of each family."""
    number, names = int(name[1:]), cluster.names
    apps = [names[number % len(names)], names[number * 7 % len(names)]]
    labels = [{"app": app} | tier for app in apps for tier in ({}, {"tier": "a"})]
    place, parts = divmod(number, 100), (2, 2, 102)
    four = [f"10.244.{place[0]}.{place[1] + part}" for part in parts]
    six = [f"fd00:10:244:{place[0]:x}::{place[1] + part:x}" for part in parts]
    pairs = [[{"ip": first}, {"ip": other}] for first, other in zip(four, six)]
    lists = [*[None] * 3, [], [{}], *pairs, pairs[0][::-1], pairs[2][1:]]
    return POD | {
        "metadata.labels": labels,
        "status.podIP": [*four, six[0], None],
        "status.podIPs": lists,
    }


def pod_name(cluster, rng):
    return f"p{rng.randrange(5 * len(cluster.names))}"


def made_pod(cluster, rng):
    """A pod comes, or becomes another one."""
    name = pod_name(cluster, rng)
    return cluster.put(made("Pod", name, pod_choices(cluster, name), rng))


def changed_pod(cluster, rng):
    pods = cluster.some("Pod")
    for pod in pods:
        change_one(pod, pod_choices(cluster, pod["metadata"]["name"]), rng)
    return cluster.put(*pods)


def deleted_pod(cluster, rng):
    return cluster.drop(*cluster.named("Pod", pod_name(cluster, rng)))


def changed_node(cluster, rng):
    """A node is in another zone or in none, the own one more often; now and then it goes."""
    node = made("Node", rng.choice([NODES[0], rng.choice(NODES)]), NODE, rng)
    return cluster.drop(node) if rng.random() < 0.2 else cluster.put(node)


# ---- what leaves all as it was


def heartbeat(cluster, rng):
    """What is known already comes again, with another version."""
    items = cluster.some(rng.choice(["Service", "EndpointSlice", "Pod", "Node"]))
    for item in items:
        item["metadata"]["resourceVersion"] = str(rng.randrange(10**6))
    return cluster.put(*items)


def nothing(cluster, rng):
    """An object goes that isn't there; a bookmark."""
    gone = {"apiVersion": "v1", "kind": "Service", "metadata": {"name": "gone"}, "spec": {}}
    bookmark = {"type": "BOOKMARK", "object": {"kind": "Pod", "metadata": {"resourceVersion": "9"}}}
    return rng.choice([cluster.drop(gone), [bookmark]])


# the changes, the likelier ones more than once
EVERYWHERE = [
    *[changed_service] * 6,
    *[changed_ports] * 3,
    *[made_service] * 3,
    deleted_service,
    service_made_again,
    swapped_addresses,
    swapped_node_ports,
    *[changed_node] * 3,
    heartbeat,
    nothing,
]
OF_SLICES = [
    *[more_endpoints] * 5,
    *[fewer_endpoints] * 3,
    *[changed_endpoint] * 5,
    *[changed_hints] * 3,
    moved_endpoint,
    moved_endpoint,
    changed_slice,
    deleted_slice,
]
OF_PODS = [
    *[made_pod] * 5,
    *[changed_pod] * 8,
    *[deleted_pod] * 2,
    more_endpoints,
    more_endpoints,
    fewer_endpoints,
    changed_slice,
    deleted_slice,
]
