"""Connections that stay open while tables change: each packet and each reply goes where `kproxy track`
says.

Between the hosts of hosts.py a script is played of two Services whose endpoints go and come back. The
tables of its first sync are loaded, and the batch of each later one. A packet is sent by a socket that
stays open, and a reply by that of its endpoint. After a batch the UDP entries of endpoints that went
are deleted, as kube-proxy does it. What a kernel does otherwise is shown too (docs/KUBE-PROXY.md).

    held.py PROGRAM VARIANT
"""

import json
import os
import re
import subprocess
import sys

from hosts import ATTEMPTS, HOSTS, NODE, SECONDS, SERVED, SERVING, Hosts, endpoint_of, run

# by family: two who connect, and of each Service its addresses and its endpoints
PLACES = [
    {
        "pod": "10.244.1.30", "client": "192.0.2.7", "node": NODE[0],
        "web": ("10.96.0.20", "203.0.113.20", ["10.244.2.10", "10.244.2.11"]),
        "near": ("10.96.0.21", "203.0.113.21", ["10.244.1.10", "10.244.1.11"]),
    },
    {
        "pod": "fd00:10:244:1::30", "client": "2001:db8:7::7", "node": NODE[1],
        "web": ("fd00:10:96::20", "2001:db8:203::20", ["fd00:10:244:2::10", "fd00:10:244:2::11"]),
        "near": ("fd00:10:96::21", "2001:db8:203::21", ["fd00:10:244:1::10", "fd00:10:244:1::11"]),
    },
]  # fmt: skip
CLIENTS = [place[who] for place in PLACES for who in ("pod", "client")]
PORTS = [("TCP", 80, 8080), ("UDP", 53, 53)]
# from outside `web` is masqueraded and `near` isn't, since its policy is Local
NODE_PORTS = {"web": {"TCP": 30080, "UDP": 30053}, "near": {"TCP": 30090, "UDP": 30093}}
# which endpoints there are after each sync but the first, and which of them UDP has then
STEPS = [([0], 0), ([1], 1), ([0, 1], 1), ([0], 0)]
TO_UDP = re.compile(r"^-A .* -p udp .*-j DNAT --to-destination \[?(.+?)\]?:(\d+)$", re.M)
TIMEOUTS = {"udp_timeout": 30, "udp_timeout_stream": 120, "tcp_timeout_established": 432_000}

# What runs in a host: it does what each line asks for, and says what came of it. What is sent to a
# place that it serves it answers with the addresses that it sees.
AGENT = """
import json, socket, sys, threading, time
KINDS = {"TCP": socket.SOCK_STREAM, "UDP": socket.SOCK_DGRAM}
held, served = {}, {}
def made(proto, place):
    it = socket.socket(socket.AF_INET6 if ":" in place[0] else socket.AF_INET, KINDS[proto])
    it.setsockopt(socket.SOL_SOCKET, socket.SO_REUSEADDR, 1)
    it.bind(tuple(place))
    return it
def told(token, own, peer):
    return json.dumps([token, own[:2], peer[:2]]).encode() + b"\\n"
def answer(it, own, peer):
    while data := it.recv(256):
        for token in data.decode().split():
            it.sendall(told(token, own, peer))
def accept(listener):
    while True:
        it, peer = listener.accept()
        own = it.getsockname()
        served["TCP", *own[:2], *peer[:2]] = it
        threading.Thread(target=answer, args=(it, own, peer), daemon=True).start()
def answer_all(it):
    while True:
        data, peer = it.recvfrom(256)
        it.sendto(told(data.decode().strip(), it.getsockname(), peer), peer)
def serve(proto, place):
    it = made(proto, place)
    if proto == "TCP":
        it.listen(64)
    else:
        served[proto, *place] = it
    threading.Thread(target=accept if proto == "TCP" else answer_all, args=(it,), daemon=True).start()
def send(token, seconds, proto, source, target):
    key = proto, *source
    it = held.get(key) or made(proto, source)
    it.settimeout(seconds)
    if proto == "TCP" and key not in held:
        it.connect(tuple(target))
    held[key] = it
    data = f"{token}\\n".encode()
    it.sendall(data) if proto == "TCP" else it.sendto(data, tuple(target))
    return hear(token, seconds, proto, source)
def hear(token, seconds, proto, source):
    it, end = held[proto, *source], time.monotonic() + seconds
    while (left := end - time.monotonic()) > 0:
        it.settimeout(left)
        data, sender = it.recvfrom(1024)
        for said in map(json.loads, data.splitlines()):
            if said[0] == token:
                return [*said[1:], (sender or it.getpeername())[:2]]
    raise TimeoutError
def push(token, proto, source, target):
    data = told(token, source, target)
    if proto == "TCP":
        served[proto, *source, *target].sendall(data)
    else:
        served[proto, *source].sendto(data, tuple(target))
CALLS = {"serve": serve, "send": send, "hear": hear, "push": push}
for line in sys.stdin:
    call, *words = json.loads(line)
    try:
        said = CALLS[call](*words)
    except (TimeoutError, KeyError):
        said = "nothing"
    except ConnectionRefusedError:
        said = "rejected"
    print(json.dumps(said), flush=True)
"""


# ---- the script


def service(name):
    ports = [
        {"name": proto.lower(), "protocol": proto, "port": port, "targetPort": to}
        | {"nodePort": NODE_PORTS[name][proto]}
        for proto, port, to in PORTS
    ]
    spec = {"type": "LoadBalancer", "clusterIPs": [it[name][0] for it in PLACES], "ports": ports}
    spec["externalTrafficPolicy"] = "Local" if name == "near" else "Cluster"
    status = {"loadBalancer": {"ingress": [{"ip": it[name][1]} for it in PLACES]}}
    return {"apiVersion": "v1", "kind": "Service", "metadata": {"name": name}, "spec": spec, "status": status}


def slices(name, ends):
    for place, family in zip(PLACES, ("IPv4", "IPv6")):
        item = {"apiVersion": "discovery.k8s.io/v1", "kind": "EndpointSlice", "addressType": family}
        labels = {"kubernetes.io/service-name": name}
        item["metadata"] = {"name": f"{name}-{family.lower()}", "labels": labels}
        item["ports"] = [{"name": proto.lower(), "protocol": proto, "port": to} for proto, _, to in PORTS]
        node = "n1" if name == "near" else "n2"
        item["endpoints"] = [{"addresses": [place[name][2][it]], "nodeName": node} for it in ends]
        yield item


def flow(proto, source, target):
    value = {"op": "packet", "proto": proto, "src": source[0], "sport": source[1]}
    return value | {"dst": target[0], "dport": target[1]}


def opened(place, proto, port):
    """What clients send of a family and a protocol, each from a port of its own, and the Service."""
    doors = [("pod", "web", (place["web"][0], port))]
    for name in ("near", "web"):
        doors.append(("client", name, (place["node"], NODE_PORTS[name][proto])))
        doors.append(("client", name, (place[name][1], port)))
    for number, (who, name, door) in enumerate(doors, 40_000):
        yield flow(proto, (place[who], number), door), who == "client" and name == "web", name


def flows(held, is_last):
    """Each flow twice, and what endpoints reply where it isn't masqueraded."""
    for place in PLACES:
        for proto, port, to in PORTS:
            for sent, is_masked, name in opened(place, proto, port):
                yield from [sent, sent]
                # a kernel keeps what is left alone, so an endpoint that went replies at the end alone
                own = held if proto == "UDP" else 0
                others = [1 - own] if is_last and proto == "UDP" else []
                for it in [] if is_masked else [own, *others]:
                    yield flow(proto, (place[name][2][it], to), (sent["src"], sent["sport"]))


def script():
    setting = {"op": "config", "node": "n1", "nodeAddresses": NODE, "dualStack": True, "controller": False}
    yield setting | {"clusterCIDR": "10.244.0.0/16,fd00:10:244::/48"}
    yield {"op": "sync"}
    yield from map(service, ("web", "near"))
    for step, (ends, held) in enumerate(STEPS, 1):
        for name in ("web", "near"):
            yield from slices(name, ends)
        yield {"op": "sync"}
        yield from flows(held, step == len(STEPS))


# ---- what the program says of it


def said_of(program, mode, values):
    data = "".join(json.dumps(it) + "\n" for it in values)
    return run(program, mode, input=data, stdout=subprocess.PIPE).stdout


def shown(program, values, *tables):
    """What the program shows of tables after each sync."""
    shows = [{"op": "show", "what": it} for it in tables]
    asked = [[it, *shows] if it.get("op") == "sync" else [it] for it in values if it.get("op") != "packet"]
    text = said_of(program, "replay", sum(asked, []))
    return re.split(r"(?m)^sync \d+: .*\n", text)[1:]


class Node:
    """The node's tables and entries."""

    def __init__(self, hosts, variant, program, values):
        self.hosts, self.variant, self.standing = hosts, variant, set()
        self.whole = [shown(program, values, f"nat{it}", f"filter{it}") for it in ("", "6")]
        self.batches = [shown(program, values, f"batch{it}") for it in ("", "6")]

    def load(self, step):
        """Loads what a sync writes; the UDP endpoints that go by it."""
        for tool, whole, batches in zip(("iptables", "ip6tables"), self.whole, self.batches):
            words = [] if step == 0 else ["--noflush"]
            text = batches[step] if words else whole[step]
            run(*self.hosts.inside("node", f"{tool}-{self.variant}-restore", *words), input=text)
        before, self.standing = self.standing, {it for text in self.whole for it in TO_UDP.findall(text[step])}
        return before - self.standing

    def delete(self, *words):
        """Deletes UDP entries, of which there may be none."""
        words = self.hosts.inside("node", "conntrack", "-D", "-p", "udp", *words)
        subprocess.run(words, check=False, stdout=subprocess.DEVNULL, stderr=subprocess.DEVNULL)

    def clear(self, endpoints):
        """Deletes the UDP entries of endpoints."""
        for address, port in endpoints:
            family = "ipv6" if ":" in address else "ipv4"
            self.delete("-f", family, "--dst-nat", address, "--reply-port-src", port)

    def timeouts(self):
        names = [f"net.netfilter.nf_conntrack_{it}" for it in TIMEOUTS]
        words = self.hosts.inside("node", "sysctl", "-n", *names)
        return dict(zip(TIMEOUTS, map(int, run(*words, stdout=subprocess.PIPE).stdout.split())))


# ---- the connections


class Sockets:
    """An agent in each host, with the sockets that it holds."""

    def __init__(self, hosts):
        self.hosts, self.agents, self.token = hosts, {}, 0
        self.host_of = {address: host for host, addresses in HOSTS.items() for address in addresses}

    def open(self):
        for host in HOSTS:
            words = self.hosts.inside(host, sys.executable, "-c", AGENT)
            pipe = subprocess.PIPE
            self.agents[host] = subprocess.Popen(words, stdin=pipe, stdout=pipe, text=True)
            self.hosts.servers.append(self.agents[host])
        for address in (address for host in SERVING for address in HOSTS[host]):
            for proto, port in SERVED:
                self.ask(address, "serve", proto.upper(), [address, port])

    def ask(self, address, *words):
        agent = self.agents[self.host_of[address]]
        print(json.dumps(words), file=agent.stdin, flush=True)
        return json.loads(agent.stdout.readline())

    def sent(self, proto, source, target):
        """What an endpoint sees of a packet: itself and from where it comes; or what became of it."""
        self.token += 1
        return self.ask(source[0], "send", str(self.token), SECONDS, proto, source, target)

    def pushed(self, proto, source, target):
        """The same of what an endpoint sends, and from where its client sees it come."""
        self.token += 1
        self.ask(source[0], "push", str(self.token), proto, source, target)
        return self.ask(target[0], "hear", str(self.token), SECONDS, proto, target)

    def seen(self, value, attempts=ATTEMPTS):
        """What becomes of a flow, as answers write it."""
        source, target = ends_of(value)
        is_sent = value["src"] in CLIENTS
        for _ in range(attempts):
            said = (self.sent if is_sent else self.pushed)(value["proto"], source, target)
            if said != "nothing":
                break
        if isinstance(said, str):
            return said
        own, peer, sender = said
        if not is_sent:
            return "left alone" if sender == source else f"reply as {endpoint_of(*sender)}"
        return f"to {endpoint_of(*own)}" + ("" if peer == source else " masked")


def ends_of(value):
    return [value["src"], value["sport"]], [value["dst"], value["dport"]]


class Check:
    """Plays the script, and keeps what isn't so."""

    def __init__(self, program, values, node, sockets):
        self.values, self.node, self.sockets, self.faults = values, node, sockets, []
        found = re.findall(r"(?m)^packet (\d+) at \d+: (?:later )?(.*)$", said_of(program, "track", values))
        self.told = {int(number): text for number, text in found}

    def expect(self, what, wanted, seen):
        if seen != wanted:
            self.faults.append(f"{what}: told {wanted!r}, seen {seen!r}")

    def play(self):
        """The script, and between its lines what a kernel does otherwise."""
        step, udp = 0, {}
        early = flow("UDP", (PLACES[0]["pod"], 40_100), (PLACES[0]["web"][0], 53))
        for number, value in enumerate(self.values, 1):
            if value.get("op") == "sync":
                went = self.node.load(step)
                if step == 0:
                    self.expect("a flow before there are Services", "nothing", self.sockets.seen(early, 1))
                elif step == 1:
                    self.left_alone(early)
                elif step == 2:
                    self.kept(udp)
                self.node.clear(went)
                step += 1
            elif value.get("op") == "packet":
                self.expect(f"line {number}: {json.dumps(value)}", self.told[number], self.sockets.seen(value))
                if value["proto"] == "UDP" and value["src"] in CLIENTS:
                    udp[json.dumps(value)] = self.told[number]
        self.one_reply()
        self.expect("timeouts", TIMEOUTS, self.node.timeouts())

    def kept(self, udp):
        """Where nobody deletes its entry, UDP stays with an endpoint that went."""
        for value, told in udp.items():
            self.expect(f"before its entry is deleted: {value}", told, self.sockets.seen(json.loads(value)))

    def left_alone(self, early):
        """What was left alone stays so, until its entry is deleted."""
        self.expect("a flow that was left alone", "nothing", self.sockets.seen(early, 1))
        self.node.delete("--orig-dst", early["dst"])
        wanted = f"to {endpoint_of(PLACES[0]['web'][2][0], 53)}"
        self.expect("a flow whose entry was deleted", wanted, self.sockets.seen(early))

    def one_reply(self):
        """Of two connections that would have one reply, the second comes from another port."""
        source = [PLACES[0]["pod"], 40_101]
        first, second = (self.sockets.sent("UDP", source, [PLACES[0]["near"][it], 53]) for it in (0, 1))
        self.expect("the first of two with one reply", source, first[1])
        self.expect("both go to one endpoint", first[0], second[0])
        self.expect("the second has another port", True, second[1][1] != source[1])


def main(program, variant):
    values = list(script())
    hosts = Hosts(f"kproxy{os.getpid()}")
    try:
        hosts.open()
        sockets = Sockets(hosts)
        sockets.open()
        check = Check(program, values, Node(hosts, variant, program, values), sockets)
        check.play()
    finally:
        hosts.close()
    for fault in check.faults[:10]:
        print(f"checks: connections by {variant}, held open: {fault}")
    return int(bool(check.faults))


if __name__ == "__main__":
    sys.exit(main(*sys.argv[1:]))
