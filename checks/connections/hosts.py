"""Real connections through printed tables: a node whose tables they are, and hosts around it.

The node, each pod of this node, the pods of another node and the clients outside stand in network
namespaces of their own, each joined to the node alone, and have addresses of both families. Each packet that
was asked is sent as a connection or a datagram, and what became of it is compared with what was told.

    hosts.py LINES ANSWERS VARIANT TABLES TABLES6
"""
import ipaddress
import json
import os
import re
import socket
import subprocess
import sys
import time

NODE = ["192.168.1.11", "fd00:1::11"]
HOSTS = {
    "outside": ["198.51.100.7", "192.0.2.7", "2001:db8:7::7", "2001:db8:2::7"],
    "pod-10": ["10.244.1.10", "fd00:10:244:1::10"],
    "pod-11": ["10.244.1.11", "fd00:10:244:1::11"],
    "pod-30": ["10.244.1.30", "fd00:10:244:1::30"],
    "pods-of-n2": [
        "10.244.2.10", "10.244.2.11", "10.244.2.53",
        "fd00:10:244:2::10", "fd00:10:244:2::11", "fd00:10:244:2::53",
    ],
}
# where hosts send what is not for them; a masked source is one of these
GATEWAYS = ["169.254.1.1", "fd00:fe::1"]
SERVING = ["pod-10", "pod-11", "pods-of-n2"]
SERVED = [("tcp", 8080), ("udp", 53)]
# on the node there is something of its own at the node ports of loopback addresses
SERVED_BY_NODE = ["127.0.0.1", "::1"], [("tcp", 30080)]
TRIES = 64
# a connection is asked for again after one second
SECONDS = 2.5
# on a busy machine an answer may come late; what the tables do wrong, they do each time
ATTEMPTS = 3

# what a host runs: it answers each connection and datagram with the two addresses that it sees
SERVER = """
import socket, sys, threading
def told(own, peer):
    return f"{own[0]} {own[1]} {peer[0]}".encode()
def serve(address, proto, port):
    family = socket.AF_INET6 if ":" in address else socket.AF_INET
    if proto == "tcp":
        listener = socket.create_server((address, port), family=family, backlog=64)
        print("ready", flush=True)
        while True:
            it, peer = listener.accept()
            it.sendall(told(it.getsockname(), peer))
            it.close()
    it = socket.socket(family, socket.SOCK_DGRAM)
    it.bind((address, port))
    print("ready", flush=True)
    while True:
        _, peer = it.recvfrom(64)
        it.sendto(told(it.getsockname(), peer), peer)
for place in sys.argv[1:]:
    address, proto, port = place.split(",")
    threading.Thread(target=serve, args=(address, proto, int(port))).start()
"""

# what a client runs: one connection or datagram; it says what it saw
CLIENT = """
import socket, sys
source, target, proto, port, seconds = sys.argv[1:]
family = socket.AF_INET6 if ":" in source else socket.AF_INET
it = socket.socket(family, socket.SOCK_STREAM if proto == "tcp" else socket.SOCK_DGRAM)
it.settimeout(float(seconds))
it.bind((source, 0))
try:
    it.connect((target, int(port)))
    if proto == "udp":
        it.send(b"?")
    said = it.recv(256).decode()
    print("to " + said)
except ConnectionRefusedError:
    print("rejected")
except TimeoutError:
    print("dropped")
"""


def run(*words, **more):
    return subprocess.run(words, check=True, text=True, **more)


def single(address):
    """The range of an address alone."""
    return f"{address}/{ipaddress.ip_address(address).max_prefixlen}"


def endpoint_of(address, port):
    """An endpoint as answers write it."""
    return f"[{address}]:{port}" if ":" in address else f"{address}:{port}"


class Hosts:
    """The namespaces and the servers in them, until `close`."""

    def __init__(self, prefix):
        self.prefix = prefix
        self.servers = []
        self.made = []

    def name(self, host):
        return f"{self.prefix}-{host}"

    def inside(self, host, *words):
        return ("ip", "netns", "exec", self.name(host), *words)

    def make(self, host):
        run("ip", "netns", "add", self.name(host))
        self.made.append(host)
        # an address is used at once: no other host has it
        self.set(host, "net.ipv6.conf.all.accept_dad=0", "net.ipv6.conf.default.accept_dad=0")
        run(*self.inside(host, "ip", "link", "set", "lo", "up"))

    def set(self, host, *settings):
        run(*self.inside(host, "sysctl", "-qw", *settings))

    def open(self):
        self.make("node")
        for address in NODE:
            run(*self.inside("node", "ip", "address", "add", single(address), "dev", "lo"))
        self.set("node", "net.ipv4.ip_forward=1", "net.ipv6.conf.all.forwarding=1")
        self.set("node", "net.ipv4.conf.all.rp_filter=0", "net.ipv4.conf.default.rp_filter=0")
        # a kernel keeps rejections to one host back where there are many
        self.set("node", "net.ipv4.icmp_ratelimit=0", "net.ipv6.icmp.ratelimit=0")
        for number, (host, addresses) in enumerate(HOSTS.items()):
            self.join(host, addresses, f"to-host-{number}")
        for family in ("-4", "-6"):
            route = ("ip", family, "route", "add", "default", "dev", "to-host-0")
            run(*self.inside("node", *route))

    def join(self, host, addresses, link):
        """Makes a host with these addresses, joined to the node alone."""
        self.make(host)
        run("ip", "link", "add", link, "netns", self.name("node"), "type", "veth",
            "peer", "name", "eth0", "netns", self.name(host))
        run(*self.inside("node", "ip", "link", "set", link, "up"))
        run(*self.inside(host, "ip", "link", "set", "eth0", "up"))
        for address in addresses:
            run(*self.inside(host, "ip", "address", "add", single(address), "dev", "eth0"))
            run(*self.inside("node", "ip", "route", "add", single(address), "dev", link))
        for gateway in GATEWAYS:
            run(*self.inside("node", "ip", "address", "add", single(gateway), "dev", link))
            run(*self.inside(host, "ip", "route", "add", single(gateway), "dev", "eth0"))
            run(*self.inside(host, "ip", "route", "add", "default", "via", gateway, "dev", "eth0"))

    def serve(self, host, addresses, served):
        places = [f"{a},{proto},{port}" for a in addresses for proto, port in served]
        server = subprocess.Popen(self.inside(host, sys.executable, "-c", SERVER, *places),
                                  stdout=subprocess.PIPE, text=True)
        self.servers.append(server)
        for _ in places:
            server.stdout.readline()

    def send(self, packet):
        """What becomes of one packet."""
        host = "node" if packet.get("from") == "node" else next(
            it for it, addresses in HOSTS.items() if packet["src"] in addresses)
        proto = packet.get("proto", "TCP").lower()
        said = run(*self.inside(host, sys.executable, "-c", CLIENT, packet["src"], packet["dst"],
                                proto, str(packet["dport"]), str(SECONDS)),
                   stdout=subprocess.PIPE).stdout.strip()
        if not said.startswith("to "):
            return said
        _, address, port, peer = said.split()
        if (address, port) == (packet["dst"], str(packet["dport"])):
            return "left alone" if peer == packet["src"] else f"left alone, from {peer}"
        return f"to {endpoint_of(address, port)}" + ("" if peer == packet["src"] else " masked")

    def close(self):
        for server in self.servers:
            server.kill()
            server.wait()
        for host in self.made:
            subprocess.run(("ip", "netns", "delete", self.name(host)), check=False)


def asked(lines, answers):
    """The packets, each once, with all that was told of it."""
    told = dict(re.findall(r"(?m)^packet (\d+) at \d+: (.*)$", answers))
    packets = {}
    for number, line in enumerate(lines.splitlines(), 1):
        packet = json.loads(line)
        if packet.get("op") == "packet":
            packet.pop("draws", None)
            packets.setdefault(json.dumps(packet), set()).add(told[str(number)])
    return [(json.loads(packet), wanted) for packet, wanted in packets.items()]


def sent(hosts, packet, wanted):
    """What becomes of a packet, sent until all that was told was seen, or something else."""
    seen = set()
    for _ in range(TRIES if len(wanted) > 1 else 1):
        seen.add(hosts.send(packet))
        if seen >= wanted or seen - wanted:
            break
    return seen


def main():
    lines, answers, variant, *tables = sys.argv[1:]
    with open(lines, encoding="utf-8") as it, open(answers, encoding="utf-8") as other:
        packets = asked(it.read(), other.read())
    hosts = Hosts(f"kproxy{os.getpid()}")
    failed = 0
    try:
        hosts.open()
        for tool, text in zip(("iptables", "ip6tables"), tables):
            with open(text, encoding="utf-8") as it:
                run(*hosts.inside("node", f"{tool}-{variant}-restore"), stdin=it)
        for host in SERVING:
            hosts.serve(host, HOSTS[host], SERVED)
        hosts.serve("node", *SERVED_BY_NODE)
        for packet, wanted in packets:
            for _ in range(ATTEMPTS):
                seen = sent(hosts, packet, wanted)
                if seen == wanted:
                    break
                time.sleep(1)
            else:
                failed = 1
                print(f"checks: connections by {variant}: {json.dumps(packet)}: told "
                      f"{sorted(wanted)}, seen {sorted(seen)}")
    finally:
        hosts.close()
    return failed


if __name__ == "__main__":
    sys.exit(main())
