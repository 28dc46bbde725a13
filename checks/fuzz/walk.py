"""Where packets go by printed tables: rules of iptables as its manual has them, for the few forms
that are printed. A packet that meets a rule on recent sources goes nowhere that can be told."""

from functools import lru_cache
from ipaddress import ip_address, ip_network

MARK = 0x4000
MOST = 2**31 - 1  # a draw that isn't given

# there are few addresses and networks, and packets meet each of them often
address_of = lru_cache(maxsize=4096)(ip_address)
network_of = lru_cache(maxsize=4096)(ip_network)
LOOPBACK = {4: network_of("127.0.0.0/8"), 6: network_of("::1/128")}


class Unknown(Exception):
    """What recent sources are isn't known here."""


class Tables:
    """The tables of one family, of which each chain has its rules. Rules are read where a packet
    comes to them, since packets come to few."""

    def __init__(self, text):
        self.lines, self.read, table = {}, {}, ""
        for line in text.splitlines():
            if line.startswith("-A"):
                _, chain, rest = line.split(" ", 2)
                self.lines.setdefault((table, chain), []).append(rest)
            elif line.startswith("*"):
                table = line[1:]

    def rules(self, table, chain):
        """The rules of a chain."""
        key = table, chain
        if key not in self.read:
            self.read[key] = [rule_of(rest.split()) for rest in self.lines.get(key, [])]
        return self.read[key]


def rule_of(words):
    """A rule's tests from the left, each as its word, its value and whether it has to hold; its
    target and the options of that."""
    place = words.index("-j")
    tests, wanted, left = [], True, iter(words[:place])
    for word in left:
        if word == "!":
            wanted = False
            continue
        value = "" if word in FLAGS else next(left)
        if word in TESTS:
            tests.append((word, TESTS[word](value), wanted))
            wanted = True
    return tests, words[place + 1], words[place + 2 :]


# options that have no value, and those that test something, with what their value is read as
FLAGS = {"--rcheck", "--reap", "--set"}
TESTS = {
    "-s": network_of,
    "-d": network_of,
    "-p": str,
    "--dport": int,
    "--src-type": str,
    "--dst-type": str,
    "--mark": lambda value: int(value.partition("/")[0], 16),
    "--probability": lambda value: int(value.replace(".", "")),
    "--rcheck": str,
}


class Walk:
    """A packet on its way."""

    def __init__(self, tables, setting, packet):
        self.tables, self.draws = tables, packet.get("draws", [])
        self.source, self.target = address_of(packet["src"]), address_of(packet["dst"])
        self.proto, self.port = packet["proto"].lower(), packet["dport"]
        self.is_of_node = packet.get("from") == "node"
        self.own = [address_of(it) for it in setting.get("nodeAddresses") or []]
        self.mark = self.used = 0
        self.sent_to, self.masked = "", False

    def is_local(self, address):
        return address in self.own or address in LOOPBACK[address.version]

    def verdict(self):
        """What becomes of the packet, as it is printed."""
        for table, chain in self.hooks():
            ending = self.run(table, chain)
            if ending in ("DROP", "REJECT"):
                return "dropped" if ending == "DROP" else "rejected"
        if not self.sent_to:
            return "left alone"
        return f"to {self.sent_to}{' masked' if self.masked else ''}"

    def hooks(self):
        """The built-in chains, of which the later ones depend on where the packet is sent."""
        yield "nat", "OUTPUT" if self.is_of_node else "PREROUTING"
        if self.is_of_node:
            yield "filter", "OUTPUT"
        if self.is_local(self.target):
            yield "filter", "INPUT"
        elif not self.is_of_node:
            yield "filter", "FORWARD"
        if self.is_of_node or not self.is_local(self.target):
            yield "nat", "POSTROUTING"

    def run(self, table, chain):
        """What ends the way through a chain, or nothing where it comes to its end."""
        for tests, target, options in self.tables.rules(table, chain):
            if not self.meets(tests):
                continue
            if target == "MARK":
                mark = int(options[1], 16)
                self.mark = self.mark | mark if options[0] == "--or-mark" else self.mark ^ mark
            elif target == "RETURN":
                return ""
            elif target in ("ACCEPT", "DROP", "REJECT"):
                return target
            elif target == "DNAT":
                self.send_to(options[1])
                return target
            elif target == "MASQUERADE":
                self.masked = True
                return target
            else:
                ending = self.run(table, target)
                if ending:
                    return ending
        return ""

    def send_to(self, place):
        address, _, port = place.rpartition(":")
        self.sent_to = place
        self.target, self.port = address_of(address.strip("[]")), int(port)

    def meets(self, tests):
        """Whether all tests come out as they have to, which are tried from the left."""
        for word, value, wanted in tests:
            if self.holds(word, value) != wanted:
                return False
        return True

    def holds(self, word, value):
        """Whether what a test asks is so of the packet."""
        if word == "-s":
            return self.source in value
        if word == "-d":
            return self.target in value
        if word == "-p":
            return self.proto == value
        if word == "--dport":
            return self.port == value
        if word == "--src-type":
            return self.is_local(self.source)
        if word == "--dst-type":
            return self.is_local(self.target)
        if word == "--mark":
            return self.mark & MARK == value
        if word == "--probability":
            return self.drawn(value)
        raise Unknown

    def drawn(self, probability):
        draw = self.draws[self.used] if self.used < len(self.draws) else MOST
        self.used += 1
        return draw < (2**32 * probability + 10**10) // (2 * 10**10)
