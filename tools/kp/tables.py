"""The tables that the program prints: rules, and the names of chains."""

import base64
import hashlib
from typing import NamedTuple

VERDICTS = frozenset(("RETURN", "ACCEPT", "DROP", "REJECT", "MARK", "DNAT", "MASQUERADE"))
# chains of a Service port, by how their names begin; those of endpoints begin with KUBE-SEP-
KINDS = {
    "KUBE-SVC-": "endpoints of the cluster",
    "KUBE-SVL-": "endpoints of this node",
    "KUBE-EXT-": "from outside the cluster",
    "KUBE-FW-": "by source ranges",
}
ENDPOINT = "KUBE-SEP-"


class Rule(NamedTuple):
    """A rule: the matches by their option, with "! " before a negated value, and the target with
    its options."""

    chain: str
    matches: dict
    target: str

    @staticmethod
    def read(line):
        """Reads a line `-A CHAIN ..`."""
        words = line.split(" ")
        matches, negated, option = {}, "", ""
        for word in words[2:]:
            if word == "!":
                negated = "! "
            elif word.startswith("-"):
                option = word
                matches[option], negated = negated, negated if option == "-m" else ""
            else:
                matches[option] += word
        return Rule(words[1], matches, matches.pop("-j"))


class PortKey(NamedTuple):
    """A Service port, as it is printed and as names of chains are made of it."""

    namespace: str
    name: str
    port: str  # its name, "" where it has none
    protocol: str

    def __str__(self):
        return f"{self._text()}/{self.protocol}"

    @property
    def service(self):
        return f"{self.namespace}/{self.name}"

    def _text(self):
        return f"{self.service}{':' + self.port if self.port else ''}"

    def chain(self, prefix, endpoint="", length=16):
        """The name of its chain of this prefix; `endpoint` is ADDRESS:PORT in one of KUBE-SEP-."""
        text = f"{self._text()}{self.protocol.lower()}{endpoint}"
        digest = hashlib.sha256(text.encode()).digest()
        return prefix + base64.b32encode(digest).decode()[:length]
