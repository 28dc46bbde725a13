"""Random scripts of every form of line. A third has faults in members, a third in bytes, and one of
forty has crowds of packets. The same seed makes the same script. Their objects are those of
../follow, a few of each kind."""

import json
import random
import sys
from pathlib import Path

sys.path.append(str(Path(__file__).resolve().parent.parent / "follow"))

import changes
from follow import doors_of

LENGTHS = [2, 5, 10, 20, 40]
# of every so many scripts one has a line of this many bytes, or of some more or less
LONG, MOST_BYTES = 500, 16_777_216
MORE = [-1, 0, 0, 1, 1, 2, 600_000]
# of every so many scripts one has packets in crowds of so many lines, which workers share
CROWDED, CROWD, CROWDS = 40, 1000, 2
# a Service that others are beside, and its doors: a cluster's, an external and a load balancer's
SERVED = "s9"
DOORS = ["10.96.0.19", "203.0.113.5", "203.0.113.9"]
DOORS6 = ["fd00:10:96::13", "2001:db8::5", "2001:db8::9"]
QUESTION = b'{"op":"packet","src":"10.0.0.1","dst":"10.96.0.10","dport":80}'

# What a member is in place of what it should be, or beside it: bounds and what is past them.
NUMBERS = [0, 1, -1, 53, 65535, 65536, 2**31 - 1, 2**31, 2**32, 2**63, 2**64 - 1, 2**64, 10**300]
NUMBERS += [80.0, 1.5, -0.0, 1e308, 5e-324]
NAMES = ["", " ", "a", "A", "a" * 63, "a" * 64, "a" * 253, "a" * 254, "-a", "a-", "a.b", "a..b"]
NAMES += ["s0", "s1", "n1", "main", "default", "\u00e4", "\0", "\U0001f600", 'a"b', "a\\b", "a/b"]
ADDRESSES = ["0.0.0.0", "255.255.255.255", "10.0.0.256", "010.0.0.1", "10.0.0", "10.0.0.1 "]
ADDRESSES += ["10.96.0.10", "10.244.0.2", "127.0.0.1", "::", "::1", "1::2::3", "fe80::1%eth0"]
ADDRESSES += ["::ffff:192.0.2.1", "1:2:3:4:5:6:7::", "2001:DB8:0:0:1:0:0:1", "None", "none"]
RANGES = ["0.0.0.0/0", "10.0.0.0/8", "10.0.0.1/8", "10.0.0.0/33", "10.0.0.0/08", "::/0", "::1/128"]
RANGES += ["::/129", "10.0.0.0/", "/8", "10.0.0.0/-1", "10.0.0.0/8,::/0", "::/0,10.0.0.0/8"]
RANGES += ["10.0.0.0/8,", "10.0.0.0/8, ::/0", "10.0.0.0/8,10.0.0.0/8", "::/0,::/0", "::/0,,::/0"]
WORDS = ["TCP", "UDP", "SCTP", "tcp", "Local", "Cluster", "ClientIP", "IPv4", "IPv6", "FQDN"]
WORDS += ["True", "Service", "EndpointSlice", "Pod", "Node", "List", "Secret", "v1", "ADDED"]
WORDS += ["DELETED", "BOOKMARK", "ERROR", "sync", "config", "event", "packet", "explain", "show"]
WORDS += ["nat6", "filter6", "batch6", "nat"]
OTHERS = [None, True, False, [], {}, [None], [[]], [{}], {"": {}}, ["a", 1], {"a": None}]
VALUES = [NUMBERS, NAMES, ADDRESSES, RANGES, WORDS, OTHERS]

# Ways in which a value is written, for each the one with other characters and that with escapes.
SEPARATORS = [(",", ":"), (", ", ": "), (" ,\t", " : ")]
ENCODERS = [
    [json.JSONEncoder(separators=them, ensure_ascii=it).encode for it in (False, True)]
    for them in SEPARATORS
]

SHOWN = ["slices", "endpoints", "nat", "filter", "batch", "nat6", "filter6", "batch6"]

# What bytes are put in: parts of lines and of characters, and numbers at their ends.
BYTES = [b"\n", b"\r", b"\r\n", b"\n\n", b"\0", b" ", b"\t", b"\x0b", b"\x7f", b"\x80", b"\xff"]
BYTES += [b"\xc0\x80", b"\xc3\xa4", b"\xed\xa0\x80", b"\xf4\x8f\xbf\xbf", b"\xf4\x90\x80\x80"]
BYTES += [b"\xef\xbb\xbf", b"\\u0000", b"\\ud83d\\ude00", b"\\ud800", b"\\udc00", b"\\u12", b"\\x"]
BYTES += [b'"', b"\\", b"/", b"{", b"}", b"[", b"]", b":", b",", b"{}", b"[]", b'""', b"-", b"+"]
BYTES += [b"0", b"00", b"1", b".", b".0", b"e", b"E+1", b"-0", b"1e308", b"1e309", b"1e-400"]
BYTES += [b"9" * 19, b"9" * 20, b"9" * 309, b"null", b"true", b"fals", b"NaN", b"Infinity", b"//"]
BYTES += [b'{"op":"sync"}\n', b'\n{"op":"sync"}\n', b'"op":"sync",', b'"by":"main",', b'"":0,']
BYTES += [b"[" * 126, b"]" * 126, b'{"":' * 126, b"[" * 127 + b"]" * 127 + b"\n"]
BYTES += [b'{"a":' + b"[" * depth + b"]" * depth + b',"op":"sync"}\n' for depth in (126, 127)]


def random_script(seed):
    """The bytes of a script."""
    rng = random.Random(f"fuzz {seed}")
    cluster = changes.Cluster(rng, rng.randint(1, 4), rng.random() < 0.6)
    values = [setting(cluster, rng)] if rng.random() < 0.9 else []
    streams = rng.choice([0, 0, 0, 2, 5, 70])
    steps = beginning(cluster) if rng.random() < 0.8 else []
    for step in steps + rng.choices(STEPS, k=rng.choice(LENGTHS)):
        more = step(cluster, rng)
        if streams:
            more = [of_stream(value, f"s{rng.randrange(streams)}") for value in more]
        values += more
    if seed % 3 == 1:
        values = [faulty(value, rng) if rng.random() < 0.4 else value for value in values]
    lines = [text_of(value, rng) for value in values]
    for _ in range(rng.choice([0, 0, 1, 4])):
        lines.insert(rng.randint(0, len(lines)), rng.choice([b"", b" \t", b"\r"]))
    if seed % LONG == 0:
        line = rng.choice([b'{"op":"sync"}', QUESTION, QUESTION, b""])
        lines.insert(rng.randint(0, len(lines)), line.ljust(MOST_BYTES + rng.choice(MORE)))
    if seed % CROWDED == 4:
        lines = crowded(lines, rng)
    data = b"\n".join(lines) + rng.choice([b"\n", b"\n", b""])
    return bytes_mutated(data, rng) if seed % 3 == 2 and len(data) < MOST_BYTES else data


def crowded(lines, rng):
    """The lines with many packets after some of them, and few other lines among these."""
    others = [*lines, b"", b'{"op":"packet","op":"sync"}', QUESTION, QUESTION[:-1]]
    others = [line for line in others if len(line) < 1000]
    packets = [line for line in others if line.startswith(b'{"op":"packet"')]
    for place in sorted(rng.choices(range(len(lines) + 1), k=CROWDS), reverse=True):
        crowd = rng.choices(packets, k=CROWD)
        for _ in range(rng.choice([0, 0, 1, 5])):
            crowd[rng.randrange(CROWD)] = rng.choice(others)
        lines = [*lines[:place], *crowd, *lines[place:]]
    return lines


def of_stream(value, name):
    return {"by": name} | value if isinstance(value, dict) else value


def text_of(value, rng):
    """A value as a line, in one of the ways in which it may be written."""
    if isinstance(value, dict) and rng.random() < 0.2:
        value = dict(rng.sample(list(value.items()), len(value)))
    text = ENCODERS[rng.randrange(3)][rng.random() < 0.5](value)
    return rng.choice([b"", b"", b"", b" "]) + text.encode() + rng.choice([b"", b"", b"\r"])


# ---- lines


def setting(cluster, rng):
    lengths = [16, 16, 16, 0, 1, 2]
    value = cluster.setting(rng.choice(lengths))
    value |= {"recentSize": rng.randint(1, 2)} if rng.random() < 0.3 else {}
    value |= {"maxEvents": rng.randint(1, 30)} if rng.random() < 0.2 else {}
    return value


def beginning(cluster):
    """The steps to some Services with endpoints and a sync."""
    ends = changes.made_pod if cluster.controller else changes.more_endpoints
    count = len(cluster.names)
    return [changes.made_service] * count * 2 + [ends] * count * 4 + [served, sync]


def served(cluster, rng):
    """A Service that has ready endpoints in both families, with all kinds of doors."""
    service = changes.made("Service", SERVED, changes.service_choices(SERVED), rng)
    service["spec"] |= {
        "type": "LoadBalancer",
        "clusterIPs": [DOORS[0], DOORS6[0]],
        "externalIPs": [DOORS[1], DOORS6[1]],
        "ports": [
            {"name": "http", "port": 80, "protocol": "TCP", "nodePort": 30090},
            {"name": "dns", "port": 53, "protocol": "UDP", "nodePort": 30091},
        ],
    }
    service["status"] = {"loadBalancer": {"ingress": [{"ip": DOORS[2]}, {"ip": DOORS6[2]}]}}
    service["spec"].pop("ipFamilies", None)
    service["spec"].pop("selector", None)
    items = [service]
    for name, first in ((f"{SERVED}-x", "10.244.4."), (f"{SERVED}-v", "fd00:10:244:4::")):
        item = changes.made("EndpointSlice", name, changes.slice_choices(name), rng)
        item["metadata"]["labels"] = {changes.OF_SERVICE: SERVED}
        item |= {"addressType": "IPv6" if ":" in first else "IPv4"}
        item |= {"ports": [{"name": "http", "port": 8080}, {"name": "dns", "port": 53, "protocol": "UDP"}]}
        ends = rng.sample(range(2, 9), rng.choice([1, 2, 3, 4, 6]))
        nodes = changes.NODES[:2]
        item["endpoints"] = [
            {"addresses": [f"{first}{end}"], "nodeName": rng.choice(nodes)} for end in ends
        ]
        items.append(item)
    return cluster.put(*items)


def change(cluster, rng):
    return rng.choice(cluster.changes)(cluster, rng)


def new_object(cluster, rng):
    made = changes.made_pod if cluster.controller else changes.more_endpoints
    return rng.choice([changes.made_service, made])(cluster, rng)


def all_objects(cluster, rng):
    """A list as kubectl prints it, of all objects or of those of a kind."""
    kind = rng.choice([None, "Service", "EndpointSlice", "Pod", "Node"])
    items = [it for it in cluster.objects.values() if kind in (None, it["kind"])]
    return [{"apiVersion": "v1", "kind": "List", "items": items}]


def wrapped_event(cluster, rng):
    """Events that a command brings."""
    return [{"op": "event", "event": it} for it in change(cluster, rng) if "op" not in it]


def sync(cluster, rng):
    return [{"op": "sync"}]


def show(cluster, rng):
    return [{"op": "show", "what": rng.choice(SHOWN)}]


def packet(cluster, rng):
    """A packet, or what would become of it; mostly to a door that is there."""
    config = {"nodeAddresses": ["10.0.0.1", "10.0.0.2", "fd00::1", "::1"]}
    own = cluster.named("Service", SERVED) if rng.random() < 0.5 else []
    items = own or cluster.objects.values()
    doors = [door for item in items for door in doors_of(item, config)]
    address, port, proto = rng.choice(doors or [("10.96.0.10", 80, "TCP")])
    sources = changes.SOURCES6 if ":" in address else changes.SOURCES
    value = {"op": rng.choice(["packet", "packet", "explain"]), "src": rng.choice(sources)}
    value |= {"dst": address, "dport": port, "proto": proto}
    value |= {"from": rng.choice(["node", "wire"])} if rng.random() < 0.3 else {}
    value |= {"sport": rng.choice([0, 40000, 40001, 65535])} if rng.random() < 0.7 else {}
    value |= {"now": rng.choice([rng.randint(0, 300), 2**64 - 1])} if rng.random() < 0.7 else {}
    value |= {"seed": rng.getrandbits(rng.choice([1, 64]))} if rng.random() < 0.5 else {}
    if rng.random() < 0.7:
        value["draws"] = [rng.getrandbits(31) for _ in range(rng.choice([0, 1, 6, 6]))]
    value |= {"trail": True} if rng.random() < 0.3 else {}
    before = [{"op": "sync"}] * rng.choice([0, 0, 1])
    if value["op"] == "packet" and rng.random() < 0.5:
        before.append(value | {"op": "explain"})
    after = replies(cluster, value, rng) if own and rng.random() < 0.6 else []
    return before + [value] * rng.choice([1, 2, 2]) + after  # the second one may go by affinity


def replies(cluster, asked, rng):
    """What the endpoints of the Service that is served say to who asked it."""
    items = cluster.named("EndpointSlice", f"{SERVED}-{'v' if ':' in asked['src'] else 'x'}")
    ends = [end["addresses"][0] for item in items for end in item["endpoints"]]
    value = {"op": "packet", "sport": 53 if asked["proto"] == "UDP" else 8080, "dst": asked["src"]}
    value |= {"dport": asked.get("sport") or 1, "proto": asked["proto"], "now": asked.get("now", 0)}
    return [value | {"src": end} for end in rng.sample(ends, len(ends))]


def to_door(setting, rng):
    """A packet to where a door may be, mostly to one of the Service that is served."""
    six = setting.get("dualStack") is True and rng.random() < 0.4
    own = [it for it in setting.get("nodeAddresses") or [] if (":" in it) == six]
    own += ["::1" if six else "127.0.0.1"]
    served = DOORS6 if six else DOORS
    number = 10 + rng.randrange(4)
    others = [f"fd00:10:96::{number:x}" if six else f"10.96.0.{number}", served[1], served[2]]
    is_served = rng.random() < 0.6
    address, port = rng.choice(served[:3] if is_served else others), 80
    if rng.random() < 0.25:
        address, port = rng.choice(own), 30090 if is_served else 30000 + rng.randrange(60)
    elif not is_served:
        port = rng.choice(changes.PORT["port"])
    proto = "TCP" if is_served else rng.choice(changes.PORT["protocol"])
    pod = f"{'fd00:10:244:4::' if six else '10.244.4.'}{rng.randint(2, 8)}"
    sources = [*(changes.SOURCES6 if six else changes.SOURCES), pod, rng.choice(own)]
    value = {"op": "packet", "src": rng.choice(sources), "dst": address, "dport": port}
    value |= {"proto": proto, "from": rng.choice(["wire", "wire", "node"])}
    return value | {"draws": [rng.getrandbits(31) for _ in range(6)]}


def refused(cluster, rng):
    """A line that is refused, of each kind of fault but those of members."""
    services = cluster.some("Service")
    for service in services:
        service["spec"]["ports"] *= 2
    items = [*cluster.some("Node"), *services, {"kind": "List", "items": []}]
    question = {"op": "packet", "src": "10.0.0.1", "dst": "10.96.0.10", "dport": 80}
    values = [*services, {"op": "config"}, {"op": "flush"}, {"kind": "Secret"}, [1], "sync", None]
    values += [{}, {"op": "show"}, {"kind": "List", "items": items}, {"op": "event"}]
    values += [question | {"draws": [0] * 1001}, {"type": "ERROR", "object": {}}]
    return [rng.choice(values)]


STEPS = [new_object] * 4 + [served] + [change] * 5 + [all_objects, wrapped_event]
STEPS += [sync] * 4 + [packet] * 6 + [show] * 2 + [refused]


# ---- faults


def faulty(value, rng):
    """A copy of a value in which one member is another one, is lost, or stands elsewhere."""
    value = changes.copied(value)
    holders = list(holders_of(value))
    if not holders:
        return value
    holder = rng.choice(holders)
    key = rng.choice(list(holder) if isinstance(holder, dict) else range(len(holder)))
    how = rng.random()
    if how < 0.2:
        del holder[key]
    elif how < 0.7:
        holder[key] = rng.choice(rng.choice(VALUES))
    elif how < 0.8:
        other = rng.choice(holders)
        holder[key] = changes.copied(rng.choice([other, *members_of(other)]))
    elif isinstance(holder, dict):
        holder[rng.choice([*NAMES, *WORDS, key.upper()])] = holder.pop(key)
    else:
        holder += holder * rng.choice([1, 100])
    return value


def members_of(value):
    if isinstance(value, dict):
        return value.values()
    return value if isinstance(value, list) else ()


def holders_of(value):
    """All that has members in a value."""
    if members_of(value):
        yield value
    for member in members_of(value):
        yield from holders_of(member)


def bytes_mutated(data, rng):
    """The bytes with a few others, put in, lost, moved or changed."""
    data = bytearray(data)
    for _ in range(rng.choice([1, 1, 2, 5, 20])):
        place = rng.randint(0, len(data))
        end = min(len(data), place + rng.choice([1, 1, 2, 8, 100]))
        other = rng.randint(0, len(data))
        how = rng.randrange(6)
        if how == 0 and place < end:
            data[place] ^= 1 << rng.randrange(8)
        elif how == 1:
            data[place:place] = rng.choice(BYTES)
        elif how == 2:
            data[place : place + rng.randint(0, 3)] = rng.choice(BYTES)
        elif how == 3:
            del data[place:end]
        elif how == 4:
            data[other:other] = data[place:end]
        elif rng.random() < 0.1:
            del data[place:]
    return bytes(data)
