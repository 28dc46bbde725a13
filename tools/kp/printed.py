"""The lines that the program prints, as docs/FORMAT.md has them: what each says, as a value of
JSON, and the line of such a value. A line that is of no form is `Unknown`."""

import json
import re
from functools import lru_cache

# what a line may say beside its form, where the lines that the program read are known
BESIDE = ("object", "question", "value")


class Unknown(Exception):
    """A line, or a value, that is of no form: why."""


# ---- the parts of lines

NUMBER = "(0|[1-9][0-9]{0,19})"
NAME = "[a-z0-9](?:[a-z0-9.-]{0,251}[a-z0-9])?"
PORT_NAME = "[a-z0-9-]{1,63}"
LABEL = "[A-Za-z0-9_.-]{1,63}"
PROTOCOL = "TCP|UDP|SCTP"
CHAIN = "[A-Za-z0-9-]{1,28}"
IPV4, IPV6 = r"[0-9]{1,3}(?:\.[0-9]{1,3}){3}", "[0-9a-f]{0,4}:[0-9a-f:]{1,38}"
HOST, ADDRESS = rf"{IPV4}|\[{IPV6}\]", f"{IPV4}|{IPV6}"
RANGE = f"(?:{ADDRESS})/[0-9]{{1,3}}"
PORT_KEY = f"({NAME})/({NAME})(?::({PORT_NAME}))?/({PROTOCOL})"
ANY_PORT_KEY = f"{NAME}/{NAME}(?::{PORT_NAME})?/(?:{PROTOCOL})"
KINDS_OF_DOORS = "cluster|external|balancer|node"
QUOTED = r'("(?:[^"\\\x00-\x1f]|\\.)*")'
MARK = "0x4000"

LETTERS = {"ready": "r", "serving": "s", "terminating": "t"}


def pattern(text):
    return re.compile(text, re.ASCII).fullmatch


is_endpoint = pattern(f"({HOST}):{NUMBER}")
is_port_key = pattern(PORT_KEY)
is_chain_key = pattern(f"{PORT_KEY}(?: ({HOST}):{NUMBER})?")


def known(found):
    """What a pattern finds in a text, which it has to match."""
    if found is None:
        raise Unknown("a part of it isn't in its form")
    return found


def unquoted(text):
    """The text of JSON text, as the program writes it."""
    try:
        value = json.loads(text)
    except ValueError:
        raise Unknown("its quotes hold no text of JSON") from None
    if quoted(value) != text:
        raise Unknown("its quotes hold a text that is written otherwise")
    return value


def quoted(text):
    return json.dumps(text, ensure_ascii=False)


def endpoint_of(host, port):
    return {"address": host.strip("[]"), "port": int(port)}


@lru_cache(maxsize=4096)
def endpoint_in(text):
    return endpoint_of(*known(is_endpoint(text)).groups())


def endpoint_text(value):
    address = value["address"]
    return f"[{address}]:{value['port']}" if ":" in address else f"{address}:{value['port']}"


def endpoints_of(text):
    return [endpoint_in(it) for it in text.split(", ")]


def endpoints_text(values):
    return ", ".join(map(endpoint_text, values))


def port_key_of(namespace, name, port, protocol):
    return {"namespace": namespace, "name": name, "port": port, "protocol": protocol}


def port_key_text(value):
    port = value["port"]
    name = f"{value['namespace']}/{value['name']}"
    return f"{name}{'' if port is None else ':' + port}/{value['protocol']}"


def text_or_dash(value):
    return "-" if value is None else value


def none_or_text(text):
    return None if text == "-" else text


# ---- refusals

# why a line is refused, by its words; those with a path, a kind or an op in quotes
PLAIN = {
    "bad json": "bad json",
    "not an event": "not an event",
    "config is not the first line": "config late",
    "longer than 16777216 bytes": "line too long",
    "more than 64 streams": "streams full",
}
AT_PATH = {
    "missing": "missing",
    "wrong type at": "wrong type",
    "out of range at": "out of range",
    "bad name at": "bad name",
    "bad address at": "bad address",
    "bad range at": "bad range",
    "duplicate port at": "duplicate port",
    "too many at": "too many",
}
OF_WORD = {
    ("kind", "is not supported"): "kind not supported",
    ("op", "is not known"): "op not known",
    ("op", "is not for live"): "op not for live",
}
TOO_MANY, FULL, CLASH = "too many", "journal full", "chain name clash"
PLAIN_WORDS = {why: words for words, why in PLAIN.items()}
PATH_WORDS = {why: words for words, why in AT_PATH.items()}
WORD_WORDS = {why: words for words, why in OF_WORD.items()}

is_at_path = pattern(f"({'|'.join(AT_PATH)}) {QUOTED}(?:: {NUMBER})?")
is_of_word = pattern(f"(kind|op) {QUOTED} (is not supported|is not known|is not for live)")
is_full = pattern(f"journal full at {NUMBER}")
is_clash = pattern(f"chain name ({CHAIN}) of (.+) and of (.+)")


def chain_key_of(text):
    *key, host, port = known(is_chain_key(text)).groups()
    return {**port_key_of(*key), "endpoint": endpoint_of(host, port) if host else None}


def chain_key_text(value):
    end = value["endpoint"]
    return port_key_text(value) + ("" if end is None else " " + endpoint_text(end))


def refusal_of(text):
    """Why a line, or a sync, is refused."""
    if text in PLAIN:
        return {"why": PLAIN[text]}
    if found := is_at_path(text):
        words, path, count = found.groups()
        why = AT_PATH[words]
        if (why == TOO_MANY) != (count is not None):
            raise Unknown("its count is missing, or none belongs there")
        said = {"why": why, "path": unquoted(path)}
        return said if count is None else {**said, "count": int(count)}
    if found := is_of_word(text):
        name, word, words = found.groups()
        if (name, words) not in OF_WORD:
            raise Unknown(f"no {name} is refused so")
        return {"why": OF_WORD[name, words], name: unquoted(word)}
    if found := is_full(text):
        return {"why": FULL, "count": int(found[1])}
    name, *keys = known(is_clash(text)).groups()
    return {"why": CLASH, "chain": name, "keys": [chain_key_of(it) for it in keys]}


def refusal_text(value):
    why = value["why"]
    if why in PLAIN_WORDS:
        return PLAIN_WORDS[why]
    if why in PATH_WORDS:
        count = f": {value['count']}" if why == TOO_MANY else ""
        return f"{PATH_WORDS[why]} {quoted(value['path'])}{count}"
    if why in WORD_WORDS:
        name, words = WORD_WORDS[why]
        return f"{name} {quoted(value[name])} {words}"
    if why == FULL:
        return f"journal full at {value['count']}"
    first, second = map(chain_key_text, value["keys"])
    return f"chain name {value['chain']} of {first} and of {second}"


# ---- answers


is_sent_to = pattern(f"to ({HOST}):{NUMBER}( masked)?")


@lru_cache(maxsize=4096)
def verdict_of(text):
    """What becomes of a packet. The value is shared: nobody changes it."""
    if text in ("rejected", "dropped", "left alone"):
        return {"verdict": text}
    return sent_of(text)


def sent_of(text):
    end = known(is_sent_to(text))
    return {"verdict": "to", "endpoint": endpoint_of(end[1], end[2]), "masked": bool(end[3])}


def verdict_text(value):
    return sent_text(value) if value["verdict"] == "to" else value["verdict"]


def sent_text(value):
    return f"to {endpoint_text(value['endpoint'])}{' masked' if value['masked'] else ''}"


# what is said where connections are kept
LATER, REPLY, UNTRACKED = "later ", "reply as ", " untracked"


@lru_cache(maxsize=4096)
def answer_of(text):
    """What becomes of a packet, or of which connection it is. The value is shared: nobody changes it."""
    if text.startswith(LATER):
        return {**sent_of(text[len(LATER) :]), "verdict": "later"}
    if text.startswith(REPLY):
        return {"verdict": "reply", "as": endpoint_in(text[len(REPLY) :])}
    if text.endswith(UNTRACKED):
        return {**sent_of(text[: -len(UNTRACKED)]), "untracked": True}
    return verdict_of(text)


def answer_text(value):
    if value["verdict"] == "later":
        return LATER + sent_text(value)
    if value["verdict"] == "reply":
        return REPLY + endpoint_text(value["as"])
    return verdict_text(value) + (UNTRACKED if value.get("untracked") is True else "")


SHUT = {
    "has no endpoints": "no endpoints",
    "has no local endpoints": "no local endpoints",
    "is closed to the source": "closed to the source",
}
SHUT_WORDS = {reason: words for words, reason in SHUT.items()}
CHOSEN, NO_DOOR = "chosen", "no door"
is_reason = pattern(
    f"door ({KINDS_OF_DOORS}) {PORT_KEY}"
    f"(?: ({'|'.join(SHUT)})"
    f"| list (cluster|local) size {NUMBER} by (affinity|draws) place {NUMBER})"
)


@lru_cache(maxsize=4096)
def reason_of(text):
    """Why a packet goes where it goes. The value is shared: nobody changes it."""
    if text == "no door decides":
        return {"reason": NO_DOOR}
    kind, *key, shut, of, size, by, place = known(is_reason(text)).groups()
    door = door_of(kind, *key)
    if shut:
        return {"reason": SHUT[shut], "door": door}
    chosen = {"list": of, "size": int(size), "by": by, "place": int(place)}
    return {"reason": CHOSEN, "door": door, **chosen}


def door_of(kind, *key):
    return {"kind": kind, **port_key_of(*key)}


def door_text(door):
    return f"door {door['kind']} {port_key_text(door)}"


def reason_text(value):
    reason = value["reason"]
    if reason == NO_DOOR:
        return "no door decides"
    if reason in SHUT_WORDS:
        return f"{door_text(value['door'])} {SHUT_WORDS[reason]}"
    chosen = f"size {value['size']} by {value['by']} place {value['place']}"
    return f"{door_text(value['door'])} list {value['list']} {chosen}"


is_answer = pattern(f"(packet|explain) {NUMBER} at {NUMBER}: (.+)")


def read_answer(line):
    form, number, sync, rest = known(is_answer(line)).groups()
    said = {"form": form, "line": int(number), "sync": int(sync)}
    if form == "packet":
        return {**said, **answer_of(rest)}
    verdict, _, reason = rest.partition("; ")
    return {**said, **verdict_of(verdict), **reason_of(reason)}


def packet_text(value):
    return f"packet {value['line']} at {value['sync']}: {answer_text(value)}"


def explain_text(value):
    said = f"explain {value['line']} at {value['sync']}: {verdict_text(value)}"
    return f"{said}; {reason_text(value)}"


is_trail = pattern(f"trail {NUMBER}: (none|{CHAIN}(?:,? {CHAIN})*)")


def read_trail(line):
    number, passes = known(is_trail(line)).groups()
    traversals = [] if passes == "none" else [it.split(" ") for it in passes.split(", ")]
    return {"form": "trail", "line": int(number), "traversals": traversals}


def trail_text(value):
    passes = ", ".join(map(" ".join, value["traversals"])) or "none"
    return f"trail {value['line']}: {passes}"


# ---- paths

CHANCE = r"[01]\.[0-9]{10}"
SENT = "sent to "
is_path = pattern(
    f"path {NUMBER} {NUMBER} of {NUMBER} chance ({CHANCE}): ([^;]+); ([^;]+)"
    f"(?:; {SENT}({HOST}):{NUMBER}; ([^;]+))?"
)


def read_path(line):
    found = known(is_path(line)).groups()
    number, path, count, chance, verdict, reason, host, port, chosen = found
    said = {"form": "path", "line": int(number), "path": int(path), "of": int(count)}
    said |= {"chance": chance, **verdict_of(verdict), **reason_of(reason)}
    if host is None:
        return said
    if said["verdict"] not in ("rejected", "dropped"):
        raise Unknown("what isn't refused has a second door")
    return {**said, "sent": {"endpoint": endpoint_of(host, port), **chosen_of(chosen)}}


def chosen_of(text):
    """By which door, and out of which list, a packet is sent."""
    said = dict(reason_of(text))
    if said.pop("reason") != CHOSEN:
        raise Unknown("a door that sends nowhere sends to an endpoint")
    return said


def path_text(value):
    head = f"path {value['line']} {value['path']} of {value['of']} chance {value['chance']}"
    said = f"{head}: {verdict_text(value)}; {reason_text(value)}"
    if sent := value.get("sent"):
        said += f"; {SENT}{endpoint_text(sent['endpoint'])}"
        said += f"; {reason_text({**sent, 'reason': CHOSEN})}"
    return said


WHY = "not ready|other node|terminating|other zone|not admitted|kept elsewhere"
is_aside = pattern(f"aside {NUMBER} {PORT_KEY}: ({HOST}):{NUMBER} ({WHY})")


def read_aside(line):
    number, *key, host, port, why = known(is_aside(line)).groups()
    said = {"form": "aside", "line": int(number), "servicePort": port_key_of(*key)}
    return {**said, "endpoint": endpoint_of(host, port), "why": why}


def aside_text(value):
    head = f"aside {value['line']} {port_key_text(value['servicePort'])}"
    return f"{head}: {endpoint_text(value['endpoint'])} {value['why']}"


WHENCE = "outside|cluster|node|cluster and node"
CAUSE = "no endpoints|not admitted|no local endpoints"
IN_RANGES = ", in ranges of "
COUNTED = ("open", "masked", "refused")
POSITIVE = "([1-9][0-9]{0,19})"
is_source = pattern(
    f"source {NUMBER} ({ADDRESS}), ({WHENCE})((?:{IN_RANGES}{ANY_PORT_KEY})*): (.+)"
)
is_served = pattern(
    f"open {NUMBER}(?:, masked {POSITIVE})?(?:, refused {POSITIVE})?; "
    f"door ({KINDS_OF_DOORS}) {PORT_KEY} list (cluster|local)"
)
is_turned_away = pattern(
    f"(rejected|dropped|left alone), ({CAUSE}); door ({KINDS_OF_DOORS}) {PORT_KEY}"
)


def read_source(line):
    number, address, whence, ranges, rest = known(is_source(line)).groups()
    said = {"form": "source", "line": int(number), "address": address, "whence": whence}
    ports = ranges.split(IN_RANGES)[1:]
    return {**said, "inRangesOf": list(map(port_key_in, ports)), **served_of(rest)}


def port_key_in(text):
    return port_key_of(*known(is_port_key(text)).groups())


def served_of(text):
    """What a kind of source gets at its door."""
    if found := is_turned_away(text):
        verdict, cause, kind, *key = found.groups()
        return {"verdict": verdict, "cause": cause, "door": door_of(kind, *key)}
    *counts, kind, namespace, name, port, protocol, of = known(is_served(text)).groups()
    said = {it: int(count or 0) for it, count in zip(COUNTED, counts)}
    return {**said, "door": door_of(kind, namespace, name, port, protocol), "list": of}


def served_text(value):
    door = door_text(value["door"])
    if "verdict" in value:
        return f"{value['verdict']}, {value['cause']}; {door}"
    counts = [f"{it} {value[it]}" for it in COUNTED if it == "open" or value[it]]
    return f"{', '.join(counts)}; {door} list {value['list']}"


def source_text(value):
    ports = "".join(IN_RANGES + port_key_text(it) for it in value["inRangesOf"])
    head = f"source {value['line']} {value['address']}, {value['whence']}{ports}"
    return f"{head}: {served_text(value)}"


# ---- syncs and records

COUNTS = f"events {NUMBER}, written {NUMBER}, removed {NUMBER}"
is_sync = pattern(f"sync {NUMBER}: (?:{COUNTS}|record {NUMBER})")
is_record = pattern(f"record {NUMBER}: {COUNTS}")


def counts_of(events, written, removed):
    return {"events": int(events), "written": int(written), "removed": int(removed)}


def counts_text(value):
    return f"events {value['events']}, written {value['written']}, removed {value['removed']}"


def read_sync(line):
    number, *counts, record = known(is_sync(line)).groups()
    if record is not None:
        return {"form": "syncOfLine", "line": int(number), "record": int(record)}
    return {"form": "sync", "sync": int(number), **counts_of(*counts)}


def read_record(line):
    number, *counts = known(is_record(line)).groups()
    return {"form": "record", "record": int(number), **counts_of(*counts)}


is_final = pattern(f"final: (?:record {NUMBER}|refused: (chain name .+))")


def read_final(line):
    record, clash = known(is_final(line)).groups()
    if record is not None:
        return {"form": "final", "record": int(record)}
    return {"form": "final", "refused": refusal_of(clash)}


def final_text(value):
    if "refused" in value:
        return f"final: refused: {refusal_text(value['refused'])}"
    return f"final: record {value['record']}"


is_refused = pattern(f"line {NUMBER}: refused: (.+)")


def read_refused(line):
    number, why = known(is_refused(line)).groups()
    return {"form": "refused", "line": int(number), **refusal_of(why)}


is_event = pattern(
    f"event {NUMBER}: ({PORT_NAME}) {NUMBER} (apply|delete) "
    f"(?:(Service|EndpointSlice|Pod) ({NAME})/|(Node) )({NAME})"
)


def read_event(line):
    found = known(is_event(line)).groups()
    place, stream, number, verb, kind, namespace, node, name = found
    said = {"form": "event", "event": int(place), "stream": stream, "number": int(number)}
    changed = {"kind": kind or node, "namespace": namespace, "name": name}
    return {**said, "verb": verb, **changed}


def event_text(value):
    space = "" if value["kind"] == "Node" else value["namespace"] + "/"
    place = f"event {value['event']}: {value['stream']} {value['number']} {value['verb']}"
    return f"{place} {value['kind']} {space}{value['name']}"


# the counts of a generated run, by their members
GENERATED = {
    "events": "events",
    "syncs": "syncs",
    "packets": "packets",
    "to": "to",
    "rejected": "rejected",
    "dropped": "dropped",
    "leftAlone": "left alone",
    "written": "written",
    "removed": "removed",
}
is_generated = pattern("gen: " + ", ".join(f"{it} {NUMBER}" for it in GENERATED.values()))


def read_generated(line):
    counts = map(int, known(is_generated(line)).groups())
    return {"form": "gen", **dict(zip(GENERATED, counts))}


def generated_text(value):
    return "gen: " + ", ".join(f"{words} {value[it]}" for it, words in GENERATED.items())


is_health = pattern(f"health ({NAME})/({NAME}) port {NUMBER}: (200|503) local {NUMBER}")


def read_health(line):
    namespace, name, port, status, local = known(is_health(line)).groups()
    said = {"form": "health", "namespace": namespace, "name": name, "port": int(port)}
    return {**said, "status": int(status), "local": int(local)}


def health_text(value):
    service = f"{value['namespace']}/{value['name']}"
    return f"health {service} port {value['port']}: {value['status']} local {value['local']}"


# ---- slices

SLICE_PORT = f"(?:{PORT_NAME})?:(?:[1-9][0-9]{{0,4}}|\\*)/(?:{PROTOCOL})"
is_slice = pattern(
    f"slice ({NAME})/({NAME}): (IPv4|IPv6|FQDN), (managed|own), service ({NAME}|-), "
    f"ports (-|{SLICE_PORT}(?:,{SLICE_PORT})*), endpoints {NUMBER}"
)


def slice_port_of(text):
    name, _, rest = text.partition(":")
    number, _, protocol = rest.partition("/")
    return {
        "name": name or None,
        "port": None if number == "*" else int(number),
        "protocol": protocol,
    }


def slice_port_text(value):
    number = "*" if value["port"] is None else value["port"]
    return f"{value['name'] or ''}:{number}/{value['protocol']}"


def read_slice(line):
    namespace, name, family, of, service, ports, count = known(is_slice(line)).groups()
    return {
        "form": "slice",
        "namespace": namespace,
        "name": name,
        "addressType": family,
        "managed": of == "managed",
        "service": none_or_text(service),
        "ports": [] if ports == "-" else list(map(slice_port_of, ports.split(","))),
        "endpoints": int(count),
    }


def slice_text(value):
    of = "managed" if value["managed"] else "own"
    service = text_or_dash(value["service"])
    ports = ",".join(map(slice_port_text, value["ports"])) or "-"
    head = f"slice {value['namespace']}/{value['name']}: {value['addressType']}, {of}"
    return f"{head}, service {service}, ports {ports}, endpoints {value['endpoints']}"


is_entry = pattern(
    f"endpoint ({NAME})/({NAME}) {NUMBER}: ({ADDRESS}|-) ([r-][s-][t-]) "
    f"node ({NAME}|-) zone ({LABEL}) hints ({LABEL}(?:,{LABEL})*)"
)


def read_entry(line):
    namespace, name, place, address, state, node, zone, hints = known(is_entry(line)).groups()
    return {
        "form": "endpoint",
        "namespace": namespace,
        "slice": name,
        "place": int(place),
        "address": none_or_text(address),
        **{said: letter != "-" for said, letter in zip(LETTERS, state)},
        "node": none_or_text(node),
        "zone": none_or_text(zone),
        "hints": [] if hints == "-" else hints.split(","),
    }


def entry_text(value):
    state = "".join(letter if value[said] else "-" for said, letter in LETTERS.items())
    head = f"endpoint {value['namespace']}/{value['slice']} {value['place']}"
    zone, hints = text_or_dash(value["zone"]), ",".join(value["hints"]) or "-"
    address, node = text_or_dash(value["address"]), text_or_dash(value["node"])
    return f"{head}: {address} {state} node {node} zone {zone} hints {hints}"


# ---- changes

NOW = ", now "
STATE = f"(open {NUMBER}|no local endpoints|no endpoints|closed|absent)"
is_state = pattern(STATE)
is_change = pattern(
    f"change {PORT_KEY} ({KINDS_OF_DOORS}) ({HOST}|\\*|\\[\\*\\]):{NUMBER}"
    f"(?: by ({CHAIN}))?: ([^;]+)(?:; (.+))?"
)
is_beside = pattern(f"{PORT_KEY} ({KINDS_OF_DOORS})")
# how many doors beside one are named, and how it is said how many more there are
NAMED = 3
is_more = pattern("([1-9][0-9]{0,19}) more beside")
is_policy = pattern("policy (Cluster|Local)")
is_affinity = pattern(f"affinity (?:none|{NUMBER})")
is_sources = pattern(f"sources (any|none|{RANGE}(?:, {RANGE})*)")
is_inside = pattern(f"inside open {NUMBER}")


def state_of(text):
    state, count = known(is_state(text)).groups()
    return {"state": "open", "endpoints": int(count)} if count else {"state": state}


def state_text(value):
    state = value["state"]
    return f"open {value['endpoints']}" if state == "open" else state


def sources_of(text):
    said = known(is_sources(text))[1]
    return None if said == "any" else [] if said == "none" else said.split(", ")


def sources_text(value):
    if value is None:
        return "sources any"
    return f"sources {', '.join(value) or 'none'}"


def affinity_of(text):
    seconds = known(is_affinity(text))[1]
    return None if seconds is None else int(seconds)


# what is told of a door beside its state and its endpoints, in the order of a line: how a value is
# read, and how it is written
VALUES = {
    "policy": (lambda text: known(is_policy(text))[1], lambda value: f"policy {value}"),
    "affinity": (
        affinity_of,
        lambda value: f"affinity {'none' if value is None else value}",
    ),
    "sources": (sources_of, sources_text),
}


def inside_of(text):
    return int(known(is_inside(text))[1])


def inside_text(value):
    return f"inside open {value}"


def of_both(read, text):
    """A value before and now, or now alone."""
    before, is_there, now = text.partition(NOW)
    return {"before": read(before), "now": read(now)} if is_there else {"now": read(before)}


def both_text(write, value):
    now = write(value["now"])
    return f"{write(value['before'])}{NOW}{now}" if "before" in value else now


def beside_of(text):
    *key, kind = known(is_beside(text)).groups()
    return door_of(kind, *key)


class Parts:
    """The parts of a line, which come in order and may be left out."""

    def __init__(self, text):
        self.parts = text.split("; ") if text else []
        self.at = 0

    def next(self, words):
        """The rest of the next part, where it begins with these words."""
        if self.at < len(self.parts) and self.parts[self.at].startswith(words):
            self.at += 1
            return self.parts[self.at - 1]
        return None

    def endpoints(self, words):
        part = self.next(words)
        return [] if part is None else endpoints_of(part[len(words) :])


def read_change(line):
    *key, kind, host, number, by, states, rest = known(is_change(line)).groups()
    parts = Parts(rest)
    before, _, now = states.partition(NOW)
    before = state_of(before)
    after = state_of(now) if now else None
    if after == before:
        raise Unknown("its states don't differ")
    said = {
        "form": "change",
        "door": {
            "kind": kind,
            **port_key_of(*key),
            "family": "IPv6" if host[0] == "[" else "IPv4",
            "address": None if "*" in host else host.strip("[]"),
            "number": int(number),
        },
        "by": by,
        "before": before,
        "now": after or before,
        "new": parts.endpoints("new "),
        "gone": parts.endpoints("gone "),
    }
    for name, (read, _) in VALUES.items():
        if part := parts.next(name + " "):
            said[name] = of_both(read, part)
    if part := parts.next("inside open "):
        said["inside"] = of_both(inside_of, part)
        said["inside"] |= {"new": parts.endpoints("inside new ")}
        said["inside"] |= {"gone": parts.endpoints("inside gone ")}
    said["beside"] = []
    while len(said["beside"]) < NAMED and (part := parts.next("beside ")):
        said["beside"].append(beside_of(part[len("beside ") :]))
    if len(said["beside"]) == NAMED and (part := parts.next("")):
        said["moreBeside"] = int(known(is_more(part))[1])
    if parts.at < len(parts.parts):
        raise Unknown("a part of it isn't in its form or its place")
    return said


def change_text(value):
    door = value["door"]
    host = "*" if door["address"] is None else door["address"]
    host = f"[{host}]" if door["family"] == "IPv6" else host
    by = "" if value["by"] is None else f" by {value['by']}"
    states = state_text(value["before"])
    if value["now"] != value["before"]:
        states += NOW + state_text(value["now"])
    parts = [f"{it} {endpoints_text(value[it])}" for it in ("new", "gone") if value[it]]
    parts += [both_text(write, value[it]) for it, (_, write) in VALUES.items() if it in value]
    if inside := value.get("inside"):
        parts.append(both_text(inside_text, inside))
        lists = [it for it in ("new", "gone") if inside[it]]
        parts += [f"inside {it} {endpoints_text(inside[it])}" for it in lists]
    parts += [f"beside {port_key_text(it)} {it['kind']}" for it in value["beside"]]
    parts += [f"{value[it]} more beside" for it in ("moreBeside",) if it in value]
    head = f"change {port_key_text(door)} {door['kind']} {host}:{door['number']}{by}: {states}"
    return "; ".join([head, *parts])


# ---- tables

WORDS_OF_TARGETS = ("RETURN", "ACCEPT", "DROP", "REJECT", "MASQUERADE")
is_table = pattern(r"\*(nat|filter)")
is_chain = pattern(rf":({CHAIN}) (ACCEPT|-) \[0:0\]")
is_removed = pattern(f"-X ({CHAIN})")
is_rule = pattern(f"-A ({CHAIN}) (.+)")
# what may come next in a rule: how it begins, its form, and the members that it is read as
MATCHES = (
    (("-s", "! -s"), f"(! )?-s ({RANGE})", lambda no, of: match_of("source", no, range=of)),
    (("-d", "! -d"), f"(! )?-d ({RANGE})", lambda no, of: match_of("destination", no, range=of)),
    (
        "-p",
        r"-p (tcp|udp|sctp)(?: -m \1 --dport ([1-9][0-9]{0,4}))?",
        lambda protocol, port: {"kind": "port", "protocol": protocol, "port": int(port)}
        if port
        else {"kind": "protocol", "protocol": protocol},
    ),
    (
        "-m addrtype",
        "-m addrtype --(src|dst)-type LOCAL",
        lambda of: {"kind": "source is local" if of == "src" else "destination is local"},
    ),
    ("-m mark", f"-m mark (! )?--mark {MARK}/{MARK}", lambda no: match_of("mark", no)),
    (
        "-m statistic",
        r"-m statistic --mode random --probability ([01]\.[0-9]{10})",
        lambda chance: {"kind": "statistic", "probability": chance},
    ),
    (
        "-m recent",
        f"-m recent --name ({CHAIN}) (?:--set|--rcheck --seconds {NUMBER} --reap)",
        lambda of, seconds: {"kind": "recent", "list": of, "seconds": int(seconds)}
        if seconds
        else {"kind": "recent set", "list": of},
    ),
)
MATCHES = [(start, re.compile(form + " ", re.ASCII).match, made) for start, form, made in MATCHES]


def match_of(kind, no, **members):
    return {"kind": kind, "not": bool(no), **members}


is_marked = pattern(f"-j MARK --(or|xor)-mark {MARK}")
is_sent = pattern(f"-j DNAT --to-destination ({HOST}):{NUMBER}")
is_jump = pattern(f"-j ({CHAIN})")


def target_of(text):
    if found := is_marked(text):
        return {"kind": "set mark" if found[1] == "or" else "flip mark"}
    if found := is_sent(text):
        return {"kind": "dnat", "endpoint": endpoint_of(*found.groups())}
    word = known(is_jump(text))[1]
    if word in WORDS_OF_TARGETS:
        return {"kind": word.lower()}
    return {"kind": "jump", "chain": word}


def target_text(value):
    target = value["kind"]
    if target == "jump":
        return f"-j {value['chain']}"
    if target == "dnat":
        return f"-j DNAT --to-destination {endpoint_text(value['endpoint'])}"
    if target.endswith(" mark"):
        return f"-j MARK --{'or' if target == 'set mark' else 'xor'}-mark {MARK}"
    return f"-j {target.upper()}"


def rule_of(text):
    """The matches and the target of a rule."""
    matches = []
    while not text.startswith("-j"):
        found = next((it for it in MATCHES if text.startswith(it[0])), None)
        match = known(found and found[1](text))
        matches.append(found[2](*match.groups()))
        text = text[match.end() :]
    return {"matches": matches, "target": target_of(text)}


def match_text(value):
    match, no = value["kind"], "! " if value.get("not") else ""
    if match in ("source", "destination"):
        return f"{no}-{match[0]} {value['range']}"
    if match == "port":
        return f"-p {value['protocol']} -m {value['protocol']} --dport {value['port']}"
    if match == "protocol":
        return f"-p {value['protocol']}"
    if match.endswith(" is local"):
        return f"-m addrtype --{'src' if match[0] == 's' else 'dst'}-type LOCAL"
    if match == "mark":
        return f"-m mark {no}--mark {MARK}/{MARK}"
    if match == "statistic":
        return f"-m statistic --mode random --probability {value['probability']}"
    if match == "recent":
        return f"-m recent --name {value['list']} --rcheck --seconds {value['seconds']} --reap"
    return f"-m recent --name {value['list']} --set"


def read_rule(line):
    chain, rest = known(is_rule(line)).groups()
    return {"form": "rule", "chain": chain, **rule_of(rest)}


def rule_text(value):
    words = [*map(match_text, value["matches"]), target_text(value["target"])]
    return " ".join(["-A", value["chain"], *words])


def read_chain(line):
    name, policy = known(is_chain(line)).groups()
    return {"form": "chain", "chain": name, "policy": none_or_text(policy)}


def chain_text(value):
    return f":{value['chain']} {text_or_dash(value['policy'])} [0:0]"


def read_removed(line):
    return {"form": "delete", "chain": known(is_removed(line))[1]}


def read_commit(line):
    known(line == "COMMIT" or None)
    return {"form": "commit"}


# ---- lines

READERS = {
    "packet": read_answer,
    "explain": read_answer,
    "trail": read_trail,
    "path": read_path,
    "aside": read_aside,
    "source": read_source,
    "sync": read_sync,
    "line": read_refused,
    "slice": read_slice,
    "endpoint": read_entry,
    "change": read_change,
    "health": read_health,
    "event": read_event,
    "record": read_record,
    "final:": read_final,
    "gen:": read_generated,
}
IN_TABLES = {"-A": read_rule, "-X": read_removed, "COMMIT": read_commit}
TEXTS = {
    "packet": packet_text,
    "explain": explain_text,
    "trail": trail_text,
    "path": path_text,
    "aside": aside_text,
    "source": source_text,
    "sync": lambda value: f"sync {value['sync']}: {counts_text(value)}",
    "syncOfLine": lambda value: f"sync {value['line']}: record {value['record']}",
    "refused": lambda value: f"line {value['line']}: refused: {refusal_text(value)}",
    "slice": slice_text,
    "endpoint": entry_text,
    "change": change_text,
    "health": health_text,
    "event": event_text,
    "record": lambda value: f"record {value['record']}: {counts_text(value)}",
    "final": final_text,
    "gen": generated_text,
    "table": lambda value: f"*{value['table']}",
    "chain": chain_text,
    "rule": rule_text,
    "delete": lambda value: f"-X {value['chain']}",
    "commit": lambda value: "COMMIT",
}


class Reader:
    """Reads the lines of a text from its beginning: a rule is of the table that began before it."""

    def __init__(self):
        self.table = None

    def read(self, line):
        """What a line says, without its line feed."""
        word = line.partition(" ")[0]
        read = READERS.get(word)
        if read is not None and self.table is None:
            return read(line)
        if word[:1] == "*" and self.table is None:
            self.table = known(is_table(line))[1]
            return {"form": "table", "table": self.table}
        read = IN_TABLES.get(word) or (read_chain if word[:1] == ":" else None)
        if read is None or self.table is None:
            raise Unknown("in a table no line begins so" if self.table else "no line begins so")
        said = read(line)
        said = {"form": said.pop("form"), "table": self.table, **said}
        if word == "COMMIT":
            self.table = None
        return said


def text_of(value):
    """The line of a value, without its line feed. What is no value of a line may give a text: a
    Reader tells, which gives the value again."""
    try:
        return TEXTS[value["form"]](value)
    except (KeyError, TypeError, ValueError, AttributeError, IndexError):
        raise Unknown("it has no members of a line") from None
