"""What an answer says, in words: verdicts, reasons and causes are the program's."""

from decimal import Decimal
from typing import NamedTuple

from .. import objects
from ..objects import Key
from ..state import some

VERDICTS = {
    "rejected": "rejected (connection refused)",
    "dropped": "dropped (times out)",
    "left alone": "left alone",
}
NUMBERS = "no one two three four five six seven eight nine ten".split()
POLICIES = {"cluster": "internalTrafficPolicy"}
OUTER_POLICY = "externalTrafficPolicy"


def chance_text(chance):
    """A chance of ten decimals as percents: with one decimal, or two digits of what is less."""
    part = Decimal(chance) * 100
    if part == 100:
        return "100 %"
    digits = 1 if part >= 1 or not part else 1 - part.adjusted()
    return f"{part:.{digits}f} %"


def key_of(door):
    """The Service of a door, or of a Service's port."""
    return Key("Service", door["namespace"], door["name"])


def service_text(door):
    port = f", port {door['port']}" if door["port"] else ""
    return f"Service {door['namespace']}/{door['name']}{port}"


def policy_of(door):
    return POLICIES.get(door["kind"], OUTER_POLICY)


class Words(NamedTuple):
    """How what is asked is called in an answer's sentences."""

    node: str  # that is asked: its name, or what stands for several
    source: str
    has_unready: bool = False  # whether an endpoint isn't ready, which may be one of the node

    def masked(self, is_masked):
        return f"an address of {self.node}" if is_masked else self.source

    def cause(self, cause, door):
        """Why a door sends nowhere."""
        if cause == "no endpoints":
            return f"no endpoint of {service_text(door)} is ready"
        if cause == "no local endpoints":
            there = f"on {self.node} is ready" if self.has_unready else f"is on {self.node}"
            return f"{policy_of(door)} is Local, and no endpoint {there}"
        if cause == "not admitted":
            return f"loadBalancerSourceRanges don't admit {self.source}"
        return f"the door of {service_text(door)} is {cause}"

    def refusal(self, said, own=None):
        """A path that leads to no endpoint. What its reason doesn't tell, the kind of source that
        asks does: why a door is closed to it, and which one lets it pass without endpoints."""
        verdict, cause, door = VERDICTS[said["verdict"]], said["reason"], said.get("door")
        if cause in UNTOLD and own and own.get("verdict") == said["verdict"]:
            cause, door = own["cause"], own["door"]
        if door is None:
            return f"{verdict}: no Service answers there"
        return f"{verdict}: {self.cause(cause, door)}"

    def why(self, why, door_kind):
        """Why an endpoint isn't sent to."""
        policy = POLICIES.get(door_kind, OUTER_POLICY)
        return {
            "terminating": "terminating, while others are ready",
            "other node": f"not on {self.node}, and {policy} is Local",
            "other zone": "hinted for other zones",
            "not admitted": f"loadBalancerSourceRanges don't admit {self.source}",
            "kept elsewhere": "affinity keeps the client elsewhere",
        }.get(why, why)


def words_for(answer, node=None):
    """The words of an answer, at its node or at several."""
    has_unready = any(it["why"] == "not ready" for it in answer.asides)
    return Words(node or answer.question.node, str(answer.question.source), has_unready)


UNTOLD = ("closed to the source", "no door")


# ---- sources


def own_source(state, answer):
    """The kind of source that the asked address is of, or None where that isn't told."""
    question = answer.question
    ports = [port for it in answer.sources for port in it["inRangesOf"]]
    within = [it for it in ports if admits(state, it, question.source)]
    where = whence_of(state, question)
    for it in answer.sources:
        is_within = all(port in within for port in it["inRangesOf"])
        is_all = all(port in it["inRangesOf"] for port in within)
        if it["whence"] == where and is_within and is_all:
            return it
    return None


def admits(state, port, address):
    ranges = objects.source_ranges(state.services.get(key_of(port)))
    return any(address in it for it in ranges)


def whence_of(state, question):
    """Where the asked address is; "" where its packets don't come as those of its kind do."""
    address = question.source
    of_node = address.is_loopback or address in state.addresses_of(question.node)
    if of_node != question.is_from_node:
        return ""
    of_cluster = any(address in it for it in state.ranges_of_pods())
    words = ["cluster"] * of_cluster + ["node"] * of_node
    return " and ".join(words) or "outside"


def others_of(answer):
    """The kinds of sources besides the asked one, together where they get the same."""
    found = {}
    for it in answer.sources:
        if it is not answer.own:
            found.setdefault(repr(served_of(it)), []).append(it)
    return list(found.values())


def served_of(source):
    """What a source gets, without who it is."""
    head = ("form", "line", "address", "whence", "inRangesOf")
    return {name: it for name, it in source.items() if name not in head}


def kinds_text(state, words, sources, version):
    """From where the sources of these kinds come."""
    return " and ".join(f"from {kind_text(state, words, it, version)}" for it in sources)


def kind_text(state, words, source, version):
    ranges = [it for it in state.ranges_of_pods() if it.version == version]
    pods = str(ranges[0]) if ranges else ""
    where = {
        "outside": f"outside {pods}" if pods else "elsewhere",
        "cluster": pods,
        "node": f"{words.node} itself",
        "cluster and node": f"{words.node} itself in {pods}",
    }[source["whence"]]
    if not source["inRangesOf"]:
        return where
    if source["whence"] != "outside":
        return f"{where} within source ranges"
    given = [it for port in source["inRangesOf"] for it in ranges_of(state, port, version)]
    outer = [it for it in given if not any(it.subnet_of(one) for one in ranges)]
    return f"{some(dict.fromkeys(map(str, outer or given)), 3)} ({where})"


def ranges_of(state, port, version):
    found = objects.source_ranges(state.services.get(key_of(port)))
    return [it for it in found if it.version == version]


def served_text(words, source, answer):
    """What a kind of source gets, beside what the asked one gets."""
    if "verdict" in source:
        if answer.own and served_of(answer.own) == served_of(source):
            return "the same"
        there = words._replace(source="them")
        return f"{VERDICTS[source['verdict']]}: {there.cause(source['cause'], source['door'])}"
    parts = [ends_text(words, source, answer) + seen_text(words, source)]
    if source["refused"]:
        parts.append(f"{source['refused']} more, where the filter refuses it")
    return "; ".join(parts)


def ends_text(words, source, answer):
    """How many endpoints, and whether they are those of the asked source."""
    count, first = source["open"], answer.paths[0]
    sent = first.get("sent") or first
    number = NUMBERS[count] if count < len(NUMBERS) else str(count)
    is_same = all(sent.get(it) == source[it] for it in ("door", "list"))
    if count and is_same and sent["size"] == count:
        return "the same endpoint" if count == 1 else f"the same {number}"
    where = f" on {words.node}" if source["list"] == "local" else ""
    return f"{number} endpoint{'' if count == 1 else 's'}{where}"


def seen_text(words, source):
    """Which address the endpoints see."""
    count, masked = source["open"], source["masked"]
    verb = "see" if count > 1 else "sees"
    if count == 0:
        return ""
    if masked == count:
        return f", which {verb} an address of {words.node}"
    if masked == 0:
        return f", which {verb} the client"
    return f", of which {masked} see{'s' if masked == 1 else ''} an address of {words.node}"
