"""Whether the worked inputs beside this file tell models that do one thing wrong: for each of them
one input at least has another text, and for the right one none has.

    broken.py PROGRAM
"""

import sys

from paths import HERE, lines_in, said_of

from behind import WHOLE, Behind, Model


def with_method(name, call):
    """A model of paths that does one thing in another way."""
    return type("Other", (Behind,), {name: call})


def changed(name, change):
    """A model whose answer to one question is changed."""
    right = getattr(Behind, name)
    return with_method(name, lambda self, *given: change(right(self, *given)))


def even_chances(self, count):
    for _ in range(count):
        yield f"{WHOLE // count // WHOLE}.{WHOLE // count % WHOLE:010}"


def last_left_out(self, number, packet, recent):
    found = list(Behind.lines(self, number, packet, recent))
    paths = [it for it in found if it.startswith("path ")]
    return [it for it in found if it != paths[-1] or len(paths) == 1]


def affinity_by_draws(self, packet, recent):
    sent = Behind.sent(self, packet, recent)
    if sent:
        sent.by = "draws"
    return sent


def first_that_fits(self, packet, sent):
    return next(self.by.fitting(packet), None) if packet.family in self.doors else None


def first_where_refused(self, packet, sent):
    return sent.door if sent else first_that_fits(self, packet, sent)


def taken_alone(self, packet, sent):
    return sent.door if sent else None


def drawn_apart(self, packet, door, sent):
    """Endpoints of the list that may be drawn are said to be kept elsewhere, too."""
    return [(it, self.why(it, door, packet.source)) for it in self.endpoints(door, packet.family)]


def admitted_first(self, end, door, source):
    return "not admitted" if not self.by.admits(door, source) else Behind.why(self, end, door, source)


def node_after_readiness(self, end, door, source):
    why = Behind.why(self, end, door, source)
    return "other node" if why == "not ready" and not self.record.is_local(end.state) else why


def asked_source_alone(self, packet):
    kind = self.kind(packet, packet.source)
    return [it for it in Behind.sources(self, packet) if f", {kind}: " in it]


def from_asked_origin(self, packet, address):
    asked = Behind.asked_from(self, packet, address)
    asked.is_of_node = packet.is_of_node
    return asked


def closed_for_all(self, door, address):
    right = Behind.cause(self, door, address)
    return "not admitted" if door.ranges is not None and right == "no local endpoints" else right


def local_before_admitted(self, door, address):
    right = Behind.cause(self, door, address)
    return "no local endpoints" if right == "not admitted" and not door.side.list else right


def without_node(self, packet, address):
    kind = Behind.kind(self, packet, address)
    return kind.replace("cluster and node", "cluster").replace("node", "outside", 1)


def without_ranges(self, packet, address):
    return Behind.kind(self, packet, address).split(", ")[0]


def masked_by_asked(self, door, asked, address):
    """Counts of masked ones that are those of packets from the wire."""
    return not self.node.is_own(address) and self.by.is_marked(door, asked)


def without_loopback(self, packet):
    return [it for it in Behind.asked_networks(self, packet) if not it.is_loopback]


def own_in_no_network(self, packet):
    found = Behind.asked_networks(self, packet)
    return [it for it in found if it.num_addresses > 1]


MODELS = {
    "has even chances": with_method("chances", even_chances),
    "leaves the last place out": with_method("lines", last_left_out),
    "has a path for each place beside affinity": with_method("sent", affinity_by_draws),
    "has the endpoints of the first door that fits": with_method("answering", first_that_fits),
    "has the first door that fits where none sends": with_method("answering", first_where_refused),
    "has no answering door where none sends": with_method("answering", taken_alone),
    "says where a refused packet was sent as if it weren't": changed("path", lambda it: it.split("; sent to ")[0]),
    "has asides that are reached": with_method("asides", drawn_apart),
    "has no asides": with_method("asides", lambda *_: []),
    "has asides in another order": changed("asides", lambda it: reversed(list(it))),
    "asks first whether a source is admitted": with_method("why", admitted_first),
    "asks for the node before readiness": with_method("why", node_after_readiness),
    "takes terminating ones for those of other zones": changed(
        "why", lambda it: "other zone" if it == "terminating" else it
    ),
    "has the source that asks alone": with_method("sources", asked_source_alone),
    "has sources from the origin that asks": with_method("asked_from", from_asked_origin),
    "closes a door to an admitted source": with_method("cause", closed_for_all),
    "asks for local endpoints before admission": with_method("cause", local_before_admitted),
    "has no kinds of the node": with_method("kind", without_node),
    "has no kinds by ranges": with_method("kind", without_ranges),
    "counts masked ones as if all came by the wire": with_method("is_masked", masked_by_asked),
    "counts no masked ones": with_method("is_masked", lambda *_: False),
    "has no bounds at loopback": with_method("asked_networks", without_loopback),
    "has no bounds at single addresses": with_method("asked_networks", own_in_no_network),
}


def is_told(program, behind):
    """Whether some input has another text."""
    model = type("Other", (Model,), {"behind": behind})
    for path in sorted(HERE.glob("*.jsonl")):
        wanted = path.with_suffix(".txt").read_text().splitlines()
        if said_of(program, lines_in(path), model) != wanted:
            return True
    return False


def main(program):
    """Tells the models that aren't told, and the right one where it is."""
    wrong = [f"a model that {name} isn't told" for name, it in MODELS.items() if not is_told(program, it)]
    if is_told(program, Behind):
        wrong.append("the model doesn't say the worked texts")
    for it in wrong:
        print(f"checks: paths: {it}")
    return int(bool(wrong))


if __name__ == "__main__":
    sys.exit(main(*sys.argv[1:]))
