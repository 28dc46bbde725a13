"""Whether the worked inputs beside this file tell models that do one thing wrong: for each of them
one input at least has another text, and for the right one none has.

    broken.py PROGRAM
"""

import sys

from vmap import HERE, lines_in, said_of

from decision import LOOPBACK, Answer, Decider, is_within
from draws import MOST, by_thresholds


def with_method(name, call):
    """A model that decides otherwise in one thing."""
    return type("Other", (Decider,), {name: call})


def with_pick(pick):
    def chosen(self, *given):
        self.pick = pick
        return Decider.chosen(self, *given)

    return with_method("chosen", chosen)


def in_order(key):
    def doors(self, packet):
        yield from sorted(Decider.doors(self, packet), key=key)

    return with_method("doors", doors)


def last_door_first(self, packet):
    yield from reversed(list(Decider.doors(self, packet)))


def doors_of_both_families(self, packet):
    for family in self.ports:
        packet.family, own = family, packet.family
        found = list(Decider.doors(self, packet))
        packet.family = own
        yield from found


def first_that_fits(self, packet, draws, recent):
    for door in self.doors(packet):
        if self.fits(door, packet, packet.target, packet.port):
            self.doors = lambda _: [door]
            try:
                return Decider.translated(self, packet, draws, recent)
            finally:
                del self.doors
    return None


def fits_any(protocol=False, number=False, loopback=False):
    """Whether a destination is that of a door, where something isn't asked."""

    def fits(self, door, packet, address, place):
        if not protocol and door.port[3] != packet.proto:
            return False
        if not number and door.number != place:
            return False
        if door.address is None:
            return self.node.is_own(address) and (loopback or not is_within(address, LOOPBACK))
        return door.address == address

    return with_method("fits", fits)


def filters_first(self, packet, draws, recent):
    refused = packet.family in self.ports and self.refused(packet, packet.target, packet.port)
    return Answer(*refused) if refused else Decider.decide(self, packet, draws, recent)


def filters_nothing(self, packet, address, number):
    return None


def filters_packets_alone(self, packet, address, number):
    """The filter isn't asked at endpoints."""
    if (address, number) == (packet.target, packet.port):
        return Decider.refused(self, packet, address, number)
    return None


def list_of_all(self, door, source):
    kind, offered = Decider.offered(self, door, source)
    return (kind, door.side.inside) if offered else (kind, [])


def policy_for_all(self, door, source):
    """Sources inside have no list of their own."""
    kind, offered = Decider.offered(self, door, source)
    return ("local", door.side.list) if offered and door.side.is_local else (kind, offered)


def admits_all(self, door, source):
    ranges, door.ranges = door.ranges, None
    kept = Decider.offered(self, door, source)
    door.ranges = ranges
    return kept


def without_affinity(self, door, offered, packet, draws, recent):
    return self.pick(draws, len(offered)), "draws"


def remembers_nothing(self, door, offered, packet, draws, recent):
    return Decider.chosen(self, door, offered, packet, draws, recent.copy())


def other_timeout(seconds):
    def chosen(self, door, offered, packet, draws, recent):
        own = door.side.affinity
        door.side.affinity = own if own == "none" else str(int(own) + seconds)
        found = Decider.chosen(self, door, offered, packet, draws, recent)
        door.side.affinity = own
        return found

    return with_method("chosen", chosen)


def masks_no_own_source(self, door, packet, address):
    return packet.source != address and Decider.is_masked(self, door, packet, address)


MODELS = {
    "picks by thresholds": with_pick(by_thresholds),
    "picks by the second draw": with_pick(lambda draws, size: draws[1] % size),
    "counts places from one": with_pick(lambda draws, size: (draws[0] + 1) % size),
    "picks the last without a draw": with_pick(
        lambda draws, size: size - 1 if draws[0] == MOST else draws[0] % size
    ),
    "picks by the product": with_pick(lambda draws, size: draws[0] * size >> 31),
    "asks node ports first": in_order(lambda door: door.kind != "node"),
    "asks cluster addresses first": in_order(lambda door: door.kind != "cluster"),
    "asks the last door first": with_method("doors", last_door_first),
    "asks doors of both families": with_method("doors", doors_of_both_families),
    "asks the first door alone": with_method("translated", first_that_fits),
    "doesn't ask for the protocol": fits_any(protocol=True),
    "doesn't ask for the number": fits_any(number=True),
    "has node ports at loopback": fits_any(loopback=True),
    "asks the filter before doors": with_method("decide", filters_first),
    "doesn't ask the filter": with_method("refused", filters_nothing),
    "doesn't ask the filter at endpoints": with_method("refused", filters_packets_alone),
    "offers all endpoints": with_method("offered", list_of_all),
    "offers those inside what the policy says": with_method("offered", policy_for_all),
    "admits all sources": with_method("offered", admits_all),
    "knows no affinity": with_method("chosen", without_affinity),
    "remembers no source": with_method("chosen", remembers_nothing),
    "forgets sources a second late": other_timeout(1),
    "forgets sources a second early": other_timeout(-1),
    "doesn't mask a packet to its source": with_method("is_masked", masks_no_own_source),
    "masks nothing": with_method("is_masked", lambda *_: False),
}


def is_told(program, decider):
    """Whether some input has another text."""
    for path in sorted(HERE.glob("*.jsonl")):
        wanted = path.with_suffix(".txt").read_text().splitlines()
        if said_of(program, lines_in(path), decider) != wanted:
            return True
    return False


def main(program):
    """Tells the models that aren't told, and the right one where it is."""
    wrong = [f"a model that {name} isn't told" for name, it in MODELS.items() if not is_told(program, it)]
    if is_told(program, Decider):
        wrong.append("the model doesn't say the worked texts")
    for it in wrong:
        print(f"checks: vmap: {it}")
    return int(bool(wrong))


if __name__ == "__main__":
    sys.exit(main(*sys.argv[1:]))
