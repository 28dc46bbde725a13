"""Whether the worked inputs beside this file tell trackers that do one thing wrong: for each of them
one input at least has another text, and for the right one none has.

    broken.py PROGRAM
"""

import sys

from track import HERE, lines_in, said_of
from tracker import TIMEOUTS, Connection, Opener, Tracker


def with_openers(name, call):
    """A tracker whose openers have another method."""
    return type("Other", (Tracker,), {"kind": type("Other", (Opener,), {name: call})})


def with_method(name, call):
    return type("Other", (Tracker,), {name: call})


def lives_longer(opener, moment):
    widest = max(opener.widest, moment - opener.latest)
    return not opener.is_cleared and widest <= TIMEOUTS[opener.connection.proto] + 1


def ends_earlier(opener, moment):
    widest = max(opener.widest, moment - opener.latest)
    return not opener.is_cleared and widest < TIMEOUTS[opener.connection.proto]


def ends_as_udp(opener, moment):
    is_udp = opener.connection.proto != "TCP"
    widest = max(opener.widest, moment - opener.latest)
    return not opener.is_cleared and widest <= TIMEOUTS["UDP" if is_udp else "TCP"]


def replies_of_masked(opener):
    return Connection(opener.connection.proto, opener.endpoint, opener.connection.source)


def replies_from_door(opener):
    return Connection(opener.connection.proto, opener.connection.target, opener.connection.source)


def arrive_by(later_first, newest, renews):
    """How flows find their owner, by which kind comes first, of several replies by which opener,
    and by which kinds renew it."""

    def arrive(self, flow):
        self.moment = self.at(flow)
        kinds = [("later", self.of_connection), ("reply", self.of_replies)]
        for how, known in kinds if later_first else kinds[::-1]:
            found = self.live(known.get(flow.connection, []))
            for opener in found[-1:] if newest else found[:1]:
                if how in renews:
                    opener.hear(self.moment)
                return how, opener
        return None

    return arrive


def clears(protocols, stays=lambda opener, standing: opener.endpoint in standing, comes_back=False):
    """A sync after which other openers are cleared."""

    def sync(self, standing):
        for opener in self.openers:
            if opener.connection.proto in protocols and not stays(opener, standing):
                opener.is_cleared = True
            elif comes_back:
                opener.is_cleared = False

    return sync


def has_address(opener, standing):
    return opener.endpoint[0] in {address for address, _ in standing}


def moment_of_packet(self, flow):
    return flow.now


ANY = ("later", "reply")
TRACKERS = {
    "clears openers of TCP": with_method("sync", clears(["TCP", "UDP"])),
    "clears openers of SCTP": with_method("sync", clears(["SCTP", "UDP"])),
    "clears nothing": with_method("sync", clears([])),
    "clears all of UDP": with_method("sync", clears(["UDP"], lambda *_: False)),
    "brings back what it cleared": with_method("sync", clears(["UDP"], comes_back=True)),
    "ends connections a second late": with_openers("is_live", lives_longer),
    "ends connections a second early": with_openers("is_live", ends_earlier),
    "ends SCTP as UDP": with_openers("is_live", ends_as_udp),
    "has replies of what is masked": with_openers("replies", replies_of_masked),
    "has replies from the door": with_openers("replies", replies_from_door),
    "goes by the packet's own moment": with_method("at", moment_of_packet),
    "renews nothing": with_method("arrive", arrive_by(True, False, ())),
    "isn't renewed by replies": with_method("arrive", arrive_by(True, False, ["later"])),
    "asks replies first": with_method("arrive", arrive_by(False, False, ANY)),
    "lets the newest answer replies": with_method("arrive", arrive_by(True, True, ANY)),
    "keeps nothing": with_method("has_room", lambda self: False),
}


def is_told(program, tracker):
    """Whether some input has another text."""
    for path in sorted(HERE.glob("*.jsonl")):
        wanted = path.with_suffix(".txt").read_text().splitlines()
        if said_of(program, lines_in(path), tracker)[1] != wanted:
            return True
    return False


def main(program):
    """Tells the trackers that aren't told, and the right one where it is."""
    wrong = [f"a tracker that {name} isn't told" for name, it in TRACKERS.items() if not is_told(program, it)]
    if is_told(program, Tracker):
        wrong.append("the model doesn't say the worked texts")
    for it in wrong:
        print(f"checks: track: {it}")
    return int(bool(wrong))


if __name__ == "__main__":
    sys.exit(main(*sys.argv[1:]))
