"""What a change does on each node: `changes` names the doors that differ, and `paths` says who gets
what at them on both sides."""

import os
from concurrent.futures import ThreadPoolExecutor
from dataclasses import dataclass
from typing import Any

from ..objects import Key, address_of
from ..state import Fault, encode
from ..why.asked import Answer, Input, Program, Question, SYNC
from ..why.kept import Kept, places_of
from ..why.places import Target
from ..why.said import key_of, own_source, served_of
from .parts import OUTSIDE, Side, alike_of, parts_of, ranges_text
from .sides import touched

LEAST = {4: address_of("0.0.0.0"), 6: address_of("::")}


@dataclass
class Row:
    """What a kind of source gets at a door of a node, on both sides; None: no door is there. Where
    no kind gets something else there is no `source`, and what the program says of the door is all."""

    node: str
    change: dict  # the line that names the door
    state: Any  # the side after
    source: dict = None  # the kind, by its least address
    ranges: str = ""  # by which it is called, where its kind doesn't say it all
    before: dict = None
    after: dict = None
    kinds: int = 0  # how many kinds of sources there are

    def is_loss(self):
        """Whether it had an endpoint and has none, or is refused where it wasn't."""
        had, has = self.before or {}, self.after or {}
        loses = had.get("open", 0) > 0 and has.get("open", 0) == 0
        return loses or (has.get("refused", 0) > 0 and had.get("refused", 0) == 0)


def rows_of(sides, nodes):
    """The rows of all nodes, in their order."""
    program, keys = Program(), touched(sides)
    kept = None if keys is None else KeptOfBoth(sides, keys)
    both = [AtNode(sides, program, kept, it) for it in nodes]
    with ThreadPoolExecutor(len(os.sched_getaffinity(0))) as pool:
        found = [row for one in pool.map(AtNode.rows, both) for row in one]
    for name in sorted({it for one in both for it in one.lagging}):
        sides.notes.append(
            f"Service {name}: its slices aren't those that the controller makes of its Pods, and "
            "by them it is answered otherwise before the change"
        )
    return found


class KeptOfBoth:
    """The objects that decide what touched Services may change: on both sides of the same Services,
    so that one which is there on both isn't told to come or to go."""

    def __init__(self, sides, keys):
        self._both = sides.before, sides.after
        kept = [Kept(it) for it in self._both]
        places = {place for it in self._both for key in keys for place in places_at(it, key)}
        services = {key for it in kept for key in it.services_for(places)}
        is_all = any(it.is_all for it in kept)
        self._held = None if is_all else [it.of_services(services) for it in kept]

    def held(self, at, node):
        if self._held is None:
            return self._both[at].held.values()
        own = self._both[at].held.get(Key("Node", "", node))
        return [*([own] if own else []), *self._held[at]]


def places_at(state, key):
    service = state.services.get(key)
    return places_of(service) if service is not None else ()


class AtNode:
    """Both sides at a node."""

    def __init__(self, sides, program, kept, node):
        self.both, self.node, self.program = (sides.before, sides.after), node, program
        self.as_written, self.lagging = sides.as_written, set()
        if kept is None:
            self.held = [list(it.held.values()) for it in self.both]
        else:
            self.held = [list(kept.held(at, node)) for at in (0, 1)]

    def rows(self):
        doors = [AtDoor(self, it, self.question(it)) for it in self.changes()]
        asked = [it for it in doors if it.question is not None]
        questions = [it.question for it in asked]
        both = [self.answers(self.both[at], self.held[at], questions) for at in (0, 1)]
        for door, *two in zip(asked, *both):
            door.take(two)
        if self.as_written is not None:
            self.note_lagging(asked)
        self.ask_parts(asked)
        return [row for it in doors for row in it.rows()]

    def note_lagging(self, doors):
        """Notes the Services that are answered otherwise by their slices as they are written."""
        held, questions = self.as_written.held.values(), [it.question for it in doors]
        written = self.answers(self.as_written, held, questions)
        for it, other in zip(doors, written):
            if shape_of(it.answers[0]) != shape_of(other):
                door = it.change["door"]
                self.lagging.add(f"{door['namespace']}/{door['name']}")

    def ask_parts(self, doors):
        """Asks both sides for the parts of which a side has no line."""
        asked = [(it, part) for it in doors for part in it.untold()]
        for at in (0, 1):
            questions = [it.question_of(part, at) for it, part in asked]
            found = self.answers(self.both[at], self.held[at], questions)
            for (it, part), answer in zip(asked, found):
                it.got[at, part.kinds] = got_of(self.both[at], answer)

    def changes(self):
        """The doors that differ, as the program names them."""
        run = Input(self.both[0], self.node, self.held[0])
        old, new = ({it.line for it in held} for held in self.held)
        for line in self.events(old, new):
            run.lines.append(line)
        run.ask(SYNC)
        syncs, found = 0, []
        for said in self.program.said("changes", run.data()):
            syncs += said["form"] == "sync"
            if said["form"] == "refused":
                refuse(run, said)
            if said["form"] == "change" and syncs == 2:
                found.append(said)
        return found

    def events(self, old, new):
        """The lines that make the one side the other."""
        keys = [{it.line: key for key, it in side.held.items()} for side in self.both]
        there = {keys[1][line] for line in new}
        for line in old - new:
            key = keys[0][line]
            if key not in there:
                yield deletion(key)
        yield from sorted(new - old)

    def question(self, change):
        """A packet to a door; one of a node port goes to the node's first address. None without."""
        door = change["door"]
        version = 4 if door["family"] == "IPv4" else 6
        own = self.both[1].addresses_of(self.node)
        given = door["address"] and address_of(door["address"])
        address = given or next((it for it in own if it.version == version), None)
        if address is None:
            return None
        target = Target(door["kind"], given, version, door["number"], door["protocol"])
        return Question(self.node, target, address, LEAST[version], False)

    def answers(self, state, held, questions):
        run = Input(state, self.node, held)
        found = {run.ask(it.value()): Answer(it) for it in questions}
        for said in self.program.said("paths", run.data()):
            if said["form"] == "refused":
                refuse(run, said)
            elif said.get("line") in found:
                found[said["line"]].take(said)
        return list(found.values())


class AtDoor:
    """Both sides at a door of a node."""

    def __init__(self, place, change, question):
        self.place, self.change, self.question = place, change, question
        self.answers, self.sides, self.parts = (), (), []
        self.got = {}  # what each part gets, by side and kinds

    def take(self, answers):
        """Takes what both sides say of their kinds of sources."""
        version = self.question.address.version
        self.answers = answers
        self.sides = [Side(*it) for it in zip(self.place.both, answers)]
        self.parts = parts_of(version, self.sides)
        for at, answer in enumerate(answers):
            told = {address_of(it["address"]): served_of(it) for it in answer.sources}
            for part in self.parts:
                if not told or part.least in told:
                    self.got[at, part.kinds] = told.get(part.least)

    def untold(self):
        """The parts of whose least address a side says nothing yet."""
        return [it for it in self.parts if any((at, it.kinds) not in self.got for at in (0, 1))]

    def question_of(self, part, at):
        asked = self.question
        return Question(asked.node, asked.target, asked.address, part.least, part.is_of_node(at))

    def rows(self):
        """A row for each part that gets something else, or one for the door."""
        state, node = self.place.both[1], self.place.node
        rows = [self.row(it) for it in self.parts if self.differs(it)]
        return rows or [Row(node, self.change, state)]

    def differs(self, part):
        before, after = (self.got[at, part.kinds] for at in (0, 1))
        is_open = after is not None and after.get("open", 0) > 0
        return before != after or (is_open and any(ends_of(self.change, part.kinds[1].whence)))

    def row(self, part):
        kind = part.kinds[1]
        ports = {repr(it): it for one in self.answers[1].sources for it in one["inRangesOf"]}
        within = [it for it in ports.values() if key_of(it) in kind.within]
        source = {"address": str(part.least), "whence": kind.whence, "inRangesOf": within}
        ranges = ranges_text(part, self.parts, self.sides[1].of_pods)
        is_one = kind.whence == OUTSIDE or len(alike_of(part, self.parts)) == 1
        if ranges or not is_one:
            source["ranges"] = [str(it) for it in part.networks()]
        got = (self.got[at, part.kinds] for at in (0, 1))
        place = self.place
        return Row(place.node, self.change, place.both[1], source, ranges, *got, len(self.parts))


def got_of(state, answer):
    """What the program says of the source that was asked for, as its line of a kind has it."""
    first, own = answer.paths[0], own_source(state, answer)
    sent = [it for it in answer.paths if "endpoint" in (it.get("sent") or it)]
    if sent:
        reached = [it for it in sent if it["verdict"] == "to"]
        counts = {"open": len(reached), "masked": sum(it["masked"] for it in reached)}
        counts["refused"] = len(sent) - len(reached)
        chosen = first.get("sent") or first
        return {**counts, "door": chosen["door"], "list": chosen["list"]}
    if own is not None and own.get("verdict") == first["verdict"]:
        return served_of(own)
    if "door" not in first:
        return None
    return {"verdict": first["verdict"], "cause": first["reason"], "door": first["door"]}


def shape_of(answer):
    """All that an answer says, without its line."""
    return [{**it, "line": 0} for it in (*answer.paths, *answer.sources)]


def ends_of(change, whence):
    """The endpoints that come, and those that go, for a kind of source: inside may be another list."""
    is_inside = whence != OUTSIDE and "inside" in change
    lists = change["inside"] if is_inside else change
    return lists["new"], lists["gone"]


def deletion(key):
    """The line of a watch that tells that an object is gone."""
    meta = {"name": key.name, **({"namespace": key.namespace} if key.namespace else {})}
    item = {"kind": key.kind, "metadata": meta}
    return encode({"type": "DELETED", "object": item}).encode()


def refuse(run, said):
    """Passes over what the program refuses of objects; what is asked must not be refused."""
    if run.line_of_state(said["line"]) is None:
        raise Fault(f"the program refuses line {said['line']} of what it was given: {said['why']}")
