"""What the lines of an input bring, in their order, and the notes that come of it."""

from .. import objects
from ..lines import NO_VALUE, value_of
from ..members import COMMANDS
from ..objects import APPLIES, DELETES, PASSES, events_of, key_of, label, member, members, text
from . import differences, near
from .commands import Doors, not_read, without_effect
from .notes import Note
from .setting import Setting, notes_on

READ = {op: frozenset((*names, "op")) for op, names in COMMANDS.items()}
OF_TABLES = frozenset(("nat", "filter", "batch", "nat6", "filter6", "batch6"))


class Questions:
    """Questions in a row that are asked of tables that aren't there, or aren't of all objects."""

    def __init__(self, code, op, number):
        self.code, self.op, self.first, self.last, self.count = code, op, number, number, 1

    def note(self, changed, count):
        """`changed` is the first line that no sync covers, with `count` events from there on."""
        if self.code == "before-sync":
            says, becomes = "no sync came before", "no tables are made that it could be asked of"
        else:
            becomes = "it is asked of the tables of the last sync"
            says = f"the change of line {changed} came after the last sync, and doesn't count yet"
            if count > 1:
                says = f"{count} changes from line {changed} on came after the last sync, and "
                says += "don't count yet"
        return Note(
            self.code,
            f'{says}: {{"op":"sync"}} on a line before makes the tables',
            line=self.first,
            last=self.last,
            about=self.op if self.count == 1 else f"{self.count} questions",
            becomes=becomes,
            mends='{"op":"sync"} on a line before',
        )


class Seen:
    """All that was seen of an input so far. Lines that were refused aren't given. Where streams run
    at once the order of lines says little of what a question is asked of."""

    def __init__(self, is_live=False):
        self._is_live = is_live
        self.setting = Setting()
        self.notes = []  # of lines, by line
        self.of_objects = {}  # by code and key
        self.is_empty = True
        self.nodes = {}  # Node objects: addresses by form, by name
        self.named_nodes = {}  # names of nodes in Pods and endpoints
        self.node_ports = {}  # by family and key, the first node port
        self.six_services = {}  # by key, a cluster address of IPv6
        self.six_questions = None  # how many, and the line of the first
        self._pods, self._endpoints = {}, {}  # addresses as texts, by key
        self._services = {}  # whether it has a selector, by namespace and name
        self._sliced = {}  # the line of a slice and its Service's name, by key
        self._doors = Doors()
        self._names = near.Names()
        self._is_synced = False
        self._changed, self._changes = 0, 0  # since the last sync
        self._questions = None

    def take(self, number, line):
        """Takes the next line."""
        value = value_of(line)
        if not isinstance(value, dict):
            self.is_empty = self.is_empty and (value is NO_VALUE and not line.strip())
            return
        op = value.get("op")
        if op is None or op == "event":
            are_near = self._names.are_near(line)
            for event in events_of(value):
                self._event(number, event)
                if are_near:
                    self.notes += near.misnamed(number, event.object)
        if op is not None:
            self._command(number, op, value)
        self.is_empty = False

    def end(self):
        """All notes but those on the setting: of lines, and then of objects."""
        self._asked()
        return [*self.notes, *self.of_objects.values(), *self._slices_of_none()]

    def on_setting(self, is_refused):
        return [] if self.is_empty else list(notes_on(self.setting, self, is_refused))

    # ---- commands

    def _command(self, number, op, value):
        names = READ.get(op) if isinstance(op, str) else None
        if names is None:
            return
        if not value.keys() <= names:
            self.notes += not_read(number, op, value)
        if op in ("packet", "explain"):
            self._packet(number, op, value)
        elif op == "show":
            if text(value, "what") in OF_TABLES:
                self._question(number, op)
        elif op == "sync":
            self._asked()
            self._is_synced, self._changes = True, 0
        elif op == "config":
            self.setting = Setting.read(number, value)

    def _packet(self, number, op, value):
        self._question(number, op)
        if len(value) > 4:
            self.notes += without_effect(number, op, value)
        self.notes += self._doors.asked(number, op, value, self.setting.addresses)
        if ":" in text(value, "src"):
            count, line = self.six_questions or (0, number)
            self.six_questions = count + 1, line

    def _question(self, number, op):
        if self._is_live or (self._is_synced and not self._changes):
            return
        if self._questions:
            self._questions.last = number
            self._questions.count += 1
        else:
            code = "after-changes" if self._is_synced else "before-sync"
            self._questions = Questions(code, op, number)

    def _asked(self):
        """Ends the questions in a row."""
        if self._questions:
            self.notes.append(self._questions.note(self._changed, self._changes))
            self._questions = None

    # ---- objects

    def _event(self, number, event):
        if event.verb == PASSES:
            return
        if self._is_synced:
            self._asked()
        if not self._changes:
            self._changed = number
        self._changes += 1
        key = key_of(event.object)
        if key is None:
            return
        if event.verb == APPLIES:
            self._apply(number, key, event.object)
        elif event.verb == DELETES:
            self._doors.drop(key)
            self._sliced.pop(key, None)

    def _apply(self, number, key, item):
        taken = TAKES.get(key.kind)
        if taken is None:
            return
        taken(self, key, item, number)
        for note in differences.of_object(key, item, self.setting):
            self.of_objects.setdefault((note.code, key), note._replace(line=number))

    def _node(self, key, item, _):
        forms = {text(it, "type") for it in members(item, "status", "addresses")}
        self.nodes[key.name] = {form: objects.node_addresses(item, form) for form in forms}

    def _pod(self, key, item, _):
        spec, status = member(item, "spec"), member(item, "status")
        node = text(spec, "nodeName")
        if node:
            self.named_nodes[node] = True
        listed = [text(it, "ip") for it in members(status, "podIPs")]
        found = tuple(filter(None, listed)) or (text(status, "podIP"),)
        is_of_host = member(spec, "hostNetwork") is True
        if found[0] and not is_of_host and text(status, "hostIP") not in found:
            self._pods[key] = found

    def _slice(self, key, item, number):
        self._sliced[key] = number, label(item, objects.OF_SERVICE)
        found = []
        for endpoint in members(item, "endpoints"):
            node = text(endpoint, "nodeName")
            if node:
                self.named_nodes[node] = True
            found += members(endpoint, "addresses")[:1]
        if found:
            self._endpoints[key] = found

    def _service(self, key, item, _):
        self._services[key.namespace, key.name] = objects.has_selector(item)
        found = objects.cluster_addresses(item)
        if 6 in found:
            self.six_services[key] = found[6]
        is_open = text(item, "spec", "type") in ("NodePort", "LoadBalancer")
        ports = objects.node_ports(item) if is_open else []
        for version in found if ports else ():
            self.node_ports.setdefault(version, {})[key] = ports[0][0]
        balancers = objects.balancer_addresses(item) if objects.source_ranges(item) else []
        self._doors.put(key, ports, balancers)

    def addresses_of_pods(self, setting, version):
        """Whose addresses of a family these are, and all of them that are no node's."""
        own = {it for forms in self.nodes.values() for form in forms.values() for it in form}
        own |= set(setting.addresses)
        found, what = [], ""
        for what, held in (("Pod's", self._pods), ("endpoint's", self._endpoints)):
            texts = dict.fromkeys(it for given in held.values() for it in given)
            found = [it for it in objects.addresses_in(texts) if it.version == version]
            found = [it for it in found if it not in own]
            if found:
                break
        return what, found

    def slices_of_selecting(self):
        """The slices of Services with a selector."""
        slices = self._sliced.items()
        return [str(key) for key, (_, name) in slices if self._services.get((key.namespace, name))]

    def _slices_of_none(self):
        """Notes on slices of no Service that came."""
        for key, (number, name) in self._sliced.items():
            says = ""
            if not name:
                says = f"it has no label {objects.OF_SERVICE}, so it is of no Service"
                mends = f"the label {objects.OF_SERVICE} with the Service's name"
            elif (key.namespace, name) not in self._services:
                says = f"it is of Service {key.namespace}/{name}, which no accepted line gives"
                mends = f"give the Service, or write another name as {objects.OF_SERVICE}"
            if says:
                yield Note(
                    "slice-of-no-service",
                    says,
                    line=number,
                    key=key,
                    member=f"metadata.labels.{objects.OF_SERVICE}",
                    value=name or None,
                    becomes="no Service has its endpoints",
                    mends=mends,
                )


TAKES = {
    "Service": Seen._service,
    "EndpointSlice": Seen._slice,
    "Pod": Seen._pod,
    "Node": Seen._node,
}
