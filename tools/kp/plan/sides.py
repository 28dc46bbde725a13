"""The cluster before a change and after it."""

import json
import os
import subprocess
from dataclasses import dataclass, field

from .. import objects
from ..objects import Key, member, members, text
from ..state import Fault, State, some

LIBRARY = os.path.join(os.path.dirname(os.path.dirname(os.path.dirname(__file__))), "cluster.jq")
STAYING = ("DaemonSet", "Node")  # that have Pods which a drain leaves: static ones are a Node's
# what slices are made from, beside Pods
OF_SLICES = ("selector", "ports", "publishNotReadyAddresses", "type", "trafficDistribution")
OF_SLICES += ("ipFamilies", "clusterIP", "clusterIPs")


@dataclass
class Sides:
    """Both states; `notes` are said with them. `as_written` is the one before by its own slices,
    where both sides are answered by those that the controller makes."""

    before: State
    after: State
    notes: list = field(default_factory=list)
    as_written: State = None

    def differing(self):
        """The keys of objects that aren't the same on both sides."""
        keys = dict.fromkeys([*self.before.held, *self.after.held])
        return [it for it in keys if is_other(self.before.held.get(it), self.after.held.get(it))]


def is_other(one, other):
    if one is None or other is None:
        return True
    return one.line != other.line and json.loads(one.line) != json.loads(other.line)


def sides_of(before, after):
    """The sides that two files have, with what makes slices where these alone lag behind."""
    sides = Sides(before, after)
    if before.setting != after.setting:
        sides.notes.append("the settings differ: doors that these alone change aren't told")
    return with_controller(sides)


def with_controller(sides):
    """Has both sides answered with the slices that the controller makes, where Pods change, or what
    else slices are made from, and slices don't."""
    keys = sides.differing()
    lags = any(makes_slices(sides, it) for it in keys)
    if not lags or any(it.kind == "EndpointSlice" for it in keys):
        return sides
    need_pods(sides.before, keys=[it for it in keys if it.kind == "Service"])
    if member(sides.before.setting, "controller") is False:
        sides.as_written = sides.before
        sides.notes.append("on both sides endpoints are those that the controller makes of Pods")
    sides.before = sides.before.changed(controller=True)
    sides.after = sides.after.changed(controller=True)
    return sides


def makes_slices(sides, key):
    if key.kind == "Pod":
        return True
    if key.kind != "Service":
        return False
    both = (it.services.get(key) for it in (sides.before, sides.after))
    one, other = ([member(it, "spec", name) for name in OF_SLICES] for it in both)
    return one != other


# ---- a change that is given


def after_files(before, paths):
    """The state after objects of files, as kubectl prints them, are applied."""
    items, left = [], {}
    for path in paths:
        for line in taken(path):
            if line[:1] in ("o", "e"):
                items += [it.object for it in objects.events_of(json.loads(line[1:]))]
            elif line.startswith('["other"'):
                kind = json.loads(line)[1]
                left[kind] = left.get(kind, 0) + 1
    if not items:
        raise Fault(
            f"{some(paths)} has no Service, EndpointSlice, Pod or Node: give what kubectl apply "
            "--dry-run=server -o json prints"
        )
    sides = with_controller(Sides(before, before.changed(items)))
    sides.notes += [f"left out: {count} of kind {kind}" for kind, count in left.items()]
    return sides


def taken(path):
    """What tools/cluster takes of a file of kubectl's JSON."""
    try:
        with open(LIBRARY, encoding="utf-8") as file:
            said = file.read() + "taken($as_written)"
        words = ["jq", "-r", "--argjson", "as_written", "false", said]
        with open(path, "rb") as file:
            made = subprocess.run(words, stdin=file, stdout=subprocess.PIPE, stderr=subprocess.PIPE)
    except OSError as error:
        raise Fault(f"{error.filename or 'jq'} can't be read or run: {error.strerror}") from error
    if made.returncode:
        raise Fault(f"{path} isn't what kubectl prints with -o json: it isn't JSON")
    return made.stdout.decode().split("\n")[:-1]


def after_drain(before, node):
    """The state after a node is drained: what of its Pods stays is told."""
    if node not in before.node_names():
        raise Fault(f"there is no Node {node}; there are: {some(before.node_names())}")
    need_pods(before, node)
    pods = [it for it in before.pods.values() if it.node == node and not it.is_finished]
    gone = [it for it in pods if it.owner not in STAYING]
    sides = with_controller(Sides(before, before.changed(gone=[it.key for it in gone])))
    count, stay = len(gone), len(pods) - len(gone)
    sides.notes.append(
        f"{count} Pod{' of ' if count == 1 else 's of '}{node} {'goes' if count == 1 else 'go'}, and "
        f"{'isn' if count == 1 else 'aren'}'t put elsewhere here; "
        f"{stay} of DaemonSets and static ones {'stays' if stay == 1 else 'stay'}"
    )
    return sides


def need_pods(state, node=None, keys=None):
    """Raises where ready endpoints have Pods that aren't in the state: what becomes of them with
    these can't be told then. Of a node alone or of all, and of some Services or of all."""
    lacking, where = {}, f" on {node}" if node else ""
    for item in state.slices.values():
        space = text(item, "metadata", "namespace") or "default"
        owner = Key("Service", space, objects.label(item, objects.OF_SERVICE))
        for entry in members(item, "endpoints") if keys is None or owner in keys else ():
            if node in (None, text(entry, "nodeName")) and is_lacking(state, space, entry):
                lacking.setdefault(owner, set()).update(map(str, members(entry, "addresses")[:1]))
    if not lacking:
        return
    told = [
        f"{len(it)} endpoint{'' if len(it) == 1 else 's'} of {owner.namespace}/{owner.name}"
        for owner, it in lacking.items()
    ]
    is_one = sum(map(len, lacking.values())) == 1
    raise Fault(
        f"{some(told, 3)}{where} {'has a Pod that is' if is_one else 'have Pods that are'}n't in the "
        "state: write it anew with all Pods, of files with what kubectl get pods -A -o json prints"
    )


def is_lacking(state, space, entry):
    """Whether an endpoint is ready, and its Pod isn't in the state."""
    ref = member(entry, "targetRef")
    if text(ref, "kind") != "Pod" or member(entry, "conditions", "ready") is False:
        return False
    return Key("Pod", text(ref, "namespace") or space, text(ref, "name")) not in state.pods


# ---- what a change touches


def touched(sides):
    """The Services that a change may touch, or None where that may be any."""
    found = set()
    for key in sides.differing():
        if key.kind == "Service":
            found.add(key)
        elif key.kind == "EndpointSlice":
            found |= owners_of(sides, key)
        elif key.kind == "Pod" and sides.after.setting.get("controller") is not False:
            return None
        elif key.kind == "Node":
            return None
    return found


def owners_of(sides, key):
    items = (it.slices.get(key) for it in (sides.before, sides.after))
    names = (objects.label(it, objects.OF_SERVICE) for it in items if it is not None)
    return {Key("Service", key.namespace, name) for name in names}
