"""Services that have one place. A node writes Services in no order, and the program by their names:
it answers for one of them, and on a node another one may."""

from functools import lru_cache

from ..objects import member, members, text
from .near import service_name
from .places import ports_of, targets_at
from .said import key_of


@lru_cache(maxsize=2)
def places(state):
    """The Services and their ports at each place, of those at which several are."""
    found = {}
    for key in sorted(state.services):
        for port in ports_of(state.services[key]):
            for it in targets_at(key, state.services[key], port):
                place = (it.address, it.version, it.number, it.protocol)
                found.setdefault(place, {}).setdefault(key, port)
    return {place: owners for place, owners in found.items() if len(owners) > 1}


def either(state, answer):
    """The Services of which each may answer on a node, by name; none where it's certain which."""
    door, target, address = answer.door, answer.question.target, answer.question.address
    if door is None or "no endpoints" in (answer.paths[0]["reason"], answer.cause):
        return []  # the first that has endpoints answers
    # node ports come last on a node too
    at = None if door["kind"] == "node" else address
    owners = places(state).get((at, address.version, target.number, target.protocol), {})
    mine = key_of(door)
    if mine not in owners or not may_answer(state, mine, owners[mine]):
        return []
    found = [key for key, port in owners.items() if key == mine or may_answer(state, key, port)]
    return found if len(found) > 1 else []


def may_answer(state, key, port):
    """Whether a Service may have an endpoint at a port: without one it has no rule that sends."""
    if member(state.setting, "controller") is not False:
        return has_pods(state, key)
    return any(
        member(it, "conditions", "ready") is not False or member(it, "conditions", "serving")
        for item in state.slices_of(key)
        if any(text(it, "name") == text(port, "name") for it in members(item, "ports"))
        for it in members(item, "endpoints")
    )


def has_pods(state, key):
    """Whether a Pod has what a Service selects, of which slices are made."""
    selector = member(state.services[key], "spec", "selector")
    wanted = selector.items() if isinstance(selector, dict) else ()
    pods = (it for it in state.pods.values() if it.key.namespace == key.namespace)
    given = (it.labels.items() for it in pods if isinstance(it.labels, dict) and it.addresses)
    return bool(wanted) and any(all(it in labels for it in wanted) for labels in given)


def order(state, answer):
    """That another Service may answer on a node."""
    found = either(state, answer)
    if found:
        names = [service_name(it) for it in found]
        said = f"{', '.join(names[:-1])} or {names[-1]}"
        yield f"here by name; on a node either {said} may answer (docs/KUBE-PROXY.md)"
