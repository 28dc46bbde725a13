"""Findings: what objects suggest, what is asked for it, and what the answers have to be."""

import difflib
from dataclasses import dataclass
from typing import Any, Callable

from .. import objects
from ..objects import Key, address_of, member, members, text
from ..state import some
from ..why.asked import timeout_of
from ..why.order import either
from ..why.places import CALLED, near_names, port_text, ports_of, targets_at
from ..why.said import VERDICTS, words_for


@dataclass
class Finding:
    """A code, an object and a field, what is asked, and what would mend it. `told` gives the
    consequence that the answers have, or "" where they don't bear it out."""

    code: str
    key: Key
    field: str
    says: str
    mends: str
    targets: list
    told: Callable
    is_of_all: bool = False  # whether each node is asked


@dataclass
class Told:
    """A finding that is borne out: by an answer of these."""

    finding: Finding
    consequence: str
    answer: Any


def refused_for(reason):
    """The consequence where nothing is reached for this reason."""

    def told(state, answers):
        for it in answers:
            first = it.paths[0]
            if reason in (first["reason"], it.cause):
                return refusal_text(it), it
        return "", None

    return told


def refusal_text(answer):
    words = words_for(answer)._replace(source="the source")
    return words.refusal(answer.paths[0], answer.own)


def findings_on(state):
    """All that objects suggest, Service by Service."""
    spaces = spaces_of(state)
    for key in sorted(state.services):
        service = state.services[key]
        targets = [it for port in ports_of(service) for it in targets_at(key, service, port)]
        if targets:
            yield from on_selector(state, key, service, targets, spaces.get(key.namespace, Space()))
            yield from on_readiness(state, key, targets)
            yield from on_policies(key, service, targets)
            yield from on_ranges(key, service, targets)
            yield from on_slices(state, key, service, targets)
            yield from on_hints(state, key, targets)
            yield from on_affinity(key, service, targets)
    yield from on_clashes(state)


# ---- Pods and ports


class Space:
    """The Pods of a namespace that haven't finished, by each label that they have."""

    def __init__(self):
        self.by_label = {}

    def add(self, pod):
        for label in pod.labels.items() if is_of_texts(pod.labels) else ():
            self.by_label.setdefault(label, {})[pod.key] = pod

    def chosen(self, selector):
        """The Pods that have all labels of a selector."""
        found = [self.by_label.get(it, {}) for it in selector.items()]
        least = min(found, key=len)
        return [pod for key, pod in least.items() if all(key in it for it in found)]


def spaces_of(state):
    found = {}
    for it in state.pods.values():
        if not it.is_finished:
            found.setdefault(it.key.namespace, Space()).add(it)
    return found


def on_selector(state, key, service, targets, space):
    selector = member(service, "spec", "selector")
    if not selector or not is_of_texts(selector):
        return
    chosen = space.chosen(selector)
    if not chosen:
        said = ", ".join(f"{name}={value}" for name, value in selector.items())
        yield Finding(
            "selector-without-pods",
            key,
            "spec.selector",
            f"no Pod has {said}",
            f"make it one that Pods have{near_label(selector, space)}",
            targets[:1],
            refused_for("no endpoints"),
        )
        return
    for at, port in enumerate(ports_of(service)):
        name = member(port, "targetPort")
        named = {it for pod in chosen for it in pod.port_names}
        if isinstance(name, str) and not name.isdigit() and name not in named:
            mine = [it for it in targets if it.port is port]
            yield Finding(
                "target-port-unknown",
                key,
                f"spec.ports[{at}].targetPort",
                f"no container of its Pods has a port named {name}",
                f"name a container's port{near_names(name, sorted(named))}",
                mine[:1],
                refused_for("no endpoints"),
            )


def is_of_texts(labels):
    return isinstance(labels, dict) and all(isinstance(it, str) for it in labels.values())


def near_label(selector, space):
    """The label of a Pod that comes nearest to a selector's."""
    given = {f"{name}={value}" for name, value in space.by_label}
    wanted = [f"{name}={value}" for name, value in selector.items()]
    missing = [it for it in wanted if it not in given]
    close = (difflib.get_close_matches(it, sorted(given), 1, 0.6) for it in missing)
    near = [it for one in close for it in one]
    return f": is it {near[0]}?" if near else ""


def on_readiness(state, key, targets):
    entries = [it for one in state.slices_of(key) for it in members(one, "endpoints")]
    if entries and not any(member(it, "conditions", "ready") in (None, True) for it in entries):
        yield Finding(
            "nobody-ready",
            key,
            "endpoints",
            f"none of its {len(entries)} endpoints is ready",
            "see why its Pods aren't: kubectl describe pod",
            targets[:1],
            nobody_ready,
        )


def nobody_ready(state, answers):
    for it in answers:
        if it.paths[0]["reason"] == "no endpoints" and it.asides:
            return refusal_text(it), it
    return "", None


# ---- policies and addresses


def on_policies(key, service, targets):
    """A policy that is Local, of which nodes without an endpoint are counted."""
    policies = {"internalTrafficPolicy": ("cluster",)}
    policies["externalTrafficPolicy"] = ("node", "balancer", "external")
    for name, kinds in policies.items():
        mine = [it for it in targets if it.kind in kinds]
        if text(service, "spec", name) == "Local" and mine:
            yield Finding(
                "local-without-endpoints",
                key,
                f"spec.{name}",
                f"{name} is Local",
                "run a Pod of it on each node, or set the policy to Cluster",
                mine[:1],
                without_local,
                True,
            )


def without_local(state, answers):
    without = [
        it
        for it in answers
        if "no local endpoints" in (it.paths[0]["reason"], it.cause)
    ]
    if not without:
        return "", None
    verdict = VERDICTS[without[0].paths[0]["verdict"]]
    names = some((it.question.node for it in without), 3)
    said = f"{verdict} on {len(without)} of {len(answers)} nodes: no ready endpoint is on {names}"
    return said, without[0]


def on_ranges(key, service, targets):
    versions = {it.version for it in objects.source_ranges(service)}
    for it in targets:
        if it.kind == "balancer" and versions and it.version not in versions:
            yield Finding(
                "closed-to-a-family",
                key,
                "spec.loadBalancerSourceRanges",
                f"no range is of the family of {it.address}",
                "add ranges of that family",
                [it],
                nobody_admitted,
            )


def nobody_admitted(state, answers):
    for it in answers:
        if it.sources and all(one.get("cause") == "not admitted" for one in it.sources):
            return refusal_text(it), it
    return "", None


def on_clashes(state):
    """Places that several Services have."""
    found = {}
    for key in sorted(state.services):
        for port in ports_of(state.services[key]):
            for it in targets_at(key, state.services[key], port):
                place = (it.address, it.version, it.number, it.protocol)
                found.setdefault(place, []).append(it)
    for targets in found.values():
        owners = list(dict.fromkeys(it.service for it in targets))
        if len(owners) > 1:
            names = some(f"{it.namespace}/{it.name}" for it in owners)
            yield Finding(
                "one-place-of-several",
                owners[1],
                CALLED[targets[-1].kind],
                f"{targets[0].at()} is of {names}",
                "give each an address or a port of its own",
                targets[:1],
                one_answers,
            )


def one_answers(state, answers):
    """The consequence: on a node either may answer, or the one that has endpoints does."""
    for it in answers:
        if it.door:
            name = f"{it.door['namespace']}/{it.door['name']}"
            if either(state, it):
                return f"either may answer, by node and by sync; here {name}, by name", it
            return f"Service {name} answers there", it
    return "", None


# ---- slices


def is_managed(item):
    return objects.label(item, objects.MANAGED_BY) == objects.CONTROLLER


def ends_in(item):
    given = (members(it, "addresses") for it in members(item, "endpoints"))
    return {it for one in given for it in objects.addresses_in(one)}


def on_slices(state, key, service, targets):
    """Slices that somebody else wrote, of a Service whose Pods the controller finds."""
    if not objects.has_selector(service):
        return
    for item in state.slices_of(key):
        if not is_managed(item) and ends_in(item):
            yield Finding(
                "slice-beside-the-controller",
                Key("EndpointSlice", key.namespace, text(item, "metadata", "name")),
                "metadata.labels",
                f"it adds endpoints to Service {key.namespace}/{key.name}, which has a selector",
                "delete it, or take the selector away",
                targets[:1],
                goes_to(ends_in(item)),
            )


def goes_to(addresses):
    """The consequence where some path leads to one of these."""

    def told(state, answers):
        for answer in answers:
            for it in answer.paths:
                sent = it.get("sent") or it
                if "endpoint" in sent and address_of(sent["endpoint"]["address"]) in addresses:
                    return f"packets go to {sent['endpoint']['address']}", answer
        return "", None

    return told


def on_hints(state, key, targets):
    entries = [it for one in state.slices_of(key) for it in members(one, "endpoints")]
    ready = [it for it in entries if member(it, "conditions", "ready") in (None, True)]
    without = [it for it in ready if not members(it, "hints", "forZones")]
    if without and len(without) < len(ready):
        names = some(text(it, "targetRef", "name") or "one of no Pod" for it in without)
        yield Finding(
            "hints-unused",
            key,
            "endpoints[].hints",
            f"{len(without)} of {len(ready)} ready endpoints have no hint: {names}",
            "wait for the controller, or see why it gives these none",
            targets[:1],
            goes_elsewhere(state, key),
            True,
        )


def goes_elsewhere(state, key):
    """The consequence where a path leads to an endpoint that is hinted for other zones."""
    zones = {}
    for address, entry in entries_of(state, key):
        zones.setdefault(address, set()).update(
            text(it, "name") for it in members(entry, "hints", "forZones")
        )

    def told(state, answers):
        for answer in answers:
            zone = state.zone_of(answer.question.node)
            for it in answer.paths:
                address = it["endpoint"]["address"] if "endpoint" in it else ""
                hinted = zones.get(address_of(address))
                if hinted and zone not in hinted:
                    return f"packets of zone {zone} go to {address} too", answer
        return "", None

    return told


def entries_of(state, key):
    for item in state.slices_of(key):
        for entry in members(item, "endpoints"):
            for address in objects.addresses_in(members(entry, "addresses")[:1]):
                yield address, entry


def on_affinity(key, service, targets):
    seconds = timeout_of(service)
    mine = [it for it in targets if it.kind != "cluster"]
    if seconds is not None and mine:
        yield Finding(
            "affinity-behind-masquerading",
            key,
            "spec.sessionAffinity",
            f"clients are kept for {seconds} seconds, by each node for itself",
            "set externalTrafficPolicy to Local, so that a client comes by one node",
            mine[:1],
            all_masked,
        )


MASQUERADED = "what comes from outside is masqueraded, and another node may keep it elsewhere"


def all_masked(state, answers):
    for it in answers:
        for one in it.sources:
            if one["whence"] == "outside" and one.get("open") and one["masked"] == one["open"]:
                return MASQUERADED, it
    return "", None
