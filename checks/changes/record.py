"""The endpoints of each Service port among the objects that a sync covers, by a model.

It is written from the Kubernetes documents "Virtual IPs and Service Proxies", "EndpointSlices" and
"IPv4/IPv6 dual-stack", and from docs/FORMAT.md, and looks at no table.
"""

import ipaddress
import re
import sys
from dataclasses import dataclass
from pathlib import Path

HERE = Path(__file__).resolve().parent
sys.path += [str(HERE.parent / "follow"), str(HERE.parent / "slices")]

from follow import changes_of
from slices import CONTROLLER, FAMILIES, MANAGER, OF_SERVICE, ZONE
from slices import addresses_of, families_of, family_of, resolved_ports


def place_of(address, number):
    """An endpoint or a door as it is printed."""
    host = f"[{address}]" if address.version == 6 else str(address)
    return f"{host}:{number}"


def of_family(texts, family):
    """The addresses of a family, each once."""
    return list(dict.fromkeys(ipaddress.ip_address(it) for it in texts if family_of(it) == family))


def cluster_address(spec, family):
    """The address of a family at which a cluster reaches a Service, or none."""
    written = spec.get("clusterIPs") or [spec.get("clusterIP") or "None"]
    if "None" in written or spec.get("type") == "ExternalName":
        return None
    return next(iter(of_family(written, family)), None)


@dataclass(frozen=True)
class State:
    """What is said of an endpoint beside its address."""

    ready: bool
    leaving: bool  # it serves and terminates
    node: str
    hints: tuple  # of zones


@dataclass(frozen=True)
class Endpoint:
    address: object
    number: int
    state: State

    def __str__(self):
        return place_of(self.address, self.number)


class Record:
    """The objects that an accepted sync covers, by kind and by namespace and name."""

    def __init__(self, setting, objects):
        self.setting, self.by_kind = setting, {}
        for (kind, *key), item in objects.items():
            self.by_kind.setdefault(kind, {})[tuple(key)] = item
        self.node = setting.get("node", "")
        self.zone = self.zone_of(self.node)

    def of(self, kind):
        return self.by_kind.get(kind, {})

    def families(self):
        return FAMILIES if self.setting.get("dualStack") else FAMILIES[:1]

    def zone_of(self, node):
        found = self.of("Node").get(("", node), {})
        return found.get("metadata", {}).get("labels", {}).get(ZONE, "")

    def wanted(self, space, spec, family):
        """The ports, the address and the state of each Pod that a Service selects, by name."""
        for (own, _), pod in sorted(self.of("Pod").items()):
            labels, status = pod["metadata"].get("labels", {}), pod.get("status", {})
            if own != space or not spec["selector"].items() <= labels.items():
                continue
            addresses = [it for it in addresses_of(status) if family_of(it) == family]
            if addresses and status.get("phase") not in ("Succeeded", "Failed"):
                whole = {"spec": {"containers": []} | pod.get("spec", {})}
                yield list(resolved_ports(spec, whole)), addresses[0], self.state_of(spec, pod)

    def state_of(self, spec, pod):
        """The state of a Pod's endpoint."""
        conditions = pod.get("status", {}).get("conditions", [])
        serving = any((it["type"], it["status"]) == ("Ready", "True") for it in conditions)
        terminating = "deletionTimestamp" in pod["metadata"]
        ready = bool(spec.get("publishNotReadyAddresses")) or (serving and not terminating)
        node = pod.get("spec", {}).get("nodeName", "")
        is_near = spec.get("trafficDistribution") == "PreferClose"
        zone = self.zone_of(node) if is_near and node else ""
        return State(ready, serving and terminating, node, (zone,) if zone else ())

    def written(self, space, name, family, is_handled):
        """The ports, the address and the state of each endpoint in a Service's slices, without
        those that the controller makes for it."""
        for (own, _), item in sorted(self.of("EndpointSlice").items()):
            labels = item["metadata"].get("labels", {})
            if (own, labels.get(OF_SERVICE), item["addressType"]) != (space, name, family):
                continue
            if is_handled and labels.get(MANAGER) == CONTROLLER:
                continue
            ports = [
                (it.get("name", ""), it.get("protocol", "TCP"), it.get("port"))
                for it in item.get("ports") or []
            ]
            for it in item.get("endpoints") or []:
                address, said = it["addresses"][0], it.get("conditions", {})
                ready = said.get("ready", True)
                leaving = said.get("serving", ready) and said.get("terminating", False)
                hints = tuple(zone["name"] for zone in it.get("hints", {}).get("forZones", []))
                if family_of(address) == family:
                    yield ports, address, State(ready, leaving, it.get("nodeName", ""), hints)

    def endpoints(self, key, spec, family):
        """The endpoints of a port in a family. Of those with one address and number the last one of
        this node counts, or else the first."""
        space, name, port, proto = key
        is_handled = self.setting.get("controller", True) and bool(spec.get("selector"))
        found = []
        if is_handled and family in families_of(spec):
            found += self.wanted(space, spec, family)
        found += self.written(space, name, family, is_handled)
        kept = {}
        for ports, address, state in found:
            numbers = (it[2] for it in ports if it[:2] == (port, proto) and it[2])
            place = ipaddress.ip_address(address), next(numbers, None)
            if place[1] and (self.is_local(state) or place not in kept):
                kept[place] = Endpoint(*place, state)
        return [kept[place] for place in sorted(kept)]

    def is_local(self, state):
        return state.node != "" and state.node == self.node

    def lists(self, endpoints):
        """The endpoints that all nodes use, and those of this node: the ready ones, or else those
        that leave. Hints choose among the ready ones of all nodes, where each has one."""
        ready = [it for it in endpoints if it.state.ready]
        near = [it for it in ready if self.zone in it.state.hints] if self.zone else []
        if near and all(it.state.hints for it in ready):
            everywhere = near
        else:
            everywhere = ready or [it for it in endpoints if it.state.leaving]
        own = [it for it in endpoints if self.is_local(it.state)]
        local = [it for it in own if it.state.ready] or [it for it in own if it.state.leaving]
        return everywhere, local


def covered_at(values, replayed):
    """The objects at each accepted sync of a script, by what a replay of it prints."""
    refused = {int(it) for it in re.findall(r"^line (\d+): refused", replayed, re.M)}
    objects = {}
    for number, value in enumerate(values, 1):
        if number in refused or not isinstance(value, dict):
            continue
        for key, item in changes_of(value):
            objects.pop(key, None)
            objects |= {} if item is None else {key: item}
        if value.get("op") == "sync":
            yield dict(objects)
