"""The objects that decide a question: for many nodes the program is given no others. Only Services
are kept that may have the destination, or an endpoint of these, as a place of theirs, with their
slices. Others decide nothing. Where endpoints come from Pods all is kept."""

from .. import objects
from ..objects import Key, member, members, text


class Kept:
    """What is kept of a state."""

    def __init__(self, state):
        self._state = state
        setting = state.setting
        self.is_all = member(setting, "controller") is not False or "maxEvents" in setting
        self._at = {}  # Services by address, which is None at a node port, port and protocol
        self._known = {}
        for key, service in () if self.is_all else state.services.items():
            for place in places_of(service):
                self._at.setdefault(place, []).append(key)

    def held(self, node, asked):
        """The objects for questions at a node: at addresses, ports and protocols."""
        if self.is_all:
            return self._state.held.values()
        asked = frozenset(asked)
        if asked not in self._known:
            self._known[asked] = self._held_for(asked)
        own = self._state.held.get(Key("Node", "", node))
        return [*([own] if own else []), *self._known[asked]]

    def _held_for(self, asked):
        return self.of_services(self.services_for(asked))

    def services_for(self, asked):
        """The Services that may decide at these places."""
        first = {it for place in asked for it in self._that_may_have(*place)}
        behind = {place for it in first for place in ends_of(self._state, it)}
        return first | {it for place in behind for it in self._that_may_have(*place)}

    def of_services(self, keys):
        """These Services, as far as they are there, and their slices."""
        slices = [it for key in keys for it in self._state.slice_keys_of(key)]
        found = [self._state.held[it] for it in (*keys, *slices) if it in self._state.held]
        return sorted(found, key=lambda it: it.number)

    def _that_may_have(self, address, number, protocol):
        """The Services that may be reached there: at this address, or by a node port."""
        places = ((address, number, protocol), (None, number, protocol))
        return [it for place in places for it in self._at.get(place, ())]


def places_of(service):
    """All at which a Service may be reached, whatever its type: more than are doors."""
    spec = member(service, "spec")
    given = [member(spec, "clusterIP"), *members(spec, "clusterIPs"), *members(spec, "externalIPs")]
    given += [member(it, "ip") for it in members(service, "status", "loadBalancer", "ingress")]
    addresses = objects.addresses_in(given)
    for port in members(spec, "ports"):
        protocol = text(port, "protocol") or "TCP"
        for address in addresses:
            yield address, member(port, "port"), protocol
        if member(port, "nodePort"):
            yield None, member(port, "nodePort"), protocol


def ends_of(state, service):
    """The endpoints in the slices of a Service, with their protocols."""
    for item in state.slices_of(service):
        ports = members(item, "ports")
        for entry in members(item, "endpoints"):
            for address in objects.addresses_in(members(entry, "addresses")):
                for port in ports:
                    yield address, member(port, "port"), text(port, "protocol") or "TCP"
