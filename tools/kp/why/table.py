"""A table of all Services: what each kind of source gets at each of their places."""

from ..objects import text
from ..state import some
from .near import service_name, without_places
from .order import order
from .places import CALLED, lack_of_balancer, targets_at, ports_of
from .said import key_of
from .shown import BOLD, coloured, laid_out, labelled, once

COLUMNS = {
    ("outside", False): "OUTSIDE",
    ("outside", True): "OUTSIDE, IN RANGES",
    ("cluster", False): "CLUSTER",
    ("cluster", True): "CLUSTER, IN RANGES",
    ("node", False): "NODE",
    ("node", True): "NODE, IN RANGES",
    ("cluster and node", False): "CLUSTER AND NODE",
    ("cluster and node", True): "CLUSTER AND NODE, IN RANGES",
}
LEGEND = "masked: the endpoint sees an address of the node in place of the client's"


def all_targets(state):
    """The places of all Services, in the order of their names."""
    for key in sorted(state.services):
        for port in ports_of(state.services[key]):
            yield from targets_at(key, state.services[key], port)


def column_of(source):
    return source["whence"], bool(source["inRangesOf"])


def cell_text(source, service):
    """What a kind of source gets at a place of a Service, in the program's words."""
    owner = key_of(source["door"])
    other = "" if owner == service else f" of {owner.namespace}/{owner.name}"
    return f"{got_text(source)}{other}"


def got_text(source):
    if "verdict" in source:
        return f"{source['verdict']}, {source['cause']}"
    count, masked, refused = source["open"], source["masked"], source["refused"]
    parts = [f"{count} masked" if count and masked == count else str(count)]
    parts += [f"{masked} masked"] if 0 < masked < count else []
    return ", ".join([*parts, *([f"{refused} refused"] if refused else [])])


def cells_of(answer):
    """A cell for each column that the answer has, or the same for all where no door fits."""
    found = {}
    for it in answer.sources:
        found.setdefault(column_of(it), []).append(cell_text(it, answer.question.target.service))
    return {column: " or ".join(dict.fromkeys(cells)) for column, cells in found.items()}


def table(state, answers):
    """The lines of the table; nodes that answer alike are one row."""
    groups = {}
    for it in answers:
        target, cells = it.question.target, cells_of(it)
        alike = groups.setdefault(id(target), (target, {}))[1]
        alike.setdefault(repr(cells), (cells, []))[1].append(it.question.node)
    nodes = len({it.question.node for it in answers})
    columns = [it for it in COLUMNS if any(it in cells_of(one) for one in answers)]
    rows = [
        row_of(target, cells, named, nodes, columns)
        for target, alike in groups.values()
        for cells, named in alike.values()
    ]
    head = ["SERVICE", "PLACE", *(["NODES"] if nodes > 1 else []), *(COLUMNS[it] for it in columns)]
    first, *rest = laid_out([head, *rows])
    yield from [coloured(first, BOLD), *rest, "", LEGEND]
    yield from labelled("order", orders(state, answers))


def orders(state, answers):
    """At which places another Service may answer on a node."""
    return once(f"{it.question.target.at()}: {one}" for it in answers for one in order(state, it))


def row_of(target, cells, named, nodes, columns):
    key, port = target.service, text(target.port, "name")
    name = f"{key.namespace}/{key.name}{port and ':' + port}"
    on = ["all" if len(named) == nodes else some(named, 3)] if nodes > 1 else []
    none = "-" if cells else "no door"
    said = [cells.get(it, none) for it in columns]
    return [name, f"{CALLED[target.kind]} {target.at()}", *on, *said]


def others(state):
    """Services that have no place, and load balancers that have none."""
    have, told = {it.service for it in all_targets(state)}, []
    for key in sorted(state.services):
        lack = lack_of_balancer(state.services[key])
        if key not in have:
            told.append(without_places(state, key))
        elif lack:
            told.append(f"{service_name(key)}, load balancer: {lack}")
    return labelled("besides", told)
