"""Answers as text: a table for one node, rows for several."""

import os
import sys

from ..printed import endpoint_text
from ..objects import address_of
from ..state import some
from .asked import timeout_of
from .near import near_misses
from .order import order
from .places import CALLED, host_text
from .said import (
    chance_text,
    key_of,
    kinds_text,
    others_of,
    served_text,
    service_text,
    words_for,
)

HEADS = ("CHANCE", "ENDPOINT", "POD", "NODE", "ZONE", "SEES")
LABEL = 9  # the width of a label in front of a sentence
BOLD, DIM, RED, PLAIN = "\033[1m", "\033[2m", "\033[31m", "\033[0m"


def coloured(text, colour):
    """A text in a colour, on a terminal alone."""
    if not text or not sys.stdout.isatty() or "NO_COLOR" in os.environ:
        return text
    return f"{colour}{text}{PLAIN}"


def laid_out(rows):
    """Rows as lines; the last cell of a row may be of any width."""
    widths = [
        max((len(row[at]) for row in rows if at < len(row) - 1), default=0)
        for at in range(max(map(len, rows)))
    ]
    return ["  ".join(padded(row, widths)).rstrip() for row in rows]


def padded(row, widths):
    return [*(cell.ljust(width) for cell, width in zip(row[:-1], widths)), row[-1]]


def labelled(label, sentences):
    """Sentences below each other, behind a label."""
    for it in sentences:
        yield f"{label.ljust(LABEL)}{it}"
        label = ""


# ---- rows of endpoints


def end_cells(state, door, endpoint):
    """The Pods, the node and the zone of an endpoint."""
    end = state.end(key_of(door), address_of(endpoint["address"]))
    return [", ".join(end.pods) or "-", end.node or "-", end.zone or "-"]


def path_rows(state, words, answer, verb=""):
    """The endpoints that may be chosen, each with its chance and what it sees, behind a verb."""
    for it in answer.paths:
        sent = it.get("sent") or it
        if "endpoint" not in sent:
            continue
        is_to = it["verdict"] == "to"
        sees = verb + words.masked(it["masked"]) if is_to else words.refusal(it)
        cells = end_cells(state, sent["door"], sent["endpoint"])
        yield [chance_text(it["chance"]), endpoint_text(sent["endpoint"]), *cells, sees]


def aside_rows(state, words, answer):
    """The others, and why."""
    door = answer.door
    for it in answer.asides:
        cells = end_cells(state, it["servicePort"], it["endpoint"])
        yield ["-", endpoint_text(it["endpoint"]), *cells, words.why(it["why"], door["kind"])]


def refusals(words, answer):
    """What becomes of a packet that is sent to no endpoint."""
    without = [it for it in answer.paths if "endpoint" not in (it.get("sent") or it)]
    return [words.refusal(it, answer.own) for it in without]


# ---- one node


def head_text(state, source, answer):
    """What is asked, with the name of the door that answers."""
    target, door = answer.question.target, answer.door
    host = host_text(answer.question.address, target.version)
    place = f"{host}:{target.number}/{target.protocol}"
    if door:
        return f"{source.text()} to {service_text(door)}: {CALLED[door['kind']]} {place}"
    kind = f"{target.service_text()}: {CALLED[target.kind]} " if target.kind else ""
    return f"{source.text()} to {kind}{place}"


def one_node(state, source, answer):
    """An answer as lines."""
    words = words_for(answer)
    rows = [*path_rows(state, words, answer), *aside_rows(state, words, answer)]
    yield coloured(head_text(state, source, answer), BOLD)
    yield ""
    refused = [coloured(it, RED) for it in refusals(words, answer)]
    yield from [*refused, ""] if refused and rows else refused
    if rows:
        head, *rest = laid_out([HEADS, *rows])
        yield coloured(head, BOLD)
        yield from (coloured(it, DIM) if it[0] == "-" else it for it in rest)
    below = [*notes(state, words, answer)]
    yield from ["", *below] if below else []


def notes(state, words, answer):
    """What stands below the endpoints."""
    yield from labelled("near", near_misses(state, answer))
    yield from labelled("instead", instead(answer))
    yield from labelled("order", order(state, answer))
    yield from labelled("affinity", affinity(state, answer))
    yield from labelled("health", health(answer))
    yield from labelled("others", others(state, words, answer))
    yield from labelled("chains", chains(answer))


def instead(answer):
    """Which other Service answers at a place of the one that was asked for."""
    asked, door = answer.question.target.service, answer.door
    if asked and door and key_of(door) != asked:
        yield (
            f"Service {asked.namespace}/{asked.name} has this place too, and "
            f"{service_text(door)} answers there"
        )


def affinity(state, answer):
    door = answer.door
    seconds = door and timeout_of(state.services.get(key_of(door)))
    if seconds is not None:
        yield (
            f"ClientIP: a client that came is kept at its endpoint until {seconds} seconds pass "
            "without a new connection; asked as a client that didn't come within that time"
        )


def health(answer):
    if answer.health:
        yield f"{health_text(answer.health)} at port {answer.health['port']}"


def health_text(said):
    count = said["local"]
    return f"{said['status']}, {count} local endpoint{'' if count == 1 else 's'}"


def others(state, words, answer):
    version = answer.question.address.version
    for sources in others_of(answer):
        whom = kinds_text(state, words, sources, version)
        yield f"{whom}: {served_text(words, sources[0], answer)}"


def chains(answer):
    for place, passes in enumerate(answer.trails, 1):
        yield f"{place}: {', '.join(map(' '.join, passes)) or 'none'}"


# ---- several nodes


def several_nodes(state, answers):
    """A row or more for each group of nodes that answer alike, and what is said once."""
    groups = {}
    for it in answers:
        groups.setdefault(alike(it), []).append(it)
    yield from laid_out([row for it in groups.values() for row in group_rows(state, it)])
    below = [*said_once(state, answers), *labelled("chains", chains_of(groups.values()))]
    yield from ["", *below] if below else []


def chains_of(groups):
    for group in groups:
        nodes = some((it.question.node for it in group), 3)
        yield from (f"{nodes}: {it}" for it in chains(group[0]))


def heading(source, answer):
    """The head of rows, where others have another one."""
    target, door = answer.question.target, answer.door
    where = service_text(door) if door else target.service_text()
    kind = CALLED[door["kind"] if door else target.kind]
    yield coloured(f"{source.text()} to {where}: {kind} {target.at()}", BOLD)
    yield ""


def alike(answer):
    """What two nodes that answer alike have in common."""
    said = [{**it, "line": 0} for it in (*answer.paths, *answer.asides)]
    return repr([said, answer.cause, answer.health, answer.trails])


def group_rows(state, group):
    first = group[0]
    nodes = [it.question.node for it in group]
    words = words_for(first, nodes[0] if len(nodes) == 1 else "the node")
    addresses = {it.question.address for it in group}
    address = addresses.pop() if len(addresses) == 1 else None
    target = first.question.target
    head = [some(nodes, 3), f"{host_text(address, target.version)}:{target.number}"]
    head += [f"health {first.health['status']}"] if first.health else []
    for row in said_rows(state, words, first):
        yield [*head, *row]
        head = [""] * len(head)


def said_rows(state, words, answer):
    """The cells of a group: refusals, endpoints, and others with their reasons."""
    is_said = {answer.cause, *(it["reason"] for it in answer.paths)}
    yield from ([it] for it in refusals(words, answer))
    for row in path_rows(state, words, answer, "sees "):
        yield [*row[:3], row[-1]]
    for row, aside in zip(aside_rows(state, words, answer), answer.asides):
        if not IMPLIED.get(aside["why"], set()) & is_said:
            yield [*row[:3], row[-1]]


# why an endpoint isn't sent to, where the refusal says it already
IMPLIED = {
    "other node": {"no local endpoints"},
    "not admitted": {"not admitted", "closed to the source"},
}


def said_once(state, answers):
    yield from labelled("near", once(it for one in answers for it in near_misses(state, one)))
    yield from labelled("instead", once(it for one in answers for it in instead(one)))
    yield from labelled("order", once(it for one in answers for it in order(state, one)))
    yield from labelled("affinity", once(it for one in answers for it in affinity(state, one)))


def once(sentences):
    return list(dict.fromkeys(sentences))
