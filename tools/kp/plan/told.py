"""What a change does, as text and as objects."""

from ..objects import address_of
from ..printed import VALUES, both_text, change_text, endpoint_text
from ..state import encode, some
from ..why.places import CALLED, host_text
from ..why.said import Words, key_of, kind_text, service_text
from ..why.shown import BOLD, RED, coloured, laid_out
from .compared import ends_of

LOSS = "LOSS"


def door_text(door):
    """A door as the head of its rows."""
    version = 4 if door["family"] == "IPv4" else 6
    address = door["address"] and address_of(door["address"])
    place = f"{host_text(address or None, version)}:{door['number']}"
    return f"{service_text(door)}, {CALLED[door['kind']]} {place}"


CAUSES = {"no endpoints": "no endpoint", "no local endpoints": "no endpoint on {}"}


def got_text(node, got, is_masking_told, is_service_told):
    """What a kind of source gets on one side."""
    if got is None:
        return "no Service there"
    of = f" of {service_text(got['door'])}" if is_service_told else ""
    if "verdict" in got:
        cause = CAUSES.get(got["cause"], got["cause"]).format(node)
        return f"{got['verdict']}: {cause}{of}"
    count, masked = got["open"], got["masked"]
    parts = [f"{count} endpoint{'' if count == 1 else 's'}{of}"]
    if is_masking_told:
        parts.append("masked" if masked == count else f"{masked or 'not'} masked")
    parts += [f"{got['refused']} refused"] if got["refused"] else []
    return ", ".join(parts)


def said_text(node, row):
    """What it got, and gets now. The client's address, and another Service, are told of where these
    differ; and where nothing of this does, how many endpoints are others."""
    both = row.before, row.after
    is_open = all(it and "open" in it for it in both)
    is_masking = is_open and row.before["masked"] != row.after["masked"]
    is_service = all(both) and service_text(row.before["door"]) != service_text(row.after["door"])
    before, after = (got_text(node, it, is_masking, is_service) for it in both)
    if before != after:
        return f"{before}, now {after}"
    came, went = map(len, ends_of(row.change, row.source["whence"]))
    if (came, went) == (0, 0):
        return f"{before}: {other_door_text(row)}"
    if came != went:
        return f"{before}: {came} came, {went} went"
    others = "another" if came == 1 else "others"
    if is_open and came == row.after["open"]:
        return f"{before}, now {others}"
    return f"{before}, now {came} of them {others}"


def other_door_text(row):
    """How what answers differs, where its counts don't."""
    for name, words in (("list", "of the list {}"), ("cause", "{}")):
        both = [it.get(name) for it in (row.before, row.after)]
        if both[0] != both[1]:
            return ", now ".join(words.format(it) for it in both)
    return ", now ".join(CALLED[it["door"]["kind"]] for it in (row.before, row.after))


def told_of(change):
    """What `changes` says of a door that differs, without the endpoints."""
    bare = {**change, "new": [], "gone": []}
    if "inside" in change:
        bare["inside"] = {**change["inside"], "new": [], "gone": []}
    states, *parts = change_text(bare).partition(": ")[2].split("; ")
    is_same = change["before"] == change["now"]
    return "; ".join(parts if is_same and parts else [states, *parts])


def ends_text(state, change):
    """Which endpoints come and go at a door."""
    door = change["door"]
    for word in ("new", "gone"):
        ends = [end_text(state, door, it) for it in change[word]]
        if ends:
            yield f"{word} {some(ends, 3)}"


def end_text(state, door, endpoint):
    pods = state.end(key_of(door), address_of(endpoint["address"])).pods
    return endpoint_text(endpoint) + (f" ({', '.join(pods)})" if pods else "")


def whom_text(row, node):
    """Of which kind of source a row is."""
    version = 6 if row.change["door"]["family"] == "IPv6" else 4
    bare = {**row.source, "inRangesOf": []}
    return row.ranges or kind_text(row.state, Words(node, "them"), bare, version)


def text_of(sides, rows):
    """The lines for all rows: a head for each door, and nodes alike in one row."""
    by_door = {}
    for it in rows:
        by_door.setdefault(door_text(it.change["door"]), []).append(it)
    for at, (head, mine) in enumerate(by_door.items()):
        yield from [""] if at else []
        yield coloured(head, BOLD)
        for line in laid_out([*grouped(mine), *without_sources(mine)]):
            yield coloured(line, RED) if line.endswith(LOSS) else line
        yield from ends_lines(sides, mine)


def without_sources(rows):
    """What is said of the door, on nodes where no source gets something else."""
    found = {}
    for it in rows:
        if it.source is None:
            found.setdefault(told_of(it.change), []).append(it.node)
    return [["  " + some(nodes, 3), text] for text, nodes in found.items()]


def ends_lines(sides, rows):
    """The endpoints that come and go at a door, with the nodes where these aren't all."""
    found = {}
    for row in rows:
        for it in ends_of_row(sides, row):
            found.setdefault(it, {})[row.node] = None
    everywhere = len({it.node for it in rows})
    for it, nodes in found.items():
        yield f"  {it}" if len(nodes) == everywhere else f"  {some(nodes, 3)}  {it}"


def ends_of_row(sides, row):
    """Endpoints that come are those of the side after, and those that go of the one before. No
    source tells of affinity."""
    yield from ends_text(sides.after, {**row.change, "gone": []})
    yield from ends_text(sides.before, {**row.change, "new": []})
    if row.source is not None and "before" in row.change.get("affinity", ()):
        yield both_text(VALUES["affinity"][1], row.change["affinity"])


def grouped(rows):
    """Rows as cells: sources that get the same together, and nodes that answer alike."""
    by_node = {}
    for it in rows:
        if it.source is not None:
            by_node.setdefault(it.node, []).append(it)
    groups = {}
    for node, mine in by_node.items():
        groups.setdefault(tuple(merged(mine, "the node")), []).append(node)
    for nodes in groups.values():
        called = nodes[0] if len(nodes) == 1 else "the node"
        for it in merged(by_node[nodes[0]], called):
            yield ["  " + some(nodes, 3), *it]


def merged(rows, node):
    """Who, what they got and get, and whether that is a loss."""
    found = {}
    for it in rows:
        shape = said_text(node, it), LOSS if it.is_loss() else ""
        found.setdefault(shape, []).append(whom_text(it, node))
    most = max(it.kinds for it in rows)
    called = {it: " and ".join(whom) if len(whom) < most else "all" for it, whom in found.items()}
    return [(called[it], *it) for it in found]


SAID = "door", "new", "gone", "policy", "affinity", "sources", "inside"


def object_of(row):
    """A row as JSON."""
    change = {name: row.change[name] for name in SAID if name in row.change}
    got = {"before": row.before, "after": row.after, "isLoss": row.is_loss()}
    return encode({"node": row.node, **change, "source": row.source, **got})
