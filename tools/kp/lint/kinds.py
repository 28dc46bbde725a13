"""Notes on lines that were refused for the kind of an object: typed lists, Lists that hold an object
that isn't read, and objects of other kinds or versions."""

from ..lines import shown
from ..objects import KINDS, events_of, is_read, key_of, member, members, text
from .notes import Note

READ_ITEMS = "jq -c '.items[] | select(.kind | IN(\"" + '","'.join(KINDS) + "\"))'"


def of_kind(number, value):
    """A note on a line that was refused for the kind of an object, or its version."""
    listed = next((it for it in _wholes(value) if is_typed_list(it)), None)
    if listed:
        return _typed_list(number, listed)
    events = list(events_of(value))
    for event in events:
        if isinstance(event.object, dict) and not is_read(event.object):
            if "items[" in event.path:
                return _in_list(number, event, len(events))
            return _other_kind(number, event.object)
    becomes, mends = "the line is refused", ", ".join(KINDS)
    says = f"its kind isn't read ({mends})"
    return Note("unsupported-kind", says, number, becomes=becomes, mends=mends)


def _wholes(value):
    """A value, and the objects that it brings as an event."""
    yield value
    yield member(value, "event")
    yield member(value, "object")
    yield member(value, "event", "object")


def is_typed_list(value):
    kind = text(value, "kind")
    return kind.endswith("List") and kind != "List" and isinstance(member(value, "items"), list)


def _typed_list(number, value):
    kind = text(value, "kind")
    item = kind[: -len("List")]
    count = len(members(value, "items"))
    version = shown(KINDS.get(item, text(value, "apiVersion")))
    mends = f"jq -c '.items[] | {{apiVersion:{version},kind:{shown(item)}}} + .'"
    says = f"{count} in one: of this line alone {mends} makes a line of each"
    if item not in KINDS:
        says, mends = f"its kind ({', '.join(KINDS)}): leave it out", "leave it out"
    return Note(
        "typed-list",
        says,
        number,
        about=kind,
        member="kind",
        value=kind,
        becomes=f"the line is refused: kind {shown(kind)} is not supported",
        mends=mends,
    )


def _in_list(number, event, count):
    """A note on an object of a List that isn't read, which refuses all of it."""
    key, kind = key_of(event.object), text(event.object, "kind")
    version = member(event.object, "apiVersion")
    what = str(key or kind or "an object")
    if kind in KINDS:
        what += f" of apiVersion {shown(version)} ({KINDS[kind]})"
        mends = f"write {KINDS[kind]}"
        says = f"{event.path.rstrip('.')} is {what}, so {_none_of(count)}"
    else:
        mends = READ_ITEMS
        says = f"{event.path.rstrip('.')} is {what}, which isn't read, so {_none_of(count)}: "
        says += f"of this line alone {mends} makes a line of each that is"
    return Note(
        "kind-in-list",
        says,
        number,
        about="List",
        key=key,
        member=event.path + ("apiVersion" if kind in KINDS else "kind"),
        value=version if kind in KINDS else kind,
        allowed=(KINDS[kind],) if kind in KINDS else tuple(KINDS),
        becomes="the line is refused, with all objects of the List",
        mends=mends,
    )


def _none_of(count):
    return f"none of its {count} objects counts" if count > 1 else "it brings nothing"


def _other_kind(number, value):
    key, kind = key_of(value), text(value, "kind")
    about = "" if key else kind or "object"
    if kind in KINDS:
        name, found, allowed = "apiVersion", member(value, "apiVersion"), (KINDS[kind],)
        says = f"apiVersion {shown(found)} ({KINDS[kind]})"
    else:
        name, found, allowed = "kind", kind, tuple(KINDS)
        says = f"its kind isn't read ({', '.join(KINDS)}): leave it out"
    return Note(
        "unsupported-kind",
        says,
        number,
        about=about,
        key=key,
        member=name,
        value=found,
        allowed=allowed,
        becomes=f"the line is refused: kind {shown(kind)} is not supported",
        mends=", ".join(allowed),
    )
