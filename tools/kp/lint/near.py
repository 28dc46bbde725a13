"""Notes on members of objects that aren't read and are named almost as one that is. Objects have
many members that nobody here reads, so no others are noted."""

import difflib
import re

from ..lines import shown
from ..members import OBJECTS
from ..objects import key_of, text
from .commands import plain
from .notes import Note

NAMES = re.compile(rb'"(\w+)"\s*:')
NEAR = 0.87  # as difflib measures: of nine letters one may differ
STEPS = re.compile(r"\[\]|[^.\[]+")
AT_ROOT = ("apiVersion", "kind", "metadata", "by", "type", "object", "items", "op", "event")


class Place:
    """Where members stand: the names that are read there, and the place of the elements of a
    list."""

    def __init__(self):
        self.names, self.element = {}, None

    def below(self, step):
        if step == "[]":
            self.element = self.element or Place()
            return self.element
        return self.names.setdefault(step, Place())


def _place_of(kind):
    root = Place()
    for path in OBJECTS[kind]:
        place = root
        # names of labels are anybody's
        for step in STEPS.findall(re.sub(r"(labels|selector)\..*", r"\1", path)):
            place = place.below(step)
    for name in AT_ROOT:
        root.below(name)
    return root


PLACES = {kind: _place_of(kind) for kind in OBJECTS}


def _names_in(place):
    for name, below in place.names.items():
        yield name
        yield from _names_in(below)
    if place.element:
        yield from _names_in(place.element)


READ = {name for place in PLACES.values() for name in _names_in(place)}
PLAIN = {plain(it) for it in READ}


class Names:
    """Whether a line has names that come near one that is read, where objects have it."""

    def __init__(self):
        self._far = {name.encode() for name in READ}

    def are_near(self, line):
        new = set(NAMES.findall(line)) - self._far
        near = [it for it in new if _is_near(it.decode(errors="replace"), PLAIN)]
        self._far |= new.difference(near)
        return bool(near)


def _is_near(name, plain_names):
    """The name among these that one comes near, or ""."""
    if len(name) > 60:
        return ""
    if plain(name) in plain_names:
        return plain(name)
    found = difflib.get_close_matches(plain(name), plain_names, 1, NEAR) if len(name) > 3 else ()
    return found[0] if found else ""


def misnamed(number, item):
    """A note for each member of an object whose name comes near one that is read in its place."""
    place = PLACES.get(text(item, "kind"))
    if place:
        for path, name, near, value in _misnamed(place, item, ""):
            key = key_of(item)
            yield Note(
                "member-not-read",
                f"{path}{name} isn't read ({shown(near)}?)",
                number,
                about="" if key else text(item, "kind"),
                key=key,
                member=path + name,
                value=value,
                becomes="it isn't read",
                mends=f"name it {near}",
            )


def _misnamed(place, value, path):
    if isinstance(value, list):
        for at, item in enumerate(value if place.element else ()):
            yield from _misnamed(place.element, item, f"{path[:-1]}[{at}].")
    elif isinstance(value, dict) and place.names:
        known = {plain(it): it for it in place.names}
        for name, inner in value.items():
            if name in place.names:
                yield from _misnamed(place.names[name], inner, f"{path}{name}.")
            elif near := _is_near(name, known):
                yield path, name, known[near], inner
