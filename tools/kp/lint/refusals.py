"""A note on each line that the program refused, with the object that is at fault and what is
allowed. Which lines those are, and why, is what the program printed."""

import json
import re

from ..lines import MOST_BYTES, NO_VALUE, is_blank, shown, value_of
from ..members import A_STREAM, AN_ADDRESS, COMMANDS, Form, choice, form_in_command, form_of
from ..objects import (
    KINDS,
    VERBS,
    address_of,
    at,
    events_of,
    key_of,
    member,
    owner_of,
    steps_of,
    text,
)
from .commands import not_read
from .forms import UNREAD, Forms
from .kinds import of_kind
from .near import misnamed
from .notes import Note

QUOTED = r'("(?:[^"\\]|\\.)*")'
OF_MEMBER = re.compile(
    "(missing|wrong type at|out of range at|bad name at|bad address at|bad range at|"
    f"duplicate port at|too many at) {QUOTED}(?:: (\\d+))?$"
)
OF_KIND = re.compile(f"kind {QUOTED} is not supported$")
OF_OP = re.compile(f"op {QUOTED} is not (known|for live)$")
OF_JOURNAL = re.compile(r"journal full at (\d+)$")
OF_CHAIN = re.compile(r"chain name (\S+) of (.*) and of (.*)$")
LATE = "config is not the first line"
STREAMS = "more than 64 streams"
UNKNOWN = "docs/FORMAT.md says what is read"  # of refusals that aren't known here
CODES = {
    "missing": "missing",
    "wrong type at": "wrong-type",
    "out of range at": "out-of-range",
    "bad name at": "bad-name",
    "bad address at": "bad-address",
    "bad range at": "bad-range",
    "duplicate port at": "duplicate-port",
    "too many at": "too-many",
}


class Refused:
    """The refusals of an input that is held."""

    def __init__(self, held, texts, setting, final=""):
        self.held, self.texts, self.setting, self.final = held, texts, setting, final

    def notes(self):
        """Notes on all lines that were refused, in order."""
        forms, done = Forms(self.held, self.texts), 0
        for number in sorted(self.texts):
            why = self.texts[number]
            if number <= done:
                continue
            if why in UNREAD:
                note, done = forms.note_at(number)
                yield note
            else:
                yield from self._of_line(number, why)
        if found := OF_CHAIN.match(self.final):
            yield self._clash(self.held.count, *found.groups())._replace(about="the last sync")

    def is_of_setting(self):
        """Whether a line that was refused is one of a setting."""
        for number, why in self.texts.items():
            line = self.held.line(number)
            if b'"config"' in line and b'"op"' in line:
                return True
        return False

    def _value(self, number):
        return value_of(self.held.line(number))

    def _of_line(self, number, why):
        if why.startswith("longer than"):
            yield self._too_long(number)
            return
        value = self._value(number)
        if found := OF_MEMBER.match(why):
            path = json.loads(found[2])
            yield self._of_member(number, value, why, found[1], path, found[3])
            if found[1] == "missing":
                yield from _misnamed(number, value, path)
        elif OF_KIND.match(why):
            yield of_kind(number, value)
        elif found := OF_OP.match(why):
            op = json.loads(found[1])
            yield _not_for_live(number, op) if found[2] == "for live" else _unknown_op(number, op)
        elif why == LATE:
            yield self._late(number)
        elif found := OF_JOURNAL.match(why):
            yield self._full(number, value, int(found[1]))
        elif found := OF_CHAIN.match(why):
            yield self._clash(number, *found.groups())
        elif why == STREAMS:
            yield _streams(number, value)
        else:
            yield Note(
                "refused", why, number, becomes=f"the line is refused: {why}", mends=UNKNOWN
            )

    # ---- members

    def _of_member(self, number, value, why, form, path, count):
        event, rest = owner_of(value, path)
        if event is not None:
            about, key = _about(event.object), key_of(event.object)
            allowed = _allowed_of(event.object, rest)
            if form == "duplicate port at":
                allowed = Form("a name of its own for each port")
            found = at(event.object, steps_of(event.object, rest)) if rest else event.object
        else:
            about, key, rest = _about_line(value), None, path
            allowed = _allowed_in_line(value, path)
            found = at(value, steps_of(value, path))
        name = rest or path
        says = _says(form, name, found, allowed, count)
        if text(value, "op") == "config":
            says += "; the defaults count"
        items = len(list(events_of(value))) if "items[" in path else 0
        if items > 1:
            says += f"; none of the {items} objects of its List counts"
        return Note(
            CODES[form],
            says,
            number,
            about="" if key else about,
            key=key,
            member=name,
            value=NO_VALUE if form == "missing" else found,
            allowed=allowed.accepted if allowed else (),
            becomes=f"the line is refused: {why}",
            mends=allowed.says if allowed else UNKNOWN,
        )

    # ---- lines

    def _too_long(self, number):
        size = len(self.held.line(number))
        mends = "jq -c '.items[]'"
        return Note(
            "line-too-long",
            f"{size} bytes, and {MOST_BYTES} are the most: {mends} makes lines of a List's objects",
            number,
            becomes=f"the line is refused: longer than {MOST_BYTES} bytes",
            mends=mends,
        )

    def _late(self, number):
        first = next(number for number, line in self.held.lines() if not is_blank(line))
        is_setting = text(self._value(first), "op") == "config"
        mends = f"write all of it in line {first}" if is_setting else f"put it before line {first}"
        return Note(
            "config-late",
            f"it counts on the first line alone: {mends}",
            number,
            about="config",
            becomes="the line is refused: config is not the first line",
            mends=mends,
        )

    def _full(self, number, value, held):
        count = len(list(events_of(value)))
        events = "its event" if count == 1 else f"its {count} events"
        most = self.setting.most_events
        return Note(
            "journal-full",
            f"{events} beside {held} before would be more than maxEvents, {most}: raise it in the "
            "setting, to at most 1000000",
            number,
            member="maxEvents",
            value=most,
            becomes=f"the line is refused: journal full at {held}",
            mends="raise maxEvents in the setting, to at most 1000000",
        )

    def _clash(self, number, name, first, second):
        length = self.setting.name_length
        mends = 'leave out "nameLength"' if length < 16 else "rename one of the two"
        return Note(
            "chain-clash",
            f"chains of {first} and of {second} would both be {name}, so that no tables are made: "
            f"{mends}",
            number,
            about="sync",
            member="nameLength",
            value=length,
            becomes="no tables are made, and the events stay for the next sync",
            mends=mends,
        )


def _misnamed(number, value, path):
    """What may be meant as a member that is missing."""
    event, _ = owner_of(value, path)
    op = text(value, "op")
    if event is not None:
        yield from misnamed(number, event.object)
    elif op in COMMANDS:
        yield from not_read(number, op, value)


def _says(form, name, found, allowed, count):
    may = f" ({allowed.says})" if allowed else ""
    if form == "missing":
        return f"{name} is missing{may}"
    if form == "too many at":
        return f"{name} has {count}{may}"
    if form == "duplicate port at":
        port = f"name {shown(text(found, 'name'))}" if text(found, "name") else "no name"
        protocol = text(found, "protocol") or "TCP"
        return f"{name} has {port} and {protocol}, as a port before it: give each a name of its own"
    return f"{name} {shown(found)}{may}"


def _about(item):
    """What an object is called that has no key."""
    return text(item, "kind") or "object"


def _about_line(value):
    if text(value, "op"):
        return text(value, "op")
    if text(value, "kind") == "List":
        return "List"
    return "watch event" if member(value, "object") is not None else ""


def _allowed_of(item, path):
    if path == "":
        return Form("an object")
    if path == "kind":
        return choice(*KINDS)
    if path == "apiVersion":
        return choice(KINDS.get(text(item, "kind"), "v1"))
    if path == "by":
        return A_STREAM
    return form_of(text(item, "kind"), path)


def _allowed_in_line(value, path):
    if path in ("type", "event.type"):
        return choice(*VERBS)
    if path == "items" or path.endswith(".items"):
        return Form("a list of objects")
    source = address_of(value.get("src")) if path == "dst" else None
    if source:
        accepted = [it for it in AN_ADDRESS.accepted if address_of(it).version == source.version]
        return Form(f"an address of IPv{source.version}, as src is", tuple(accepted))
    return form_in_command(text(value, "op"), path)


def _unknown_op(number, op):
    says, mends = f"op {shown(op)} ({', '.join(COMMANDS)})", ", ".join(COMMANDS)
    if op.lower() in ("delete", "deleted", "remove"):
        mends = '{"type":"DELETED","object":..} deletes an object'
        says += f"; {mends}"
    return Note(
        "unknown-op",
        says,
        number,
        member="op",
        value=op,
        allowed=tuple(COMMANDS),
        becomes="the line is refused: the op is not known",
        mends=mends,
    )


def _not_for_live(number, op):
    return Note(
        "not-for-live",
        "live runs its streams at once, and answers only packets: ask it of replay",
        number,
        about=op,
        member="op",
        value=op,
        becomes="the line is refused, by live alone",
        mends="ask it of replay",
    )


def _streams(number, value):
    return Note(
        "too-many-streams",
        f"by {shown(text(value, 'by') or 'main')} would be the 65th stream, and live runs 64",
        number,
        about=text(value, "op"),
        member="by",
        value=text(value, "by") or "main",
        becomes="the line is refused, by live alone",
        mends="use at most 64 names",
    )
