"""Notes on lines that are no lines as the program reads them: values over several lines, YAML,
lists, and what isn't JSON at all; with what makes lines of it."""

import json
import re

from ..lines import (
    BLANKS,
    BYTE_ORDER_MARK,
    MOST_BYTES,
    NO_VALUE,
    fault_in,
    fault_of,
    is_blank,
    shown,
    value_of,
)
from ..objects import KINDS, VERBS, events_of, text
from .commands import plain
from .notes import Note

BAD_JSON, NOT_EVENT = "bad json", "not an event"
NEEDED = ("op", "kind", "object")  # one of them is in each line
UNREAD = (BAD_JSON, NOT_EVENT)
JQ = "jq -c ."
YQ = "yq -c . (or yq -o json -I 0 . by the other program of this name)"
SEVERAL = 5  # lines in a row that aren't JSON have a note each, and more have one

TEXTS = re.compile(rb'"(?:[^"\\]|\\.)*"')
BRACKETS = re.compile(rb"[][{}]")
YAML_LINE = re.compile(rb"(?:---|\.\.\.|%YAML|#|\s*- |\s*(?:- +)*[\w./\"'-]+:(?:\s|$))")
YAML_NAME = re.compile(rb"\s*(?:- +)?(?:apiVersion|kind|metadata|spec|items|op|type)\s*:(?:\s|$)")


def brackets(line):
    """How many more brackets a line opens than it closes; None where a text isn't closed."""
    if not BRACKETS.search(line):
        return 0
    if b'"' in line:
        line = TEXTS.sub(b"", line)
        if b'"' in line:
            return None
    opened = line.count(b"{") + line.count(b"[")
    return opened - line.count(b"}") - line.count(b"]")


class Forms:
    """Notes on the lines that aren't JSON or no event, of an input that is held."""

    def __init__(self, held, refused):
        self.held, self.refused = held, refused  # texts of refusals, by number
        # how many lines may be looked at for values that turn out to be none
        self._left = 4 * held.count + 10_000
        self._no_yaml = 0  # lines up to this one are none of YAML

    def note_at(self, number):
        """The note on a line that was refused so, and maybe on those behind it; its last line."""
        line = self.held.line(number)
        if b"\0" in line[:200]:
            return self._sixteen(number)
        bare = line[3:] if line.startswith(BYTE_ORDER_MARK) else line
        if self.refused[number] == NOT_EVENT:
            return self._not_event(number, line), number
        if bare.lstrip(BLANKS)[:1] in (b"{", b"["):
            note = self._several(number)
            if note:
                return note, note.last
        elif self._may_be_yaml(number, bare):
            last = self._last_refused(number)
            if any(YAML_NAME.match(self.held.line(it)) for it in range(number, last + 1)):
                return self._yaml(number, last), last
            self._no_yaml = last
        return self._bad(number, line)

    def _may_be_yaml(self, number, line):
        return number > self._no_yaml and YAML_LINE.match(line)

    # ---- several lines

    def _last_refused(self, first):
        """The last line of those in a row that were refused as no JSON or no event."""
        last = number = first
        while number < self.held.count:
            number += 1
            if self.refused.get(number) in UNREAD:
                last = number
            elif not is_blank(self.held.line(number)):
                break
        return last

    def _several(self, first):
        """A note on a value that begins in a line and goes on in others, or None."""
        last = self._extent(first)
        is_cut = last == 0
        if is_cut:
            last = self._last_refused(first)
        if last <= first:
            return None
        data = b"\n".join(self.held.line(it) for it in range(first, last + 1))
        if len(data) > MOST_BYTES:
            return self._of_value(first, last, len(data), None, "")
        whole = data.decode(errors="replace").lstrip("\ufeff")
        fault = fault_in(whole)
        if is_cut and not (fault and fault.is_cut):
            return None
        if fault and not all(map(self._is_unread, range(first, last + 1))):
            return None
        return self._of_value(first, last, len(data), fault, whole)

    def _extent(self, first):
        """The line in which the brackets are closed that this one opens; 0 where none is, and the
        line itself where its value goes no further."""
        depth = 0
        for number in range(first, self.held.count + 1):
            change = brackets(self.held.line(number))
            if change is None:
                return first
            depth += change
            if depth <= 0:
                return number if depth == 0 else first
            self._left -= 1
            if self._left < 0:
                return first
        return 0

    def _of_value(self, first, last, size, fault, whole):
        count, is_list = last - first + 1, whole.lstrip()[:1] == "["
        says = f"one value over {count} lines"
        mends = JQ
        if fault and fault.is_cut:
            says += ", and its end is missing"
            mends = "write the rest of it"
        elif fault:
            at = first + whole.count("\n", 0, max(fault.at - 1, 0))
            begin = whole.rfind("\n", 0, max(fault.at - 1, 0)) + 1
            told = re.sub(r"^at character \d+", f"at character {fault.at - begin}", fault.says)
            says += f", with a fault in line {at}: {told}"
            mends = f"mend line {at}, and then {JQ}"
        elif size > MOST_BYTES:
            mends = "jq -c '.items[]'"
            says += f" and {size} bytes, too many for a line: "
            says += f"of this alone {mends} makes a line of each object"
        elif is_list:
            mends = "jq -c '.[]'"
            says += f", a list: of this alone {mends} makes a line of each of its values"
        else:
            says += f": {JQ} makes one line of it"
        taken = [it for it in range(first, last + 1) if it not in self.refused]
        taken = [it for it in taken if not is_blank(self.held.line(it))]
        if taken:
            says += f"; line {taken[0]}" + (f" and {len(taken) - 1} more" if taken[1:] else "")
            says += " of it counted by itself"
        becomes = "each line is refused" if not taken else "some of its lines count by themselves"
        return Note("several-lines", says, first, last, becomes=becomes, mends=mends)

    def _is_unread(self, number):
        return self.refused.get(number) in UNREAD or is_blank(self.held.line(number))

    @staticmethod
    def _yaml(first, last):
        says = f"YAML: of this alone {YQ} makes lines, and tools/cluster takes it as it is"
        return Note("yaml", says, first, last, becomes="each line is refused", mends=YQ)

    def _sixteen(self, first):
        last = self._last_refused(first)
        says = "UTF-16, or no text: iconv -f utf-16 -t utf-8 makes UTF-8 of the former"
        note = Note(
            "utf-16",
            says,
            first,
            last,
            becomes="each line is refused",
            mends="iconv -f utf-16 -t utf-8",
        )
        return note, last

    # ---- single lines

    def _bad(self, first, line):
        last = first
        while (
            last < self.held.count
            and self.refused.get(last + 1) == BAD_JSON
            and self._is_plain(last + 1)
        ):
            last += 1
        if last - first < SEVERAL:
            return self._bad_line(first, line), first
        found = fault_of(line)
        says = f"{last - first + 1} lines are no JSON"
        says += f"; line {first}: {found.says}" if found else ""
        becomes, mends = "each line is refused", "write each as JSON"
        return Note("bad-json", says, first, last, becomes=becomes, mends=mends), last

    def _is_plain(self, number):
        """Whether a line begins no form of several lines."""
        line = self.held.line(number)
        is_json = line.lstrip(BLANKS)[:1] in (b"{", b"[")
        return not is_json and not self._may_be_yaml(number, line)

    def _bad_line(self, number, line):
        refused = "the line is refused: bad json"
        if line.startswith(BYTE_ORDER_MARK) and value_of(line[3:]) is not NO_VALUE:
            mends = JQ if number == 1 else r"sed 's/^\xef\xbb\xbf//'"
            says = f"it begins with a byte order mark: {mends} takes it away"
            return Note("byte-order-mark", says, number, becomes=refused, mends=mends)
        values = values_in(line)
        if values > 1:
            says = f"{values} values on one line: {JQ} makes a line of each"
            return Note("several-values", says, number, becomes=refused, mends=JQ)
        fault = fault_of(line)
        says = "bad JSON: " + (fault.says if fault else "the program doesn't read it")
        return Note("bad-json", says, number, becomes=refused, mends="write it as JSON")

    def _not_event(self, number, line):
        value = value_of(line)
        refused = "the line is refused: not an event"
        if isinstance(value, list):
            mends = "jq -c '.[]'"
            says = f"a list of {len(value)}: "
            says += f"of this line alone {mends} makes a line of each of its values"
            return Note("list", says, number, becomes=refused, mends=mends)
        if not isinstance(value, dict):
            mends = "a line is an object of the cluster, or a command"
            says = f"{shown(value)} is no object: {mends}"
            return Note("not-an-event", says, number, value=value, becomes=refused, mends=mends)
        return self._object(number, value, refused)

    @staticmethod
    def _object(number, value, refused):
        """A note on an object, or on one inside, that is neither an event nor a command."""
        inner = value.get("event") if value.get("op") == "event" else value
        if isinstance(inner, dict) and inner.get("type") is not None and inner.get("object"):
            form = inner["type"]
            if isinstance(form, str) and form not in VERBS:
                allowed = tuple(VERBS)
                says = f"watch event: type {shown(form)} ({', '.join(allowed)})"
                said = text(inner, "object", "message")
                says += f"; it says {shown(said)}" if said else ""
                return Note(
                    "not-an-event",
                    says,
                    number,
                    member="type",
                    value=form,
                    allowed=allowed,
                    becomes=refused,
                    mends=", ".join(allowed),
                )
        for event in events_of(value):
            if isinstance(event.object, dict) and event.object.get("kind") is None:
                where = event.path.rstrip(".")
                says = f"{where} has no kind ({', '.join(KINDS)}){near_kind(event.object)}"
                return _without_kind(says, number, f"{event.path}kind", refused)
        if not isinstance(inner, dict):
            mends = "an object of the cluster, or a watch event"
            says = f"event {shown(inner)} ({mends})"
            return Note(
                "not-an-event",
                says,
                number,
                about="event",
                member="event",
                value=inner,
                becomes=refused,
                mends=mends,
            )
        says = 'it has neither "op", as commands do, nor "kind", as objects do'
        if inner.get("type") is not None:
            says = 'it has "type" and no "object", as watch events have, and no "kind" or "op"'
        says += near_kind(inner)
        return _without_kind(says, number, "kind", refused)


def _without_kind(says, number, name, refused):
    return Note(
        "not-an-event",
        says,
        number,
        member=name,
        allowed=tuple(KINDS),
        becomes=refused,
        mends=f"kind: {', '.join(KINDS)}",
    )


def near_kind(value):
    """Of an object without a kind, the member that may be meant as it or as a command."""
    for name in value:
        if name not in NEEDED and plain(name.strip()) in (*NEEDED, "cmd", "command", "obj"):
            return f"; {shown(name)} isn't read"
    return ""


def values_in(line):
    """How many values of JSON stand on a line; 0 where it has something else too."""
    try:
        rest, count = line.decode().strip(), 0
    except UnicodeDecodeError:
        return 0
    while rest and count < 1000:
        found = _value_at_begin(rest)
        if found is None:
            return 0
        rest, count = rest[found:].lstrip(), count + 1
    return count


def _value_at_begin(text):
    try:
        return _scan(text)[1]
    except (ValueError, RecursionError):
        return None


_scan = json.JSONDecoder().raw_decode
