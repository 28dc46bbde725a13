"""A note on an input: what it speaks of, what becomes of that, and what mends it."""

import json
from typing import Any, NamedTuple, Optional

from ..lines import NO_VALUE, shown_text
from ..objects import Key


class Note(NamedTuple):
    """`line` is 0 where a note is of no line, and `last` the last one of several. A text is made of
    the place, whom the note is about, and `says`."""

    code: str
    says: str
    line: int = 0
    last: int = 0
    about: str = ""  # a command or the form of a line; of an object its key
    key: Optional[Key] = None
    member: str = ""
    value: Any = NO_VALUE
    allowed: tuple = ()
    becomes: str = ""
    mends: str = ""

    def text(self):
        place = ""
        if self.last > self.line:
            place = f"lines {self.line} to {self.last}"
        elif self.line and not self.is_of_object():
            place = f"line {self.line}"
        about = self.about or (str(self.key) if self.key else "")
        return shown_text(": ".join(it for it in (place, about, self.says) if it))

    def is_of_object(self):
        """Whether it is of an object, wherever that came."""
        return self.code in OF_OBJECTS

    def json(self):
        """It as a line of JSON; what isn't known of it is left out."""
        key = self.key
        value = self.value if is_short(self.value) else NO_VALUE
        made = {
            "code": self.code,
            "line": self.line,
            "lastLine": self.last if self.last > self.line else 0,
            "about": self.about,
            "object": key and {name: it for name, it in key._asdict().items() if it},
            "member": self.member,
            "allowed": list(self.allowed),
            "becomes": self.becomes,
            "mends": self.mends,
        }
        made = {name: it for name, it in made.items() if it}
        if value is not NO_VALUE:
            made["value"] = value
        return json.dumps({**made, "text": self.text()})


OF_OBJECTS = {"slice-of-no-service"}  # codes; `differences` adds its own


def is_short(value):
    """Whether a note holds a value, which is a text, a number or a truth of moderate length."""
    if isinstance(value, (dict, list)):
        return not value
    return value is not NO_VALUE and len(str(value)[:1001]) <= 1000
