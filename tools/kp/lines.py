"""An input as the program reads it: its lines with their numbers, their values, and why a line is
no JSON value that the program reads."""

import json
import math
import os
import re
import sys
from bisect import bisect_right
from typing import NamedTuple

MOST_BYTES = 16_777_216  # of a line
MOST_LEVELS = 127
BLANKS = b" \t\r"
PIECE = 65_536
NO_VALUE = object()
BYTE_ORDER_MARK = b"\xef\xbb\xbf"

# a text of JSON, whole or cut off, and what stands between texts
PARTS = re.compile(r'"(?:[^"\\]|\\.)*"?|[^"]+')
HALF = re.compile(r"\\u[dD][89abAB]|\\u[dD][c-fC-F]")


class Unreadable(Exception):
    """A file that can't be read: its name and why."""


def need(paths):
    """Raises where one of these files isn't there, and opens none."""
    for path in paths:
        try:
            if path != "-":
                os.stat(path)
        except OSError as error:
            raise Unreadable(f"{path} can't be read: {error.strerror}") from error


def pieces_of(paths):
    """The bytes of files, one after the other, as they come; `-` is standard input."""
    for path in paths:
        try:
            end = 0 if path == "-" else os.open(path, os.O_RDONLY)
            try:
                while piece := os.read(end, PIECE):
                    yield piece
            finally:
                if end:
                    os.close(end)
        except OSError as error:
            name = "standard input" if path == "-" else path
            raise Unreadable(f"{name} can't be read: {error.strerror}") from error


class Input:
    """An input that is held as it came, with the numbers of its lines, from 1 on."""

    def __init__(self):
        self.blocks, self.firsts = [], []  # whole lines, and the number of the first of each block
        self.count = 0
        self._rest = []
        self._split = -1, []  # the block that was asked for last, and its lines

    def take(self, piece):
        """Holds more bytes; the lines that they end, each with its number."""
        cut = piece.rfind(b"\n") + 1
        if cut == 0:
            self._rest.append(piece)
            return iter(())
        block = b"".join([*self._rest, piece[:cut]])
        self._rest = [piece[cut:]] if cut < len(piece) else []
        return self._hold(block)

    def end(self):
        """The last line, where no line feed ended it."""
        block = b"".join(self._rest)
        self._rest = []
        return self._hold(block) if block else iter(())

    def _hold(self, block):
        first = self.count + 1
        self.blocks.append(block)
        self.firsts.append(first)
        self.count += block.count(b"\n") + (not block.endswith(b"\n"))
        return enumerate(_lines(block), first)

    def lines(self):
        """All lines so far, each with its number."""
        for first, block in zip(self.firsts, self.blocks):
            yield from enumerate(_lines(block), first)

    def line(self, number):
        """The line of this number, from 1 to `count`."""
        at = bisect_right(self.firsts, number) - 1
        if at != self._split[0]:
            self._split = at, _lines(self.blocks[at])
        return self._split[1][number - self.firsts[at]]

    def is_open(self):
        """Whether the last line so far has no line feed."""
        return bool(self._rest)


def _lines(block):
    lines = block.split(b"\n")
    if lines[-1] == b"":
        lines.pop()
    return lines


def is_blank(line):
    """Whether the program passes over a line."""
    return not line.strip(BLANKS)


_decode = json.JSONDecoder().decode
# a number that takes an older Python minutes, and that newer ones refuse
_LONG = None if hasattr(sys, "get_int_max_str_digits") else re.compile(rb"\d{4301}")


def value_of(line):
    """The value of a line, or NO_VALUE. It reads some lines that the program refuses, such as
    numbers that are not finite: which lines are refused is the program's to say."""
    try:
        if _LONG and len(line) > 4300 and _LONG.search(line):
            return NO_VALUE
        return _decode(line.decode())
    except (ValueError, RecursionError):
        return NO_VALUE


def is_too_deep(text):
    """Whether a value is written in more levels than the program reads."""
    level = 0
    for part in PARTS.findall(text):
        if part[0] != '"':
            for it in part:
                if it in "[{":
                    level += 1
                    if level > MOST_LEVELS:
                        return True
                elif it in "]}":
                    level -= 1
    return False


def _finite(text):
    if not math.isfinite(float(text)):
        raise ValueError(f"the number {text[:12]}{'..' if len(text) > 12 else ''} is too large")
    return 0


def _constant(text):
    raise ValueError(f"{text} is no value of JSON")


_strict = json.JSONDecoder(parse_int=_finite, parse_float=_finite, parse_constant=_constant)
# what the readers of several versions of Python say, in words for those who wrote the line
FAULTS = (
    ("Expecting ',' delimiter", 'a "," or a closing bracket is missing'),
    ("Expecting ':' delimiter", 'a ":" is missing'),
    ("Expecting property name", "the name of a member in double quotes is missing"),
    ("Illegal trailing comma", 'a "," stands before a closing bracket'),
    ("Expecting value", "a value is missing"),
    ("Unterminated string", "a text has no end"),
    ("Invalid control character", "a text has a control character, such as a tab"),
    ("Invalid \\", "a text has an escape that JSON doesn't know"),
    ("Extra data", "more follows after a value"),
)


class Fault(NamedTuple):
    """Why a text is no value of JSON: at which character, from 1 on (0: no certain one), and
    whether it only ends too early."""

    says: str
    at: int = 0
    is_cut: bool = False


def fault_of(line):
    """Why a line is no JSON value that the program reads; None where that isn't found."""
    if len(line) > MOST_BYTES:
        return Fault(f"it has {len(line)} bytes, and {MOST_BYTES} are the most")
    if line.startswith(BYTE_ORDER_MARK):
        return Fault("it begins with a byte order mark")
    try:
        return fault_in(line.decode())
    except UnicodeDecodeError as error:
        return Fault(f"byte {error.start + 1} is no UTF-8")


def fault_in(text):
    """The same of a text."""
    if text.count("[") + text.count("{") > MOST_LEVELS and is_too_deep(text):
        return Fault(f"it has more than {MOST_LEVELS} levels")
    try:
        value = _strict.decode(text)
        if HALF.search(text):
            json.dumps(value, ensure_ascii=False).encode()
    except json.JSONDecodeError as error:
        return _fault_of_json(error)
    except UnicodeEncodeError:
        return Fault("an escape such as \\ud800 is half a character")
    except RecursionError:
        return Fault(f"it has more than {MOST_LEVELS} levels")
    except ValueError as error:
        return Fault(str(error))
    return None


def _fault_of_json(error):
    text, at = error.doc, error.pos
    told = next((says for begins, says in FAULTS if error.msg.startswith(begins)), error.msg)
    if at >= len(text.rstrip(" \t\r\n")):
        return Fault("it ends too early: " + told, at + 1, True)
    rest = shown_text(text[at : at + 12].partition("\n")[0])
    return Fault(f"at character {at + 1} ({rest or 'a line feed'}): {told}", at + 1)


def shown_text(text):
    """A text without characters that a terminal would take as commands."""
    if text.isprintable():
        return text
    return "".join(it if it.isprintable() else ascii(it)[1:-1] for it in text)


def shown(value, most=60):
    """A value as JSON text for a sentence; what is long is cut off, or told by its size."""
    if isinstance(value, dict) and value:
        return "an object"
    if isinstance(value, list) and not (len(value) < 4 and all(map(_is_short, value))):
        return f"a list of {len(value)}" if value else "[]"
    if isinstance(value, str) and len(value) > most:
        return shown_text(json.dumps(value[:most], ensure_ascii=False))[:-1] + '.."'
    try:
        return shown_text(json.dumps(value, ensure_ascii=False, separators=(",", ":")))
    except ValueError:
        return "a long number"


def _is_short(value):
    return not isinstance(value, (dict, list)) and len(str(value)) < 40
