"""How notes are written."""

import os
import signal
from collections import Counter

MOST = 10  # notes of a code that a text has


def tell(notes, is_json, are_all, end):
    """Writes notes to standard output or error."""
    held, size = [], 0
    for text in (it.json() for it in notes) if is_json else _texts(notes, are_all):
        held.append(text)
        size += len(text)
        if size > 1 << 16:
            write(end, _bytes(held))
            held, size = [], 0
    write(end, _bytes(held))


def _texts(notes, are_all):
    counts = Counter()
    for note in notes:
        counts[note.code] += 1
        if are_all or counts[note.code] <= MOST:
            yield note.text()
    for code, count in counts.items():
        if count > MOST and not are_all:
            yield f"{code}: {count - MOST} more like these: --all has each"


def _bytes(texts):
    return "".join(it + "\n" for it in texts).encode(errors="backslashreplace")


def say(text):
    write(2, _bytes([" ".join(text.split())]))


def write(end, data):
    """Writes bytes; where nobody reads any more this process ends as other filters do."""
    try:
        view = memoryview(data)
        while view:
            view = view[os.write(end, view) :]
    except BrokenPipeError:
        signal.signal(signal.SIGPIPE, signal.SIG_DFL)
        os.kill(os.getpid(), signal.SIGPIPE)
    except OSError:
        os._exit(2)
