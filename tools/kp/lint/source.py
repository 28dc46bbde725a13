"""An input that is read: the program and the notes see it as it comes."""

import signal

from ..lines import Input, pieces_of
from ..program import Refusals, Run
from .notes import Note
from .refusals import Refused
from .seen import Seen

INTERRUPT = {signal.SIGINT}


class Source:
    """Files as one input that is held, copied and given to the program as it comes."""

    def __init__(self, mode="replay", copied=None):
        self.status, self.said = None, ""  # of the program, at the end
        self._refusals, self._copied = Refusals(), copied
        self._run = Run(self._refusals.take, mode)
        self._is_live = mode == "live"
        self._held, self._seen = Input(), Seen(self._is_live)
        self._joined = []  # notes on files without a line feed at their end

    def read(self, names):
        """Reads files, one after the other. Ctrl-C is heard while one is waited for, and raises."""
        signal.pthread_sigmask(signal.SIG_BLOCK, INTERRUPT)
        before = signal.signal(signal.SIGINT, signal.default_int_handler)
        try:
            for at, name in enumerate(names):
                pieces = pieces_of([name])
                while piece := _next(pieces):
                    self.take(piece)
                if self._held.is_open() and at + 1 < len(names):
                    self._joined.append(_joined(self._held.count + 1, name, names[at + 1]))
        finally:
            signal.pthread_sigmask(signal.SIG_UNBLOCK, INTERRUPT)
            signal.signal(signal.SIGINT, before)

    def take(self, piece):
        """Takes more of the input."""
        if self._copied:
            self._copied(piece)
        self._run.feed(piece)
        self._see(self._held.take(piece))

    def _see(self, numbered):
        for number, line in numbered:
            self._seen.take(number, line)

    def end(self):
        """Ends the input; all notes: on the setting, on lines by their number, on objects as they
        came."""
        self._see(self._held.end())
        self.status, self.said = self._run.end()
        texts = self._refusals.texts
        if texts:  # what was refused isn't there
            self._seen = Seen(self._is_live)
            self._see(it for it in self._held.lines() if it[0] not in texts)
        refused = Refused(self._held, texts, self._seen.setting, self._refusals.final)
        told = [*self._seen.end(), *self._joined, *refused.notes()]
        of_lines = [it for it in told if not it.is_of_object()]
        of_objects = [it for it in told if it.is_of_object()]
        return [
            *self._seen.on_setting(refused.is_of_setting()),
            *sorted(of_lines, key=lambda it: it.line),
            *sorted(of_objects, key=lambda it: it.line),
        ]


def _next(pieces):
    """The next piece; a signal comes here alone, so that no piece is taken by halves."""
    signal.pthread_sigmask(signal.SIG_UNBLOCK, INTERRUPT)
    try:
        return next(pieces, None)
    finally:
        signal.pthread_sigmask(signal.SIG_BLOCK, INTERRUPT)


def _joined(number, name, next_name):
    says = f"{name} has no line feed at its end, so {next_name} goes on in this line: add one"
    becomes = "the first line of the second file goes on in the last one of the first"
    return Note("no-line-feed", says, number, becomes=becomes, mends="add a line feed")


def notes_on(data, mode="replay"):
    """The notes on an input of these bytes."""
    source = Source(mode)
    source.take(data)
    return source.end()
