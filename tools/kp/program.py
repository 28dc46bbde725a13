"""How the tools find the program and call it. $KPROXY is its command, with arguments of its own
where it has some, as in KUBECTL; without it the script beside the tools gives a built program."""

import fcntl
import os
import re
import selectors
import shlex
import subprocess
from collections import deque
from pathlib import Path

TOP = Path(__file__).resolve().parent.parent.parent
OK, OUT_OF_MEMORY, MISUSED, REFUSED, READ, WRITE, TOO_LONG = range(7)
# of a line, and of the sync that ends a live run
REFUSAL = re.compile(rb"^(?:line (\d+)|final): refused: (.*)$", re.M)
PIECE = 1 << 16
ROOM, MOST_WAITING = 1 << 20, 1 << 22  # of a pipe, and of what waits for the program
F_SETPIPE_SZ = 1031


class Missing(Exception):
    """There is no program that can be run: a sentence."""


def command():
    """The words with which the program begins."""
    given = os.environ.get("KPROXY", "")
    if given:
        return [given] if os.path.exists(given) else shlex.split(given)
    script = TOP / "kproxy"
    try:
        # what it says while it builds goes to the user
        made = subprocess.run([script, "build"], stdin=subprocess.DEVNULL, stdout=subprocess.PIPE)
    except OSError as error:
        raise Missing(f"{script} can't be run: {error.strerror}") from error
    path = made.stdout.decode(errors="surrogateescape").rstrip("\n")
    if made.returncode or not path:
        raise Missing(f"{script} build gave no program: set KPROXY to the path of one")
    return [path]


class Run:
    """The program over an input that is fed piece by piece, beside what else is done. What it
    prints goes to `printed`, a call that takes pieces."""

    def __init__(self, printed, mode="replay", *arguments):
        words = [*command(), mode, *arguments]
        pipe = subprocess.PIPE
        try:
            # a Ctrl-C is for the tool, which ends the input then
            self._process = subprocess.Popen(
                words, stdin=pipe, stdout=pipe, stderr=pipe, start_new_session=True, bufsize=0
            )
        except OSError as error:
            raise Missing(f"{words[0]} can't be run: {error.strerror}") from error
        self._pieces, self._waiting, self._said = deque(), 0, []
        self._input, self._is_ended = self._process.stdin, False
        self._poll = selectors.DefaultSelector()
        ends = [(self._process.stdout, printed), (self._process.stderr, self._said.append)]
        for end, taken in ends:
            os.set_blocking(end.fileno(), False)
            self._poll.register(end, selectors.EVENT_READ, taken)
        os.set_blocking(self._input.fileno(), False)
        try:
            fcntl.fcntl(self._input, F_SETPIPE_SZ, ROOM)
        except OSError:
            pass  # a smaller pipe serves too

    def feed(self, piece):
        """Gives the program more of its input, and waits only where much of it isn't taken yet."""
        if self._input:
            self._pieces.append(memoryview(piece))
            self._waiting += len(piece)
        self._pump(0)
        while self._waiting > MOST_WAITING:
            self._pump(None)

    def end(self):
        """Ends the input; the status, and what the program said on standard error."""
        self._is_ended = True
        self._write()
        while self._poll.get_map():
            self._pump(None)
        said = b"".join(self._said).decode(errors="replace")
        return self._process.wait(), said

    def _pump(self, seconds):
        """Writes and reads what can be, and waits for that at most so long."""
        self._write()
        for key, _ in self._poll.select(seconds):
            if key.data:
                self._read(key.fileobj, key.data)
            else:
                self._write()

    def _write(self):
        while self._pieces and self._input:
            try:
                count = os.write(self._input.fileno(), self._pieces[0])
            except BlockingIOError:
                break
            except OSError:  # it ended; its status says why
                self._pieces.clear()
                self._waiting, self._is_ended = 0, True
                break
            self._waiting -= count
            if count < len(self._pieces[0]):
                self._pieces[0] = self._pieces[0][count:]
            else:
                self._pieces.popleft()
        self._watch()

    def _watch(self):
        """Asks for a place to write where something waits, and closes the input at its end."""
        is_watched = self._input and self._input in self._poll.get_map()
        if self._pieces and self._input and not is_watched:
            self._poll.register(self._input, selectors.EVENT_WRITE, None)
        elif not self._pieces and is_watched:
            self._poll.unregister(self._input)
        if self._input and self._is_ended and not self._pieces:
            self._input.close()
            self._input = None

    def _read(self, end, taken):
        try:
            while piece := os.read(end.fileno(), PIECE):
                taken(piece)
        except BlockingIOError:
            return
        self._poll.unregister(end)


class Refusals:
    """Finds the refusals in what a run prints: `Run(Refusals().take)`."""

    def __init__(self):
        self.texts = {}  # by the number of the line
        self.final = ""  # why a live run's last sync was refused
        self._rest, self._known = b"", {}

    def take(self, piece):
        cut = piece.rfind(b"\n") + 1
        if cut == 0:
            self._rest += piece
            return
        for number, why in REFUSAL.findall(self._rest + piece[:cut]):
            # many lines have few texts
            text = self._known.setdefault(why, why.decode(errors="replace"))
            if number:
                self.texts[int(number)] = text
            else:
                self.final = text
        self._rest = piece[cut:]
