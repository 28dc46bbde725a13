"""Runs of a program, many thousand of them: what one is given is a file or a pipe, what it writes
is a file, and it is started without a copy of this process."""

import fcntl
import os
import re
import signal
from itertools import islice

SECONDS = 60
# a pipe holds so many pieces of at most so many bytes
PIECES, PIECE = 256, 4096
F_SETPIPE_SZ = 1031
ENVIRONMENT = dict(os.environ)


class Wrong(Exception):
    """What isn't so, a colon, and where."""


def end_of(words, given):
    """The status of a program and all that it writes. What it is given is closed."""
    said = os.memfd_create("said")
    try:
        ends = [(os.POSIX_SPAWN_DUP2, end, to) for end, to in ((given, 0), (said, 1), (said, 2))]
        process = os.posix_spawn(words[0], words, ENVIRONMENT, file_actions=ends)
        status = status_of(process)
        text = os.pread(said, os.fstat(said).st_size, 0)
        return status, text.decode(errors="surrogateescape")
    finally:
        os.close(given)
        os.close(said)


def status_of(process):
    """How a process ends, which is killed if it doesn't end in time."""
    signal.signal(signal.SIGALRM, ring)
    signal.alarm(SECONDS)
    try:
        return os.waitstatus_to_exitcode(os.waitpid(process, 0)[1])
    except TimeoutError as fault:
        os.kill(process, signal.SIGKILL)
        os.waitpid(process, 0)
        raise Wrong(f"status: there is none after {SECONDS} seconds") from fault
    finally:
        signal.alarm(0)


def ring(*_):
    raise TimeoutError


def file_of(data):
    """A file with these bytes, to be read."""
    made = os.memfd_create("given")
    with os.fdopen(os.dup(made), "wb") as file:
        file.write(data)
    os.lseek(made, 0, os.SEEK_SET)
    return made


def pipe_of(pieces):
    """A pipe that has all pieces, of which each read takes one."""
    end, start = os.pipe2(os.O_DIRECT | os.O_CLOEXEC)
    fcntl.fcntl(start, F_SETPIPE_SZ, PIECES * PIECE)
    for piece in pieces:
        os.write(start, piece)
    os.close(start)
    return end


def pieces_of(data, rng):
    """Random pieces of the bytes: some places are beside line feeds, and some beside each other.
    There are none of bytes that a pipe doesn't hold."""
    fixed = range(PIECE, len(data), PIECE)
    room = PIECES - len(fixed) - 1
    if len(data) > room * PIECE // 2:
        return ()
    if len(data) <= room:
        places = set(range(len(data)))
    else:
        feeds = [at.end() for at in islice(re.finditer(b"\n", data), room // 4)]
        run = rng.randrange(len(data))
        places = {*feeds, *(it - 1 for it in feeds), *range(run, run + room // 4)}
        places |= {rng.randrange(len(data)) for _ in range(rng.choice([0, 3, room // 4]))}
    places = sorted(it for it in {0, *places, *fixed} if it < len(data))
    return [data[start:end] for start, end in zip(places, [*places[1:], len(data)])]
