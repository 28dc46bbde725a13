#!/usr/bin/env python3
"""What a program spends on each of two parts of its input: nanoseconds of a processor.

    bench/parts.py FIRST SECOND COMMAND [ARGUMENT..]

The second file is written once the program has answered the first, and the program's clock is read
after each. So what comes after a load is measured by itself, however long the load takes.
"""

import os
import subprocess
import sys
import threading
import time

# no command, so that its refusal is the last answer to a part
LAST = b'{"op":"end"}\n'
ANSWER = b'refused: op "end" is not known\n'


def feed(program, data):
    """Writes to a program."""
    program.stdin.write(data)
    program.stdin.flush()


def await_answer(program):
    """Reads what a program writes up to its last answer."""
    tail = b""
    while not tail.endswith(ANSWER):
        text = os.read(program.stdout.fileno(), 1 << 20)
        if not text:
            raise SystemExit("the program ended before its last answer")
        tail = (tail + text)[-len(ANSWER) :]


def spent(program):
    """How long a program was on processors, with all its threads: by the clock of its process, as
    clock_getcpuclockid names it."""
    return time.clock_gettime_ns(~program.pid << 3 | 2)


def measure(paths, command):
    """What a program spends on each of these files."""
    parts = []
    for path in paths:
        with open(path, "rb") as part:
            parts.append(part.read() + LAST)
    with subprocess.Popen(command, stdin=subprocess.PIPE, stdout=subprocess.PIPE) as program:
        before, costs = 0, []
        for data in parts:
            feeder = threading.Thread(target=feed, args=(program, data))
            feeder.start()
            await_answer(program)
            feeder.join()
            now = spent(program)
            costs.append(now - before)
            before = now
        program.stdin.close()
        program.stdout.read()
    return costs


if __name__ == "__main__":
    print(*measure(sys.argv[1:3], sys.argv[3:]))
