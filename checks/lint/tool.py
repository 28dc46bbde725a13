"""Runs of the tool as its users start it: files, pipes and options, hostile inputs, and programs
that end otherwise than they should."""

import json
import os
import random
import shutil
import signal
import subprocess
import sys
import tempfile
from pathlib import Path

HERE = Path(__file__).resolve().parent
TOP = HERE.parent.parent
TOOL = TOP / "tools" / "lint"
SECONDS = 120
# A process has at least the memory of the one that it comes from, so that this is a small one.
MEASURED = """
import os, sys
_, status, used = os.wait4(os.posix_spawn(sys.argv[1], sys.argv[1:], os.environ), 0)
print(os.waitstatus_to_exitcode(status), used.ru_utime + used.ru_stime, used.ru_maxrss)
"""
SYNC = b'{"op":"sync"}\n'
SETTING = b'{"op":"config","node":"n1","nodeAddresses":["10.0.0.1"]}\n'


def run(*words, data=b"", **more):
    """The status, what is printed, and what is said."""
    ran = subprocess.run(
        [TOOL, *words], input=data, capture_output=True, timeout=SECONDS, check=False, **more
    )
    return ran.returncode, ran.stdout, ran.stderr


def expect(what, found, wanted):
    if found != wanted:
        yield f"tool: {what}: {str(found)[:500]}, and not {str(wanted)[:500]}"


def faults(program):
    """What isn't so of the tool."""
    with tempfile.TemporaryDirectory() as folder:
        work = Path(folder)
        yield from of_files(work)
        yield from of_options()
        yield from of_passing()
        yield from of_terminal()
        yield from of_hostile()
        yield from of_pipes()
        yield from of_programs(work)
        yield from of_script(work, program)
        yield from of_size(work)


def of_files(work):
    """Several files are one input, as `cat` gives them."""
    one, two = work / "one", work / "two"
    one.write_bytes(SETTING + SYNC)
    two.write_bytes(b'{"op":"pull"}\n')
    wanted = 1, b'line 3: op "pull" (config, event, sync, packet, explain, show)\n', b""
    yield from expect("two files", run(one, two), wanted)
    yield from expect("a file and standard input", run(one, "-", data=two.read_bytes()), wanted)
    yield from expect("standard input", run(data=one.read_bytes() + two.read_bytes()), wanted)
    yield from expect("no note", run(one), (0, b"", b""))
    one.write_bytes(SETTING + SYNC[:-1])
    two.write_bytes(SYNC)
    text = f"line 2: {one} has no line feed at its end, so {two} goes on in this line: add one\n"
    text += "line 2: 2 values on one line: jq -c . makes a line of each\n"
    yield from expect("no line feed", run(one, two), (1, text.encode(), b""))
    codes = [json.loads(it)["code"] for it in run("-o", "json", one, two)[1].splitlines()]
    yield from expect("codes", codes, ["no-line-feed", "several-values"])
    two.write_bytes(b"")
    yield from expect("an empty file", run(two, two), (0, b"", b""))
    said = f"lint: {work}/none can't be read: No such file or directory\n".encode()
    yield from expect("no file", run(work / "none"), (2, b"", said))
    said = f"lint: {work} can't be read: Is a directory\n".encode()
    yield from expect("a folder", run(work), (2, b"", said))


def of_options():
    """Options, and how many notes of a code are printed."""
    status, printed, said = run("--nonsense")
    yield from expect("an option", (status, printed, said[:6]), (2, b"", b"usage:"))
    yield from expect("help", run("--help")[0], 0)
    data = SETTING + b'{"op":"packet","src":"10.0.0.1","dst":"10.0.0.2","dport":1}\n' + SYNC
    yield from expect("an order of lines", run(data=data)[0], 1)
    yield from expect("no order of lines", run("--live", data=data), (0, b"", b""))
    data = SETTING + SYNC + b'{"op":"show"}\n' * 12
    what = b"show: what is missing (slices, endpoints, nat, filter, batch, nat6, filter6, batch6)"
    lines = [b"line %d: %s" % (number, what) for number in range(3, 15)]
    more = [b"missing: 2 more like these: --all has each"]
    yield from expect("ten", run(data=data), (1, b"\n".join([*lines[:10], *more, b""]), b""))
    yield from expect("all", run("--all", data=data), (1, b"\n".join([*lines, b""]), b""))
    status, printed, said = run("-o", "json", data=data)
    notes = [json.loads(it) for it in printed.splitlines()]
    wanted = {
        "code": "missing",
        "line": 3,
        "about": "show",
        "member": "what",
        "allowed": ["slices", "endpoints", "nat", "filter", "batch", "nat6", "filter6", "batch6"],
        "becomes": 'the line is refused: missing "what"',
        "mends": "slices, endpoints, nat, filter, batch, nat6, filter6, batch6",
        "text": lines[0].decode(),
    }
    yield from expect("json", (status, len(notes), notes[0], said), (1, 12, wanted, b""))


def of_passing():
    """With --pass the input is copied, and at once."""
    data = SETTING + b"\xff\n" + SYNC + b"{"
    wanted = b"line 2: bad JSON: byte 1 is no UTF-8\n"
    wanted += b"line 4: bad JSON: it ends too early: the name of a member in double quotes is "
    wanted += b"missing\n"
    yield from expect("--pass", run("--pass", data=data), (1, data, wanted))
    pipe = subprocess.PIPE
    with subprocess.Popen([TOOL, "--pass"], stdin=pipe, stdout=pipe, stderr=pipe) as process:
        process.stdin.write(SETTING)
        process.stdin.flush()
        yield from expect("a line at once", process.stdout.readline(), SETTING)
        # Ctrl-C ends the input, and what came is told
        process.stdin.write(b'{"op":"pull"}\n')
        process.stdin.flush()
        process.stdout.readline()
        process.send_signal(signal.SIGINT)
        text = b'line 2: op "pull" (config, event, sync, packet, explain, show)\n'
        yield from expect("Ctrl-C", process.stderr.read(), text)
        yield from expect("Ctrl-C: status", process.wait(), -signal.SIGINT)


def of_terminal():
    """On a terminal it says that it waits, and Ctrl-D ends the input."""
    own, other = os.openpty()
    with os.fdopen(own, "wb", buffering=0) as terminal:
        process = subprocess.Popen(
            [TOOL], stdin=other, stdout=subprocess.PIPE, stderr=subprocess.PIPE
        )
        os.close(other)
        terminal.write(b'{"op":"pull"}\n\x04')
        printed, said = process.communicate(timeout=SECONDS)
    text = b'line 1: op "pull" (config, event, sync, packet, explain, show)\n'
    found = process.returncode, printed, said
    waits = b"lint: lines are awaited here; Ctrl-D ends them\n"
    yield from expect("a terminal", found, (1, text, waits))


def hostile():
    """Inputs that are hard to read."""
    rng = random.Random("lint")
    yield "bytes", rng.randbytes(100_000)
    yield "broken UTF-8", b'{"op":"sync","a":"\xc3"}\n\xed\xa0\x80\n' * 100
    yield "a long line", b'{"op":"sync","a":"' + b"x" * 17_000_000 + b'"}\n'
    yield "a line of brackets", b"[" * 17_000_000
    yield "deep", b'{"a":' * 100_000 + b"}" * 100_000
    yield "digits", b"9" * 5_000_000
    yield "digits in a member", b'{"op":"show","what":' + b"9" * 5000 + b"}\n"
    yield "no line feed", SYNC[:-1]
    yield "empty", b""
    yield "line feeds", b"\n" * 20_000
    yield "lines that open", b"{\n" * 10_000
    yield "lines that open and are read", (b"{\n" + SYNC) * 5_000
    yield "lines that open one value", b'{"a":\n' * 2000 + b"1\n" + b"}\n" * 2000
    yield "texts that stay open", b'{"a\n' * 5_000
    yield "a log", b"INFO: a line of a log\n" * 20_000
    yield "objects of nothing", b"{}\n" * 10_000
    yield "names", b'{"op":"sync","' + b'":1,"'.join(b"n%d" % it for it in range(9_000)) + b'":1}'
    yield "commands of a terminal", b'{"op":"\\u001b[31m\\u009b\\u202e"}\n\x1b[31m\n'
    yield "halves", b'{"op":"sync","\\ud800":1}\n{"kind":"\\ud800","metadata":{"name":"\\udc00"}}\n'
    listed = b'{"kind":"Node","metadata":{"name":"n1"}},' * 10_000
    yield "a List", b'{"kind":"List","items":[' + listed + b'{"kind":"Secret"}]}\n'
    yield "wrong types", b"".join(wrong_types())


def wrong_types():
    """Lines that the program passes over or refuses, with any type in the place of any other."""
    others = [None, True, 1, 1.5, "a", [], {}, [None], [[]], [{}], {"a": None}]
    for line in (HERE / "samples.jsonl").read_bytes().splitlines():
        value = json.loads(line)
        for name in value:
            for other in others:
                yield json.dumps({**value, name: other}).encode() + b"\n"
                if isinstance(value[name], dict):
                    for inner in value[name]:
                        held = {**value[name], inner: other}
                        yield json.dumps({**value, name: held}).encode() + b"\n"


def of_hostile():
    """Whatever the input, the tool ends with notes or none, and nothing on standard error."""
    for at, (what, data) in enumerate(hostile()):
        words = ("-o", "json") if at % 2 else ("--all",)
        status, printed, said = run(*words, data=data)
        yield from expect(f"{what}: status", status, 1 if printed else 0)
        yield from expect(f"{what}: said", said, b"")
        is_plain = all(it.isprintable() or it == "\n" for it in printed.decode())
        yield from expect(f"{what}: plain text", is_plain, True)


def of_pipes():
    """Where nobody reads any more the tool ends as other filters do, and says nothing."""
    data = SETTING + b"{}\n" * 50_000
    for words in (["--all"], ["--pass"]):
        end, start = os.pipe()
        os.close(end)
        try:
            ran = subprocess.run(
                [TOOL, *words], input=data, stdout=start, stderr=subprocess.PIPE, check=False
            )
        finally:
            os.close(start)
        found = ran.returncode, ran.stderr
        yield from expect(f"a closed pipe, {words[0]}", found, (-signal.SIGPIPE, b""))


def of_programs(work):
    """Programs that aren't there, end too early, or refuse what nobody knows."""

    def run_with(text, **more):
        path = work / "program"
        path.write_text(f"#!/bin/sh\n{text}\n", encoding="utf-8")
        path.chmod(0o755)
        return run(data=SETTING + SYNC, env={**os.environ, "KPROXY": str(path), **more})

    ended = b"lint: the program ended with status %d, so that lines may be untried: %s\n"
    found = run_with("echo kproxy: out of memory >&2; exit 1")
    yield from expect("a program that ends", found, (2, b"", ended % (1, b"kproxy: out of memory")))
    found = run_with("kill -9 $$")
    yield from expect("a program that is killed", found, (2, b"", ended % (-9, b"it said nothing")))
    text = b"line 2: the moon is full\n"
    found = run_with("cat >/dev/null; echo 'line 2: refused: the moon is full'; exit 3")
    yield from expect("a refusal of another form", found, (1, text, b""))
    found = run_with("exit 0", KPROXY="sh -c 'exec cat >/dev/null'")
    yield from expect("a program with arguments", found, (0, b"", b""))
    found = run_with("exit 0", KPROXY="/there/is/none")
    said = b"lint: /there/is/none can't be run: No such file or directory\n"
    yield from expect("no program", found, (2, b"", said))


def of_script(work, program):
    """Without KPROXY the script beside the tools gives the program, and may speak meanwhile."""
    shutil.copytree(TOP / "tools", work / "tools")
    script = work / "kproxy"
    more = {name: it for name, it in os.environ.items() if name != "KPROXY"}

    def run_beside(text):
        script.write_text(f"#!/bin/sh\n{text}\n", encoding="utf-8")
        script.chmod(0o755)
        ran = subprocess.run(
            [work / "tools" / "lint"], input=b"{}\n", capture_output=True, check=False, env=more
        )
        return ran.returncode, ran.stdout, ran.stderr

    said = b'line 1: it has neither "op", as commands do, nor "kind", as objects do\n'
    found = run_beside(f'[ "$*" = build ] || exit 2; echo compiling >&2; echo {program}')
    yield from expect("the script", found, (1, said, b"compiling\n"))
    found = run_beside("echo no rt >&2; exit 7")
    said = f"no rt\nlint: {script} build gave no program: set KPROXY to the path of one\n"
    yield from expect("a script that fails", found, (2, b"", said.encode()))


def of_size(work):
    """Ten thousand lines of objects cost little more than reading them, in little more memory."""
    path, size = work / "large", 0
    with path.open("wb") as file:
        file.write(SETTING)
        for at in range(14_000):
            address = f"10.244.{at // 200}.{1 + at % 200}"
            pod = {"apiVersion": "v1", "kind": "Pod", "metadata": {"name": f"p{at}"}}
            pod["metadata"]["annotations"] = {"a": "x" * 300}
            pod["spec"] = {"nodeName": "n1", "containers": [{"ports": [{"containerPort": 80}]}]}
            pod["status"] = {"podIP": address, "podIPs": [{"ip": address}], "phase": "Running"}
            size += file.write(json.dumps(pod).encode() + b"\n")
    ran = subprocess.run(
        [sys.executable, "-c", MEASURED, TOOL, path],
        env={**os.environ, "KPROXY": "sh -c 'exec cat >/dev/null'"},
        stdout=subprocess.PIPE,
        check=True,
    )
    status, seconds, kilobytes = map(float, ran.stdout.split())
    yield from expect("a large input", status, 0)
    if seconds > 10:
        yield f"tool: {size} bytes take {seconds:.1f} s"
    if kilobytes * 1024 > 40_000_000 + 3 * size:
        yield f"tool: {size} bytes take {kilobytes:.0f} KB of memory"
