"""Whether tools/json makes of each printed line the object that it should.

    Lines of each form have the objects that lines.txt has for them, written from docs/FORMAT.md.
    Of each worked text, and of random ones of every mode, the objects are made the lines again, byte
    for byte; each meets docs/output.schema.json; and no text in one holds its whole line.
    Beside the lines that were read, answers have their question and refusals their object.
    What isn't printed by the program is a fault, with its line and a status; so is what no object is.
    Objects come while the text goes on, in constant memory, and a reader may go away.

    forms.py PROGRAM COUNT FIRST
"""

import json
import os
import subprocess
import sys
import tempfile
from multiprocessing import Pool
from pathlib import Path

HERE = Path(__file__).resolve().parent
TOP = HERE.parent.parent
sys.path.append(str(HERE.parent / "fuzz"))

from scripts import random_script

try:
    import jsonschema
except ImportError:
    jsonschema = None

TOOL = str(TOP / "tools" / "json")
SCHEMA = json.loads((TOP / "docs" / "output.schema.json").read_bytes())
MODES = ("replay", "changes", "health", "track", "vmap", "paths", "live")
GENERATED = 20  # of every so many random texts one is of a generated run
MOST_BYTES = 2_000_000  # of a random text
MOST_FAULTS = 5
MEMORY = 80_000  # KiB of addresses for a text of any length

faults = []


def fault(text):
    faults.append(text)


def tell():
    """Tells some of the faults; the status of the check."""
    for it in faults[:MOST_FAULTS]:
        print(f"checks: json: {it}")
    return int(bool(faults))


def expect(holds, text):
    if not holds:
        fault(text)


def run(words, data, **more):
    """The status of the tool, and what it writes and says."""
    pipe = subprocess.PIPE
    made = subprocess.run([TOOL, *words], input=data, stdout=pipe, stderr=pipe, **more)
    return made.returncode, made.stdout, made.stderr.decode(errors="replace")


# ---- objects


def strings_in(value):
    if isinstance(value, str):
        yield value
    elif isinstance(value, dict):
        for it in value.values():
            yield from strings_in(it)
    elif isinstance(value, list):
        for it in value:
            yield from strings_in(it)


def validators():
    """Of each form that which holds an object against what the schema says of it, and that of the
    whole schema; none where nothing reads schemas."""
    if jsonschema is None:
        return {}, None
    whole = jsonschema.Draft7Validator(SCHEMA)
    whole.check_schema(SCHEMA)
    parts = {}
    for rule in SCHEMA["allOf"]:
        form = rule["if"]["properties"]["form"]["const"]
        parts[form] = jsonschema.Draft7Validator({**rule["then"], "definitions": SCHEMA["definitions"]})
    return parts, whole


PARTS, WHOLE = validators()
ALL_OF = 50  # one of so many objects is held against the whole schema


def lines_of(text):
    return text.decode().split("\n")[:-1]


def fault_of_objects(lines, made):
    """What isn't so of objects and their lines."""
    if len(lines) != len(made):
        return f"{len(lines)} lines have {len(made)} objects"
    seen = set()
    for number, (line, text) in enumerate(zip(lines, made), 1):
        value = json.loads(text)
        if line != "COMMIT" and any(line in it for it in strings_in(value)):
            return f"line {number} is held whole: {text[:200]}"
        if text in seen:
            continue
        seen.add(text)
        form = value.get("form")
        if PARTS and form not in PARTS:
            return f"line {number} has a form that the schema lacks: {text[:200]}"
        if PARTS and not PARTS[form].is_valid(value):
            return f"line {number} doesn't meet the schema: {text[:200]}"
        if WHOLE and len(seen) % ALL_OF == 1 and not WHOLE.is_valid(value):
            return f"line {number} doesn't meet the whole schema: {text[:200]}"
    return ""


def check_text(name, text, *words):
    """A text's objects are its lines again, and meet the schema."""
    status, made, said = run(words, text)
    if status != 0 or said:
        fault(f"{name}: status {status}: {said.strip()}")
        return
    status, back, said = run(["--back"], made)
    expect((status, said) == (0, ""), f"{name}: back: status {status}: {said.strip()}")
    expect(back == text, f"{name}: --back gives other bytes")
    found = fault_of_objects(lines_of(text), lines_of(made))
    expect(not found, f"{name}: {found}")


# ---- lines of each form


def check_lines():
    """Pairs of a line and its object, or of several that belong together; blank lines and those
    that begin with # stand between them."""
    parts = (HERE / "lines.txt").read_text().split("\n\n")
    forms = set()
    for part in parts:
        rows = [it for it in part.splitlines() if it and not it.startswith("#")]
        lines = [it for it in rows if not it.startswith("{")]
        wanted = [json.loads(it) for it in rows if it.startswith("{")]
        if not rows:
            continue
        text = "".join(it + "\n" for it in lines).encode()
        status, made, said = run([], text)
        found = [json.loads(it) for it in made.splitlines()]
        forms |= {it["form"] for it in wanted}
        expect(status == 0, f"lines.txt: {lines[0]}: {said.strip()}")
        for line, value, other in zip(lines, wanted, found):
            expect(value == other, f"lines.txt: {line}: {json.dumps(other)}")
        expect(len(lines) == len(wanted) == len(found), f"lines.txt: {lines[0]}: not an object for each")
        check_text(f"lines.txt: {lines[0]}", text)
    allowed = set(SCHEMA["properties"]["form"]["enum"])
    expect(forms == allowed, f"lines.txt: the schema has other forms: {sorted(forms ^ allowed)}")


# ---- texts


def check_texts(texts):
    """All texts as one, so that the tool is begun once; where that shows a fault, each by itself."""
    before = len(faults)
    check_text("all texts", b"".join(text for _, text in texts))
    if len(faults) > before:
        del faults[before:]
        for name, text in texts:
            check_text(name, text)
        expect(len(faults) > before, "all texts as one show a fault, and none by itself")


def worked_texts(program):
    for folder in ("replays", "changes", "health", "track", "vmap", "paths", "live"):
        for path in sorted((HERE.parent / folder).glob("*.txt")):
            yield f"{folder}/{path.name}", path.read_bytes()
    for name in ("rollout", "families", "probes", "changes", "connections", "vmap", "paths", "live"):
        yield f"examples/{name}.txt", (TOP / "examples" / f"{name}.txt").read_bytes()
    for mode in MODES:
        for path in sorted((TOP / "examples").glob("*.jsonl")):
            data = path.read_bytes()
            yield f"{mode} of {path.name}", text_of([program, mode], data)


def text_of(words, data):
    """What the program writes, without what it says beside it."""
    with tempfile.TemporaryFile() as out:
        subprocess.run(words, input=data, stdout=out, stderr=subprocess.DEVNULL)
        out.seek(0)
        return out.read(MOST_BYTES + 1)


def random_text(seed):
    """The text that a mode prints for a random script; none where one of them is too long."""
    if seed % GENERATED == 0:
        words, data = ["gen", str(seed), str(1 + seed % 3), str(seed % 40)], b""
    else:
        words, data = [MODES[seed % len(MODES)]], random_script(seed)
    text = b"" if len(data) > MOST_BYTES else text_of([PROGRAM, *words], data)
    return text if len(text) <= MOST_BYTES else b""


def check_random(seeds):
    """The random texts of seeds, as one: the tool is begun once for many."""
    del faults[:]
    check_texts([(f"the text of seed {seed}", random_text(seed)) for seed in seeds])
    return faults[:MOST_FAULTS]


def begin(program):
    global PROGRAM
    PROGRAM = program


def check_all_random(program, count, first):
    seeds = range(first, first + count)
    size = 60
    parts = [seeds[at : at + size] for at in range(0, count, size)]
    with Pool(len(os.sched_getaffinity(0)), begin, (program,)) as pool:
        for found in pool.imap_unordered(check_random, parts):
            for it in found:
                fault(it)


# ---- beside the lines


SERVICE = {"kind": "Service", "metadata": {"name": "web", "namespace": "shop"}, "spec": {"type": "Loadbalancer"}}
BESIDE = [
    ({"op": "config", "node": "n1"}, None),
    (SERVICE, {"object": {"kind": "Service", "namespace": "shop", "name": "web"}, "value": "Loadbalancer"}),
    ({"op": "sync"}, None),
    (
        {"op": "packet", "src": "10.0.0.1", "dst": "10.96.0.10", "dport": 80, "note": "\u00e9"},
        {"question": {"op": "packet", "src": "10.0.0.1", "dst": "10.96.0.10", "dport": 80, "note": "\u00e9"}},
    ),
    (
        {"op": "explain", "src": "10.0.0.1", "dst": "10.96.0.10", "dport": 80},
        {"question": {"op": "explain", "src": "10.0.0.1", "dst": "10.96.0.10", "dport": 80}},
    ),
    (
        {"op": "packet", "src": "10.0.0.1", "dst": "10.96.0.10", "dport": 0},
        {"question": {"op": "packet", "src": "10.0.0.1", "dst": "10.96.0.10", "dport": 0}, "value": 0},
    ),
    ({"op": "flush"}, {"question": {"op": "flush"}}),
    (
        {"kind": "List", "items": [{"kind": "Node", "metadata": {"name": "n1"}}, {"kind": "Secret", "metadata": {"name": "s"}}]},
        None,
    ),
    (
        {"type": "ADDED", "object": {"kind": "Node", "metadata": {"name": "n2", "labels": 7}}},
        {"object": {"kind": "Node", "namespace": None, "name": "n2"}, "value": 7},
    ),
    ([1], {}),
]


def check_beside(program):
    lines = "".join(json.dumps(it) + "\n" for it, _ in BESIDE) + "{bad\n"
    with tempfile.NamedTemporaryFile() as file:
        file.write(lines.encode())
        file.flush()
        text = text_of([program, "replay"], lines.encode())
        status, made, said = run([file.name], text)
        expect(status == 0, f"beside the lines: {said.strip()}")
        found = {it["line"]: it for it in map(json.loads, made.splitlines()) if "line" in it}
        for number, (_, wanted) in enumerate(BESIDE, 1):
            if wanted is not None:
                beside = {it: found.get(number, {}).get(it) for it in ("object", "question", "value")}
                beside = {it: value for it, value in beside.items() if it in found.get(number, {})}
                expect(beside == wanted, f"beside line {number}: {json.dumps(beside)}")
        bad = found.get(len(BESIDE) + 1, {})
        expect(bad == {"form": "refused", "line": len(BESIDE) + 1, "why": "bad json"}, f"bad json: {bad}")
        expect(run(["--back"], made)[1] == text, "beside the lines: --back gives other bytes")
        found = fault_of_objects(lines_of(text), lines_of(made))
        expect(not found, f"beside the lines: {found}")
        for number, sentence in (
            (99, f"json: {file.name} has no line 99: it isn't what was answered\n"),
            (5, f"json: line 5 of {file.name} is no packet\n"),
        ):
            status, _, said = run([file.name], b"packet %d at 1: dropped\n" % number)
            expect((status, said) == (1, sentence), f"other lines: status {status}: {said.strip()}")
    status, _, said = run(["/nowhere/lines.jsonl"], b"packet 1 at 1: dropped\n")
    wanted = "json: /nowhere/lines.jsonl can't be read: No such file or directory\n"
    expect((status, said) == (1, wanted), f"no lines: status {status}: {said.strip()}")


# ---- faults


UNKNOWN = [
    b"hello\n", b"\n", b"sync 1: events 1, written 1\n", b"sync 01: events 1, written 1, removed 0\n",
    b"packet 1 at 1: to 10.0.0.1\n", b"packet 1 at 1: to 10.0.0.1:80 masked masked\n",
    b"packet 1 at 1: rejected untracked\n", b"packet 1 at 1: to 10.0.0.1:80 untracked masked\n",
    b"packet 1 at 1: later to 10.0.0.1:80 untracked\n", b"packet 1 at 1: later rejected\n",
    b"packet 1 at 1: reply as 10.0.0.1:80 masked\n", b"packet 1 at 1: reply as 10.0.0.1\n",
    b"explain 1 at 1: later to 10.0.0.1:80; no door decides\n",
    b"explain 1 at 1: to 10.0.0.1:80 untracked; no door decides\n",
    b"packet 1 at 1: rejected masked\n", b" packet 1 at 1: dropped\n", b"packet 1 at 1: dropped\r\n",
    b"packet 1 at 1: dropped; no door decides\n", b"explain 1 at 1: dropped\n",
    b"explain 1 at 1: dropped; door roof a/b/TCP has no endpoints\n",
    b"trail 1: A,B\n", b"trail 1: \n", b'line 1: refused: missing "a\n', b"line 1: refused: missing a\n",
    b'line 1: refused: missing "a": 3\n', b'line 1: refused: too many at "a"\n',
    b'line 1: refused: missing "\\u0041"\n', b"line 1: refused: tired\n",
    b"change a/b/TCP cluster 10.0.0.1:80: open 1; policy Cluster; new 10.0.0.2:80\n",
    b"change a/b/TCP cluster 10.0.0.1:80: open 1; beside\n",
    b"change a/b/TCP cluster 10.0.0.1:80: open 1, now open 1\n", b"packet 1 at 1: to [12]:80\n", b"health a/b port 1: 404 local 0\n",
    b"-A X -j Y\n", b"COMMIT\n", b"*mangle\n", b"*nat\n-A X -m owner -j Y\nCOMMIT\n",
    b"*nat\npacket 1 at 1: dropped\nCOMMIT\n", b"*nat\n:X DROP [0:0]\nCOMMIT\n",
    b"path 1 1 of 1 chance 0.5: dropped; no door decides\n",
    b"path 1 1 of 1 chance 1.0000000000: dropped\n",
    b"path 1 1 of 1 chance 1.0000000000: dropped; no door decides; sent to 10.0.0.1:80\n",
    b"path 1 1 of 1 chance 1.0000000000: dropped; no door decides; sent to 10.0.0.1:80; no door decides\n",
    b"path 1 1 of 1 chance 1.0000000000: to 10.0.0.1:80; door cluster a/b/TCP list cluster size 1 by draws place 1;"
    b" sent to 10.0.0.1:80; door cluster a/b/TCP list cluster size 1 by draws place 1\n",
    b"aside 1 a/b/TCP: 10.0.0.1:80 asleep\n", b"aside 1 a/b/TCP: 10.0.0.1 not ready\n",
    b"source 1 0.0.0.0, abroad: open 1; door cluster a/b/TCP list cluster\n",
    b"source 1 0.0.0.0, outside: open 1, masked 0; door cluster a/b/TCP list cluster\n",
    b"source 1 0.0.0.0, outside: open 1, refused 1, masked 1; door cluster a/b/TCP list cluster\n",
    b"source 1 0.0.0.0, outside: open 1; door cluster a/b/TCP\n",
    b"source 1 0.0.0.0, outside: dropped, closed; door cluster a/b/TCP\n",
    b"source 1 0.0.0.0, outside, in ranges of a: dropped, no endpoints; door cluster a/b/TCP\n",
    b"gen: events 5\n", b"final: refused: bad json\n", b"event 1: main 1 apply Secret a/b\n",
    "packet \u0663 at 1: dropped\n".encode(), b"packet 1 at 1: left alone\x00\n",
]  # fmt: skip
ENDS = {
    b"sync 1: events 1, written 12, removed 0": "json: line 1 is cut off: it has no line feed",
    b"*nat\n:X - [0:0]\n": "json: the text ends within the table nat",
    b"packet 1 at 1: \xff\n": "json: line 1 isn't UTF-8",
}
NO_OBJECTS = [
    b'{"form":"source","line":1,"address":"0.0.0.0","whence":"outside","inRangesOf":[],"open":true,"masked":0,"refused":0,"door":{"kind":"cluster","namespace":"a","name":"b","port":null,"protocol":"TCP"},"list":"cluster"}\n',
    b'{"form":"path","line":1,"path":1,"of":1,"chance":"1.0000000000","verdict":"left alone","reason":"no door","sent":{}}\n',
    b'{"form":"aside","line":1,"servicePort":{"namespace":"a","name":"b","port":null,"protocol":"TCP"},"endpoint":{"address":"10.0.0.1","port":80},"why":"asleep"}\n',
    b"7\n", b"{}\n", b"[]\n", b"{\n", b"\n", b"[" * 100_000 + b"\n", b'{"form":"packet"}\n',
    b'{"form":"packet","line":1,"sync":1,"verdict":"upstairs"}\n',
    b'{"form":"packet","line":1.0,"sync":1,"verdict":"dropped"}\n',
    b'{"form":"packet","line":1,"sync":1,"verdict":"dropped","untracked":true}\n',
    b'{"form":"packet","line":1,"sync":1,"verdict":"to","endpoint":{"address":"10.0.0.1","port":1},"masked":true,"untracked":1}\n',
    b'{"form":"packet","line":1,"sync":1,"verdict":"reply","as":{"address":"10.0.0.1","port":1},"masked":true}\n',
    b'{"form":"explain","line":1,"sync":1,"verdict":"later","reason":"no door"}\n',
    b'{"form":"packet","line":true,"sync":1,"verdict":"dropped"}\n',
    b'{"form":"packet","line":1,"sync":1,"verdict":"dropped","more":1}\n',
    b'{"form":"sync","sync":"1: events 1\\nsync 2","events":1,"written":1,"removed":0}\n',
    b'{"form":["packet"]}\n', b'{"form":"commit","table":"nat"}\n', b"{\"form\":\"table\",\"table\":\"\xff\"}\n",
    b'{"form":"packet","line":1' + b"0" * 6000 + b',"sync":1,"verdict":"dropped"}\n',
    b'{"form":"refused","line":1,"why":"missing","path":"\\ud800"}\n',
]  # fmt: skip


def check_faults():
    good = b"packet 1 at 1: dropped\n"
    for line in UNKNOWN:
        status, made, said = run([], good + line)
        expect(status == 1 and made.startswith(b"{"), f"{line}: status {status}, {made}")
        expect(said.startswith("json: line "), f"{line}: {said.strip()!r}")
        expect(said[:-1].isprintable(), f"{line}: {said!r}")
    for text, sentence in ENDS.items():
        status, _, said = run([], text)
        expect(status == 1 and said.startswith(sentence), f"{text}: status {status}: {said.strip()}")
    for line in NO_OBJECTS:
        status, made, said = run(["--back"], b'{"form":"packet","line":1,"sync":1,"verdict":"dropped"}\n' + line)
        expect(status == 1 and made == good, f"back: {line[:80]}: status {status}, {made}")
        expect(said.startswith("json: object 2 ") and said.count("\n") == 1, f"back: {line[:80]}: {said.strip()!r}")
    for words in (["a", "b"], ["--forth"], ["--back", "lines"]):
        status, _, said = run(words, b"")
        expect(status == 2 and said.startswith("usage: tools/json"), f"{words}: status {status}: {said}")


# ---- streams


def check_streams():
    pipe = subprocess.PIPE
    with subprocess.Popen([TOOL], stdin=pipe, stdout=pipe) as tool:
        for number in (1, 2):
            tool.stdin.write(b"packet %d at 1: dropped\npacket" % number if number == 1 else b" 2 at 1: dropped\n")
            tool.stdin.flush()
            expect(json.loads(tool.stdout.readline())["line"] == number, "a line isn't answered at once")
        tool.stdin.close()
    with subprocess.Popen([TOOL], stdin=pipe, stdout=pipe, stderr=pipe) as tool:
        tool.stdout.close()
        try:
            tool.stdin.write(b"packet 1 at 1: dropped\n" * 100_000)
            tool.stdin.close()
        except BrokenPipeError:
            pass
        expect(tool.stderr.read() == b"", "a reader that goes away is told of")
    if os.path.exists("/dev/full"):
        with open("/dev/full", "wb") as full:
            made = subprocess.run([TOOL], input=b"packet 1 at 1: dropped\n", stdout=full, stderr=pipe)
        wanted = (1, b"json: the output can't be written: No space left on device\n")
        expect((made.returncode, made.stderr) == wanted, f"a full device: {made.stderr}")
    lines = b"".join(
        b"explain %d at 1: to 10.0.%d.%d:80; door cluster a/b/TCP list cluster size 9 by draws place %d\n"
        % (it, it >> 8 & 255, it & 255, it % 5000 + 1)
        for it in range(1, 200_001)
    )
    with tempfile.TemporaryFile() as file:
        file.write(lines)
        file.seek(0)
        words = ["sh", "-c", f'ulimit -v {MEMORY} && exec "$0"', TOOL]
        made = subprocess.run(words, stdin=file, stdout=subprocess.DEVNULL, stderr=pipe)
    expect(made.returncode == 0, f"200,000 lines in {MEMORY} KiB: {made.stderr.decode()}")


def main(program, count, first):
    check_streams()
    check_lines()
    check_texts(list(worked_texts(program)))
    check_beside(program)
    check_faults()
    check_all_random(program, count, first)
    return tell()


if __name__ == "__main__":
    sys.exit(main(sys.argv[1], int(sys.argv[2]), int(sys.argv[3])))
