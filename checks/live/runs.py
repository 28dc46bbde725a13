"""Whether what `kproxy live` writes for a script is the text of a legal run.

The script says which events each stream feeds, and which syncs and packets it asks for. The text
says in which order the events were taken, how many each record covers, and which record each sync
made and each packet was answered from. These are a legal run or they aren't; and a legal run has
one text, whose counts, answers and tables `kproxy replay` says, given one order of lines.

    runs.py check PROGRAM COUNT FIRST    runs random scripts, by the seeds from FIRST on
    runs.py try PROGRAM COUNT FIRST      judges made runs of these scripts, and broken ones
    runs.py judge PROGRAM SCRIPT TEXT    judges one text, as that of a run that ended well
    runs.py script SEED                  prints the script of a seed
"""

import json
import os
import random
import re
import subprocess
import sys
import tempfile
from dataclasses import dataclass, field
from itertools import accumulate
from pathlib import Path

MOST_STREAMS = 64
MOST_EVENTS = 1_000_000
MOST_BYTES = 16_777_216
BLANKS = b" \t\r"
SECONDS = 120


class Illegal(Exception):
    """What is wrong with a text: the condition, a colon, and where it isn't met."""


class Program:
    """The built program; what replay says of the same lines is asked once."""

    def __init__(self, path):
        self.path = path
        self.said = {}

    def run(self, mode, data):
        done = subprocess.run([self.path, mode], input=data, capture_output=True, timeout=SECONDS)
        return done.stdout.decode(errors="surrogateescape"), done.returncode

    def replay(self, lines):
        data = b"\n".join(lines) + b"\n"
        if data not in self.said:
            text, status = self.run("replay", data)
            if status not in (0, 3):
                raise RuntimeError(f"replay ended with status {status}")
            self.said[data] = text
        return self.said[data]


# ---- the script


@dataclass
class Step:
    """What a stream does for a line: it feeds an event, syncs, or sends a packet."""

    kind: str
    line: int
    told: str = ""  # an event in the journal's words
    alone: bytes = b""  # an event as a line of its own


@dataclass
class Script:
    """The lines, those that are refused while reading, and what each stream does, in order."""

    lines: list
    config: list = field(default_factory=list)
    refused: dict = field(default_factory=dict)
    streams: dict = field(default_factory=dict)
    fed: dict = field(default_factory=dict)

    def events(self, stream):
        """The events of a stream, which aren't asked for before all of them are there."""
        if stream not in self.fed:
            self.fed[stream] = [it for it in self.streams[stream] if it.kind == "event"]
        return self.fed[stream]

    def steps(self, kind):
        """The steps of this kind, by line."""
        steps = [step for steps in self.streams.values() for step in steps if step.kind == kind]
        return sorted(steps, key=lambda step: step.line)

    def value(self, number):
        return json.loads(self.lines[number - 1])


def refused_as_lines(program, lines):
    """The refusals that each line has by itself: those of a replay with the widest limit."""
    first = next((i for i, line in enumerate(lines) if line.strip(BLANKS)), 0)
    widened = [widest_limit(line) if i == first else line for i, line in enumerate(lines)]
    said = re.findall(r"^line (\d+): refused: (.*)$", program.replay(widened), re.M)
    return {int(number): text for number, text in said if not text.startswith("chain name ")}


def widest_limit(line):
    """The line without its limit of events, where it is a config with one that is read."""
    try:
        value = json.loads(line)
    except ValueError:
        return line
    limit = value.get("maxEvents") if isinstance(value, dict) and value.get("op") == "config" else 0
    if type(limit) is not int or not 1 <= limit <= MOST_EVENTS:
        return line
    del value["maxEvents"]
    return json.dumps(value).encode()


def read_script(program, data):
    """The script of an input: its lines are what stands between line feeds."""
    script = Script(data.split(b"\n"))
    if script.lines[-1] == b"":
        script.lines.pop()
    script.refused = refused_as_lines(program, script.lines)
    limit, held = MOST_EVENTS, 0
    for number, line in enumerate(script.lines, 1):
        if not line.strip(BLANKS) or number in script.refused:
            continue
        value = json.loads(line)
        op, stream = value.get("op"), value.get("by") or "main"
        events = events_of(value)
        if op == "config":
            script.config = [line]
            limit = value.get("maxEvents") or limit
        elif op in ("show", "explain"):
            script.refused[number] = f'op "{op}" is not for live'
        elif stream not in script.streams and len(script.streams) == MOST_STREAMS:
            script.refused[number] = f"more than {MOST_STREAMS} streams"
        elif held + len(events) > limit:
            script.refused[number] = f"journal full at {held}"
        else:
            held += len(events)
            steps = script.streams.setdefault(stream, [])
            if op in ("sync", "packet"):
                steps.append(Step(op, number))
            steps += [Step("event", number, *event) for event in events]
    return script


def events_of(value):
    """The events of a line that is read, each in the journal's words and as a line of its own."""
    return [event_of(*it) for it in items_of(value)]


def items_of(value):
    """The objects that a line brings that is read, each with whether it is deleted."""
    op = value.get("op")
    if op is not None and op != "event":
        return []
    text = value if op is None else value["event"]
    watched, item = text.get("type"), text.get("object")
    if watched is not None and item is not None:
        return [] if watched == "BOOKMARK" else [(item, watched == "DELETED")]
    if text["kind"] == "List":
        return [(item, False) for item in text["items"]]
    return [(text, False)]


def event_of(item, deletes):
    """The event of an object: that it is there, or that it is gone."""
    watched = "DELETED" if deletes else "MODIFIED"
    return told_of(item, deletes), json.dumps({"type": watched, "object": item}).encode()


def told_of(item, deletes):
    """An event in the journal's words."""
    kind, named = item["kind"], item["metadata"]
    name = named["name"]
    if kind != "Node":
        name = f"{named.get('namespace') or 'default'}/{name}"
    return f"{'delete' if deletes else 'apply'} {kind} {name}"


# ---- the run that a text tells of


@dataclass
class Run:
    """The journal as streams with the events' numbers in them, how many events each record
    covers, the record that a sync or a packet shows, by line, and the clashes of refused syncs."""

    journal: list
    counts: list
    shown: dict
    clashes: dict
    final: str = None

    def covered(self):
        """How long the journal is that each record covers, with the table of no objects first."""
        return [0, *accumulate(self.counts)]


def read_run(text):
    """The run that a text tells of. Whatever else is wrong with the text is left to `text_of`."""
    told = text.partition("*nat\n")[0]
    journal = re.findall(r"^event \d+: (\S+) (\d+) ", told, re.M)
    counts = re.findall(r"^record \d+: events (\d+),", told, re.M)
    shown = re.findall(r"^(?:sync (\d+): record|packet (\d+) at) (\d+)", told, re.M)
    clashes = re.findall(r"^line (\d+): refused: (chain name .*)$", told, re.M)
    final = re.search(r"^final: refused: (.*)$", told, re.M)
    return Run(
        [(stream, int(number)) for stream, number in journal],
        [int(count) for count in counts],
        {int(sync or packet): int(record) for sync, packet, record in shown},
        {int(line): clash for line, clash in clashes},
        final and final[1],
    )


def lines_of(script, journal):
    """The events of a journal, each as a line of its own."""
    events = {stream: script.events(stream) for stream in script.streams}
    return [events[stream][number - 1].alone for stream, number in journal]


def clashes_along(program, script, journal):
    """The clash of the objects after the first n events, or nothing, for each n."""
    lines = list(script.config)
    for event in lines_of(script, journal):
        lines += [event, b'{"op":"sync"}']
    clashes = [None] * (len(journal) + 1)
    said = re.findall(r"^line (\d+): refused: (.*)$", program.replay(lines), re.M)
    for number, text in said:
        clashes[(int(number) - len(script.config)) // 2] = text
    return clashes


# ---- the conditions of a legal run


def demand(condition, where):
    """Raises where a condition isn't met."""
    if not condition:
        raise Illegal(where)


def check_run(program, script, run):
    """The conditions of a legal run, and what a sync promises to a caller that feeds less than a
    whole budget: it makes a record, and covers all that was fed before."""
    check_events(script, run)
    clashes = clashes_along(program, script, run.journal)
    check_records(script, run, clashes)
    for stream, steps in script.streams.items():
        check_stream(stream, steps, run, clashes)


def check_events(script, run):
    """Each stream's events stand in the journal in order, each once."""
    for stream in script.streams:
        numbers = [number for name, number in run.journal if name == stream]
        all_numbers = list(range(1, len(script.events(stream)) + 1))
        demand(numbers == all_numbers, f"events: of stream {stream} there are {numbers}")
    for stream, _ in run.journal:
        demand(stream in script.streams, f"events: there is no stream {stream}")


def check_records(script, run, clashes):
    """No record's objects clash; all of the journal is covered, or its objects clash. Each sync
    that isn't refused makes a record, the one at the end too."""
    covered = run.covered()
    for record, length in enumerate(covered):
        demand(length <= len(run.journal), f"coverage: record {record} covers {length} events")
        demand(clashes[length] is None, f"coverage: the objects of record {record} clash")
    wanted = clashes[-1] if covered[-1] < len(run.journal) else None
    demand(covered[-1] == len(run.journal) or wanted, "coverage: events at the end have no record")
    demand(run.final == wanted, f"coverage: the final sync has {run.final!r}, and not {wanted!r}")

    syncs = [step.line for step in script.steps("sync")]
    made = [run.shown[line] for line in syncs if line in run.shown]
    made += [len(run.counts)] * (run.final is None)
    demand(
        sorted(made) == list(range(1, len(run.counts) + 1)),
        f"records: there are {len(run.counts)}, and syncs made {sorted(made)}",
    )


def check_stream(stream, steps, run, clashes):
    """What a stream's lines show, one after the other: `seen` is the newest record that it knows
    of, and `length` how long the journal is at least by now. Each sync makes a new record, so its
    number is at least the count of the stream's syncs by then."""
    covered = run.covered()
    places = (i for i, (name, _) in enumerate(run.journal, 1) if name == stream)
    seen = length = 0
    for step in steps:
        where = f"line {step.line} of stream {stream}"
        refused = step.kind == "sync" and step.line in run.clashes
        if step.kind == "event":
            place = next(places)
            demand(place > length, f"order: {where} is covered by what was shown before it")
            length = place
        elif refused:
            clash = run.clashes[step.line]
            demand(clash in clashes[length:], f"refusals: {where} has a clash that no events have")
            length = clashes.index(clash, length)
        else:
            demand(step.line in run.shown, f"answers: {where} has none")
            record = run.shown[step.line]
            demand(record <= len(run.counts), f"numbers: {where} shows a record that isn't there")
            demand(record >= seen, f"numbers: {where} shows {record} after {seen}")
            if step.kind == "sync":
                demand(record > seen, f"numbers: {where} made no record")
                demand(covered[record] >= length, f"order: {where} doesn't cover events before it")
            seen, length = record, max(length, covered[record])


# ---- the text of a legal run


def text_of(program, script, run, groups=None):
    """The text of a legal run, part by part. Each stream has recent lists of its own: the streams
    of one group share them, and each is a group by itself where nothing is said."""
    parts = [f"line {line}: refused: {why}" for line, why in sorted(script.refused.items())]
    for place, (stream, number) in enumerate(run.journal, 1):
        told = script.events(stream)[number - 1].told
        parts.append(f"event {place}: {stream} {number} {told}")
    records, table = records_and_table(program, script, run)
    parts += records
    answers = {}
    for step in script.steps("sync"):
        clash = run.clashes.get(step.line)
        made = f"sync {step.line}: record {run.shown.get(step.line)}"
        answers[step.line] = [f"line {step.line}: refused: {clash}" if clash else made]
    for group in groups or [[stream] for stream in script.streams]:
        answers |= packets_of(program, script, run, group)
    parts += [part for line in sorted(answers) for part in answers[line]]
    parts.append(f"final: refused: {run.final}" if run.final else f"final: record {len(records)}")
    return "\n".join(parts) + "\n" + table


def records_and_table(program, script, run):
    """The lines of the records, and the last one's table: one replay of the journal, with a sync
    where each record was made."""
    lines, start = list(script.config), 0
    for length in run.covered()[1:]:
        lines += [*lines_of(script, run.journal[start:length]), b'{"op":"sync"}']
        start = length
    # what is shown of IPv6 is nothing where the node has no tables of it
    shown = ["nat", "filter", "nat6", "filter6"]
    lines += [json.dumps({"op": "show", "what": what}).encode() for what in shown]
    said, start, table = program.replay(lines).partition("*nat\n")
    return [f"record {line.removeprefix('sync ')}" for line in said.split("\n")[:-1]], start + table


def packets_of(program, script, run, group):
    """The lines for the packets of these streams: one replay with a sync for each record that a
    packet was answered from or that stands before it."""
    packets = [step for name in group for step in script.streams[name] if step.kind == "packet"]
    packets.sort(key=lambda step: (run.shown[step.line], step.line))
    covered = run.covered()
    lines, synced, line_of = list(script.config), 0, {}
    for step in packets:
        for record in range(synced, run.shown[step.line]):
            lines += lines_of(script, run.journal[covered[record] : covered[record + 1]])
            lines.append(b'{"op":"sync"}')
        synced = run.shown[step.line]
        put_packet(script, step.line, lines)
        line_of[str(len(lines))] = step.line
    answers = {}
    said = re.findall(r"^(packet|trail) (\d+)(.*)$", program.replay(lines) if packets else "", re.M)
    for word, number, rest in said:
        answers.setdefault(line_of[number], []).append(f"{word} {line_of[number]}{rest}")
    return answers


def put_packet(script, number, lines):
    """Puts a packet at the end of the lines. Draws of a seed depend on the line's number, so blank
    lines go before it; where it comes too late for that, its draws are written out."""
    packet = script.value(number)
    if packet.get("seed") is None or packet.get("draws") is not None:
        lines.append(script.lines[number - 1])
    elif len(lines) < number:
        lines += [b""] * (number - 1 - len(lines))
        lines.append(script.lines[number - 1])
    else:
        packet["draws"] = draws_of(packet["seed"], number, 64)
        lines.append(json.dumps(packet).encode())


def draws_of(seed, stream, count):
    """The draws of a seed: words of ChaCha8 (Bernstein's ChaCha with eight rounds, a block counter
    and a stream of 64 bits each), shifted right by one bit."""
    key = [seed & 0xFFFFFFFF, seed >> 32, 0, 0, 0, 0, 0, 0]
    words = []
    for block in range(-(-count // 16)):
        start = [0x61707865, 0x3320646E, 0x79622D32, 0x6B206574, *key]
        start += [block, 0, stream & 0xFFFFFFFF, stream >> 32]
        state = list(start)
        for _ in range(4):
            for i in range(4):
                quarter_round(state, i, 4 + i, 8 + i, 12 + i)
            for i in range(4):
                quarter_round(state, i, 4 + (i + 1) % 4, 8 + (i + 2) % 4, 12 + (i + 3) % 4)
        words += [(a + b) % 2**32 >> 1 for a, b in zip(state, start)]
    return words[:count]


def quarter_round(state, a, b, c, d):
    for to, by, turned, bits in ((a, b, d, 16), (c, d, b, 12), (a, b, d, 8), (c, d, b, 7)):
        state[to] = (state[to] + state[by]) % 2**32
        mixed = state[turned] ^ state[to]
        state[turned] = (mixed << bits | mixed >> 32 - bits) % 2**32


# ---- judging


def judge(program, script, text, status):
    """Raises what is wrong with a text and the status that the program ended with."""
    run = read_run(text)
    check_run(program, script, run)
    wanted = text_of(program, script, run)
    if text != wanted:
        pairs = enumerate(zip(text.split("\n") + [None], wanted.split("\n") + [None]), 1)
        place, (found, line) = next((i, pair) for i, pair in pairs if pair[0] != pair[1])
        raise Illegal(f"text: line {place} is {found!r}, and not {line!r}")
    refused = script.refused or run.clashes or run.final
    demand(status == (3 if refused else 0), f"status: found {status}")


def worked_texts():
    """The scripts beside this file, which have one text each, with the text and the status."""
    for worked in sorted(Path(__file__).parent.glob("*.jsonl")):
        text = worked.with_suffix(".txt").read_text()
        yield worked, text, 3 if "refused" in text else 0


def check_runs(program, count, first):
    """Runs the program on the worked scripts, and on random ones. What it wrote for one that isn't
    legal is kept, since the next run may go another way."""
    failed = False
    for worked, text, status in worked_texts():
        if program.run("live", worked.read_bytes()) != (text, status):
            print(f"checks: live: {worked.name} has another text, or another status than {status}")
            failed = True
    for seed in range(first, first + count):
        data = random_script(seed, MOST_LINES)
        text = ""
        try:
            script = read_script(program, data)
            text, status = program.run("live", data)
            judge(program, script, text, status)
        except (Illegal, RuntimeError, subprocess.TimeoutExpired) as fault:
            kept = Path(tempfile.mkdtemp(prefix="kproxy-live."))
            (kept / "script").write_bytes(data)
            (kept / "text").write_text(text, errors="surrogateescape")
            print(f"checks: live: seed {seed}: {fault}; the script and the text are in {kept}")
            failed = True
        program.said.clear()
    return failed


# ---- random scripts

# lines of a stream at most: threads meet where they have more to do than to start
MOST_LINES = 60
TRIED_LINES = 12
SERVICES = ["web", "api", "db"]
ZONES = ["a", "b", "c"]


def random_script(seed, most):
    """A script of 2 to 16 streams, or now and then of more than may be. They change a few objects
    again and again, sync, and send packets from a few sources."""
    rng = random.Random(seed)
    count = 70 if seed % 10 == 7 else rng.randint(2, 16)
    names = ["main"] + [f"{rng.choice(['s', 'node-', '0'])}{i}" for i in range(1, count)]
    short = rng.random() < 0.3
    most = 2 if count > 16 else rng.choice([TRIED_LINES, most])
    lines = shuffled(rng, [stream_lines(rng, name, rng.randint(2, most)) for name in names])
    for _ in range(rng.randint(0, 12)):
        lines.insert(rng.randint(0, len(lines)), other_line(rng, rng.choice(names)))
    if seed % 10 == 3:
        lines.insert(rng.randint(0, len(lines)), b"x" * (MOST_BYTES + 1))
    if rng.random() < 0.5:
        lines = [line for after in lines for line in [b""] * rng.choice([0, 0, 9, 30]) + [after]]
    if short or rng.random() < 0.9:
        lines.insert(0, config_line(rng, short))
    blanks = [rng.choice([b"", b" \t", b"\r"]) for _ in range(rng.randint(0, 2))]
    return b"\n".join(blanks + lines) + rng.choice([b"\n", b""])


def shuffled(rng, parts):
    """The lines of all parts, each part's in order. A part goes on for a while at times."""
    parts = [list(part) for part in parts]
    lines = []
    while parts := [part for part in parts if part]:
        part = rng.choice(parts)
        for _ in range(rng.choice([1, 1, 2, 4])):
            if part:
                lines.append(part.pop(0))
    return lines


def config_line(rng, short):
    config = {"op": "config", "node": "n1"}
    config["nodeAddresses"] = ["10.0.0.1", "10.0.0.2", "fd00::1"]
    config |= {"dualStack": True} if rng.random() < 0.5 else {}
    ranges = ["10.244.0.0/16", "10.244.0.0/16,fd00:10:244::/48"]
    config |= {"clusterCIDR": rng.choice(ranges)} if rng.random() < 0.7 else {}
    config |= {"masqueradeAll": True} if rng.random() < 0.2 else {}
    config |= {"controller": False} if rng.random() < 0.2 else {}
    config |= {"maxEndpointsPerSlice": 2} if rng.random() < 0.3 else {}
    config |= {"recentSize": rng.randint(1, 2)} if rng.random() < 0.3 else {}
    config |= {"nameLength": rng.choice([0, 1, 2, 2])} if short else {}
    config |= {"maxEvents": rng.randint(1, 40)} if rng.random() < 0.25 else {}
    return json.dumps(config).encode()


def stream_lines(rng, name, count):
    """The lines of a stream: it begins with an event more often than not."""
    lines = []
    for i in range(count):
        draw = rng.random() * (0.6 if i == 0 else 1)
        if draw < 0.42:
            value = event_text(rng)
        elif draw < 0.6:
            value = {"op": "sync"}
        else:
            value = packet(rng)
        if name != "main" or rng.random() < 0.3:
            value["by"] = name
        lines.append(json.dumps(value).encode())
    return lines


def event_text(rng):
    draw = rng.random()
    if draw < 0.5:
        return changed_object(rng)
    if draw < 0.65:
        return {"type": rng.choice(["ADDED", "MODIFIED"]), "object": changed_object(rng)}
    if draw < 0.8:
        return {"type": "DELETED", "object": changed_object(rng)}
    if draw < 0.9:
        return {"op": "event", "event": changed_object(rng)}
    return {"kind": "List", "items": [changed_object(rng) for _ in range(rng.randint(0, 3))]}


def changed_object(rng):
    return rng.choice([service, service, slice_of_endpoints, slice_of_endpoints, pod, node])(rng)


def service(rng):
    index = rng.randrange(3)
    port = {"name": "http", "port": 80, "targetPort": rng.choice([8080, "http"])}
    spec = {"type": rng.choice(["ClusterIP", "NodePort", "LoadBalancer"]), "ports": [port]}
    spec |= {"clusterIP": f"10.96.0.{10 + index}"} if rng.random() < 0.95 else {"clusterIP": "None"}
    if spec["clusterIP"] != "None" and rng.random() < 0.6:
        spec["clusterIPs"] = [spec["clusterIP"], f"fd00:10:96::{10 + index:x}"]
    spec |= {"selector": {"app": SERVICES[index]}} if rng.random() < 0.3 else {}
    if rng.random() < 0.6:
        spec["sessionAffinity"] = "ClientIP"
        spec["sessionAffinityConfig"] = {"clientIP": {"timeoutSeconds": rng.choice([5, 100])}}
    spec |= {"internalTrafficPolicy": "Local"} if rng.random() < 0.2 else {}
    spec |= {"externalTrafficPolicy": "Local"} if rng.random() < 0.3 else {}
    spec |= {"trafficDistribution": "PreferClose"} if rng.random() < 0.2 else {}
    spec |= {"externalIPs": ["203.0.113.5", "2001:db8::5"]} if rng.random() < 0.3 else {}
    if spec["type"] != "ClusterIP":
        port["nodePort"] = 30080 + index
    if rng.random() < 0.3:
        spec["ports"].append({"name": "dns", "protocol": "UDP", "port": 53})
    spec |= {"loadBalancerSourceRanges": ["192.0.2.0/24"]} if rng.random() < 0.4 else {}
    item = {"apiVersion": "v1", "kind": "Service", "metadata": {"name": SERVICES[index]}}
    return item | {"spec": spec, "status": {"loadBalancer": {"ingress": [{"ip": "203.0.113.9"}]}}}


def slice_of_endpoints(rng):
    name, end = rng.choice(SERVICES), rng.choice("xyz")
    network = "fd00:10:244:{}::{}" if end == "z" else "10.244.{}.{}"
    endpoints = []
    for _ in range(rng.randint(0, 4)):
        number = rng.randint(1, 3)
        address = network.format(number, rng.randint(2, 4))
        endpoint = {"addresses": [address], "nodeName": f"n{number}"}
        endpoint["zone"] = ZONES[number - 1]
        if rng.random() < 0.3:
            words = ["ready", "serving", "terminating"]
            endpoint["conditions"] = {word: rng.random() < 0.5 for word in words}
        if rng.random() < 0.3:
            endpoint["hints"] = {"forZones": [{"name": rng.choice(ZONES)}]}
        endpoints.append(endpoint)
    labels = {"kubernetes.io/service-name": name}
    ports = [{"name": "http", "port": 8080}, {"name": "dns", "protocol": "UDP", "port": 5353}]
    return {
        "apiVersion": "discovery.k8s.io/v1",
        "kind": "EndpointSlice",
        "metadata": {"name": f"{name}-{end}", "labels": labels},
        "addressType": "IPv6" if end == "z" else "IPv4",
        "ports": ports,
        "endpoints": endpoints,
    }


def pod(rng):
    number, place = rng.randint(1, 3), rng.randint(2, 5)
    metadata = {"name": f"p{number}{place}", "labels": {"app": rng.choice(SERVICES)}}
    if rng.random() < 0.1:
        metadata["deletionTimestamp"] = "2024-05-01T08:00:00Z"
    ports = [{"name": "http", "containerPort": 8080}, {"name": "http", "containerPort": 9090}]
    ready = [{"type": "Ready", "status": rng.choice(["True", "True", "False"])}]
    status = {"phase": rng.choice(["Running", "Running", "Failed"]), "conditions": ready}
    addresses = [f"10.244.{number}.{place}", f"fd00:10:244:{number}::{place}"]
    status["podIPs"] = [{"ip": address} for address in addresses[: rng.choice([1, 2])]]
    return {
        "apiVersion": "v1",
        "kind": "Pod",
        "metadata": metadata,
        "spec": {"nodeName": f"n{number}", "containers": [{"ports": [rng.choice(ports)]}]},
        "status": status,
    }


def node(rng):
    labels = {"topology.kubernetes.io/zone": rng.choice(ZONES)}
    metadata = {"name": f"n{rng.randint(1, 3)}", "labels": labels}
    return {"apiVersion": "v1", "kind": "Node", "metadata": metadata}


def packet(rng):
    doors = [f"10.96.0.{10 + rng.randrange(3)}"] * 4 + ["203.0.113.5", "203.0.113.9", "10.0.0.1"]
    sources = ["10.244.9.9", "10.244.1.2", "192.0.2.7", "198.51.100.7"]
    if rng.random() < 0.35:
        sources = ["fd00:10:244:9::9", "fd00:10:244:1::2", "2001:db8:7::7", "fd00::1"]
        doors = [f"fd00:10:96::{10 + rng.randrange(3):x}"] * 4 + ["2001:db8::5", "fd00::1", "::1"]
    value = {"op": "packet", "src": rng.choice(sources), "dst": rng.choice(doors), "dport": 80}
    if value["dst"] in ("10.0.0.1", "fd00::1", "::1"):
        value["dport"] = 30080 + rng.randrange(3)
    elif rng.random() < 0.1:
        value |= {"proto": "UDP", "dport": 53}
    value |= {"from": "node"} if rng.random() < 0.2 else {}
    value |= {"now": rng.randint(0, 120)} if rng.random() < 0.7 else {}
    draw = rng.random()
    if draw < 0.5:
        value["seed"] = rng.choice([1, 7, rng.getrandbits(64)])
    if draw > 0.45:
        value["draws"] = [rng.getrandbits(31) for _ in range(rng.randint(0, 3))]
    value |= {"trail": True} if rng.random() < 0.3 else {}
    return value


def other_line(rng, name):
    """A line that is blank, refused, not for live, or gives no event."""
    refused = {"apiVersion": "v1", "kind": "Service", "metadata": {"name": "web"}, "by": name}
    question = {"src": "10.244.9.9", "dst": "10.96.0.10", "dport": 80, "by": name}
    values = [
        {"op": "show", "what": "nat", "by": name},
        {"op": "show", "by": name},
        {"op": "explain"} | question,
        {"op": "packet", "seed": -1} | question,
        {"op": "packet", "by": name},
        {"op": "config", "by": name},
        {"op": "what"},
        {"op": "sync", "by": ""},
        {"op": "sync", "by": "no name"},
        {"op": "sync", "by": "refused-alone", "what": 1} | {"op": "show", "what": "slices"},
        {"kind": "Secret", "by": name},
        {"kind": "List", "items": [service(rng), {"kind": "List", "items": []}], "by": name},
        refused | {"spec": {"ports": [{"port": 70000}]}},
        {"type": "BOOKMARK", "object": 1, "by": name},
        {"apiVersion": "v1", "kind": "List", "items": [], "by": "nothing-fed"},
        [1],
    ]
    bytes_alone = [b"", b" \t\r", b'{"op":"packet",', b'{"op":"\xff"}', b"1e999", b"\xef\xbb\xbf{}"]
    return rng.choice([json.dumps(value).encode() for value in values] + bytes_alone)


# ---- made runs, and broken ones


def made_run(program, script, rng, machine="right"):
    """A run of the script: the streams' steps one after the other in a random order, and a sync at
    the end. A packet may be answered from an older table than the newest, as beside a sync that is
    at work. Other machines than the right one do one thing wrong."""
    order = shuffled(rng, [[(name, step) for step in it] for name, it in script.streams.items()])
    if machine == "feeds everything first":
        order.sort(key=lambda pair: pair[1].kind != "event")
    fed = dict.fromkeys(script.streams, 0)
    run = Run([], [], {}, {})
    for name, step in order:
        if step.kind == "event":
            fed[name] += 1
            run.journal.append((name, fed[name]))
    clashes = clashes_along(program, script, run.journal)
    seen, length = dict.fromkeys(script.streams, 0), 0
    for name, step in order:
        covered = sum(run.counts)
        if step.kind == "event":
            length += 1
        elif step.kind == "packet":
            least = 0 if machine == "a reader goes back" else seen[name]
            newest = len(run.counts)
            run.shown[step.line] = rng.choice([rng.randint(least, newest), newest])
            seen[name] = max(seen[name], run.shown[step.line])
        elif clashes[length]:
            first = next(iter(run.clashes.values()), clashes[length])
            old = machine == "each refused sync tells the first clash"
            run.clashes[step.line] = first if old else clashes[length]
        elif machine == "a sync without events makes no record" and 0 < covered == length:
            run.shown[step.line] = seen[name] = len(run.counts)
        else:
            run.counts.append(length - covered)
            seen[name] = len(run.counts)
            run.shown[step.line] = 1 if machine == "each sync shows 1" else seen[name]
    run.final = clashes[length]
    if not run.final and machine != "no sync at the end":
        run.counts.append(length - sum(run.counts))
    return run


MACHINES = [
    "feeds everything first",
    "a reader goes back",
    "a sync without events makes no record",
    "each sync shows 1",
    "no sync at the end",
    "each refused sync tells the first clash",
    "streams share their recent lists",
]


def made_text(program, script, rng, machine):
    """The text of a run that this machine makes."""
    run = made_run(program, script, rng, machine)
    together = machine == "streams share their recent lists"
    return text_of(program, script, run, [list(script.streams)] if together else None)


PARTS = {
    "refusal": r"line \d+: refused: (?!chain name)",
    "event": r"event \d+: ",
    "record": r"record \d+: ",
    "sync": r"sync \d+: ",
    "clash": r"line \d+: refused: chain name",
    "packet": r"packet \d+ at ",
    "trail": r"trail \d+: ",
    "final": r"final: ",
    "rule": r"-A ",
    "end": r"COMMIT$",
}
# the part whose last line is edited, what stands there, what takes its place, and the condition
EDITS = [
    ("refusal", r"refused: .*", "refused: bad", "text"),
    ("event", r"event \d+", "event 0", "text"),
    ("event", r" (apply|delete) ", " move ", "text"),
    ("event", r": \S+ ", ": other ", "events"),
    ("event", r"^", "line 1: refused: bad\n", "text"),
    ("record", r"written (\d+)", r"written 1\1", "text"),
    ("record", r"removed (\d+)", r"removed 1\1", "text"),
    ("record", r"events (\d+)", r"events 1\1", "coverage"),
    ("record", r"$", "\nrecord MORE: events 0, written 0, removed 0", "records"),
    ("sync", r"record \d+", "record MORE", "records"),
    ("sync", r"record \d+", "record 0", "records"),
    ("sync", r"sync (\d+).*", r"line \1: refused: chain name X of A and of B", "records"),
    ("clash", r"of (.*) and of (.*)", r"of \2 and of \1", "refusals"),
    ("clash", r"line (\d+).*", r"sync \1: record LAST", "records"),
    ("packet", r" at \d+", " at MORE", "numbers"),
    ("packet", r": .*", ": to 10.244.9.9:1", "text"),
    ("trail", r": .*", ": INPUT", "text"),
    ("final", r"record \d+|refused.*", "record MORE", "text|coverage"),
    ("final", r"record \d+|and of .*", "refused: X", "coverage"),
    ("rule", r" -j .*", " -j RETURN", "text"),
    ("end", r"$", "\nCOMMIT", "text"),
]
# the part whose first line comes to stand before the first line of another part
MOVES = [
    ("refusal", "sync"),
    ("event", "sync"),
    ("record", "event"),
    ("sync", "record"),
    ("clash", "record"),
    ("packet", "sync"),
    ("final", "packet"),
    ("rule", "final"),
]
ORDERS = {
    "two events of a stream change places": "events|text",
    "two syncs of a stream change places": "numbers|order|refusals",
    "a packet goes back": "numbers",
    "a packet sees a later event": "numbers|order",
    "a sync leaves an earlier event out": "order|coverage",
    "the table of an older record": "text",
    "a text without its last line feed": "text",
    "no text": "events|coverage|answers|records|text",
}


def broken_texts(program, script, run, text):
    """Texts with one fault each: its name, the lines, and the condition that isn't met. A run that
    has no place for a fault has no such text."""
    lines = text.split("\n")
    at = {part: places(lines, pattern) for part, pattern in PARTS.items()}
    numbers = {"MORE": str(len(run.counts) + 1), "LAST": str(len(run.counts))}
    for part, old, new, condition in EDITS:
        for word, number in numbers.items():
            new = new.replace(word, number)
        for place in at[part][-1:]:
            yield f"{part}: {new!r}", with_line(lines, place, old, new), condition
    for part in PARTS:
        for place in at[part][-1:]:
            yield f"a lost {part}", lines[:place] + lines[place + 1 :], ""
            yield f"a {part} twice", lines[:place] + lines[place:place + 1] + lines[place:], ""
    for part, other in MOVES:
        for start, end in zip(at[part][:1], at[other][:1]):
            moved = lines[:start] + lines[start + 1 :]
            moved.insert(end - (start < end), lines[start])
            if moved != lines:
                yield f"a {part} before each {other}", moved, ""
    for name, broken in broken_orders(program, script, run, lines):
        yield name, broken, ORDERS[name]


def with_line(lines, place, old, new):
    """The lines, in one of which what is found first is replaced."""
    return lines[:place] + [re.sub(old, new, lines[place], count=1)] + lines[place + 1 :]


def places(lines, pattern):
    """Where the lines are that begin so."""
    return [place for place, line in enumerate(lines) if re.match(pattern, line)]


def broken_orders(program, script, run, lines):
    """Texts that are at odds with the order of lines or of events."""
    yield "no text", []
    yield "a text without its last line feed", lines[:-1]
    table = lines.index("*nat")
    older = Run(run.journal, run.counts[:-1], {}, {})
    told = records_and_table(program, script, older)[1].split("\n")
    if told != lines[table:]:
        yield "the table of an older record", lines[:table] + told
    for stream, steps in script.streams.items():
        own = places(lines, rf"event \d+: {re.escape(stream)} ")
        if len(own) > 1 and lines[own[0]].split()[4:] != lines[own[1]].split()[4:]:
            yield "two events of a stream change places", swapped(lines, own[:2], r": .*")
        own = places(lines, rf"sync ({'|'.join(str(step.line) for step in steps)}): ")
        if len(own) > 1:
            yield "two syncs of a stream change places", swapped(lines, own[:2], r": .*")
        yield from broken_numbers(run, lines, stream, steps)


def swapped(lines, pair, pattern):
    """The lines, of which two have each other's text where the pattern is found."""
    first, second = (re.search(pattern, lines[place])[0] for place in pair)
    lines = with_line(lines, pair[0], pattern, second)
    return with_line(lines, pair[1], pattern, first)


def broken_numbers(run, lines, stream, steps):
    """Texts in which a stream's packets and syncs show other records."""
    covered = run.covered()
    own = [place for place, (name, _) in enumerate(run.journal, 1) if name == stream]
    fed = seen = 0
    for step in steps:
        fed += step.kind == "event"
        record = run.shown.get(step.line, 0)
        if step.kind == "packet":
            (at,) = places(lines, rf"packet {step.line} at ")
            if seen > 0:
                broken = with_line(lines, at, r" at \d+", f" at {seen - 1}")
                yield "a packet goes back", broken
            later = [s for s, length in enumerate(covered) if own[fed:] and length >= own[fed]]
            if later:
                broken = with_line(lines, at, r" at \d+", f" at {later[0]}")
                yield "a packet sees a later event", broken
        elif record and fed and own[fed - 1] > covered[record - 1] and record < len(run.counts):
            lost = covered[record] - own[fed - 1] + 1
            yield "a sync leaves an earlier event out", left_out(lines, record, lost)
        seen = max(seen, record)


def left_out(lines, record, lost):
    """The lines, in which the record covers so many events less, and the next one so many more."""
    for number, change in ((record, -lost), (record + 1, lost)):
        (place,) = places(lines, rf"record {number}: ")
        count = int(re.search(r"events (\d+)", lines[place])[1]) + change
        lines = with_line(lines, place, r"events \d+", f"events {count}")
    return lines


def fault_of(program, script, text, status):
    """What is wrong with a text, or nothing."""
    try:
        judge(program, script, text, status)
    except Illegal as fault:
        return str(fault)
    return ""


def try_runs(program, count, first):
    """The judge itself: worked texts and made runs are legal, each broken text is told by its
    condition, and what a wrong machine writes is told once at least, since it may be legal too.
    Of twenty scripts or more, each fault has a place in one at least."""
    faults, met = try_worked(program), set()
    for seed in range(first, first + count):
        rng = random.Random(f"run {seed}")
        script = read_script(program, random_script(seed, TRIED_LINES))
        run = made_run(program, script, rng)
        text = text_of(program, script, run)
        status = 3 if script.refused or run.clashes or run.final else 0
        fault = fault_of(program, script, text, status)
        faults += [f"seed {seed}: a made run: {fault}"] * bool(fault)
        demanded = [("another status", text.split("\n"), "status")]
        demanded += broken_texts(program, script, run, text)
        for name, lines, condition in demanded:
            met.add(name.partition(" '")[0])
            ended = status if condition != "status" else 3 - status
            fault = fault_of(program, script, "\n".join(lines), ended)
            if not re.match(condition or ".", fault):
                faults.append(f"seed {seed}: {name}: told as: {fault or 'legal'}")
        for machine in MACHINES:
            other = made_text(program, script, rng, machine)
            met |= {machine} if fault_of(program, script, other, status) else set()
        program.said.clear()
    wanted = {*MACHINES, *ORDERS, *(f"a {part} before each {other}" for part, other in MOVES)}
    wanted |= {f"a lost {part}" for part in PARTS}
    faults += [f"{name}: not met" for name in sorted(wanted - met) if count >= 20]
    for fault in faults:
        print(f"checks: live: {fault}")
    return bool(faults)


def try_worked(program):
    """The worked texts are legal, and replay takes the draws of a seed that are written out."""
    faults = []
    for worked, text, status in worked_texts():
        fault = fault_of(program, read_script(program, worked.read_bytes()), text, status)
        faults += [f"{worked.name}: {fault}"] * bool(fault)
    rng = random.Random(0)
    endpoints = [{"addresses": [f"10.244.1.{i}"]} for i in range(100)]
    spec = {"clusterIP": "10.96.0.10", "ports": [{"name": "http", "port": 80}]}
    web = {"apiVersion": "v1", "kind": "Service", "metadata": {"name": "web"}, "spec": spec}
    slices = {**slice_of_endpoints(rng), "endpoints": endpoints}
    slices["metadata"]["labels"]["kubernetes.io/service-name"] = "web"
    lines = [json.dumps(value).encode() for value in (web, slices, {"op": "sync"})]
    asked = {"op": "packet", "src": "10.244.9.9", "dst": "10.96.0.10", "dport": 80}
    for seed in (0, 1, 2**32, 2**64 - 1, rng.getrandbits(64)):
        draws = draws_of(seed, len(lines) + 1, 100)
        for chosen in ({"seed": seed}, {"draws": draws}):
            lines.append(json.dumps(asked | chosen).encode())
    verdicts = re.findall(r"packet \d+ at 1: (to .*)", program.replay(lines))
    if len(verdicts) != 10 or verdicts[::2] != verdicts[1::2]:
        faults.append(f"draws: those of seeds are others: {verdicts}")
    return faults


def main(words):
    if words[0] == "script":
        sys.stdout.buffer.write(random_script(int(words[1]), MOST_LINES))
        return 0
    program = Program(os.path.realpath(words[1]))
    if words[0] == "judge":
        script = read_script(program, Path(words[2]).read_bytes())
        text = Path(words[3]).read_text(errors="surrogateescape")
        refused = re.search("^(line|final).*refused", text, re.M)
        fault = fault_of(program, script, text, 3 if refused else 0)
        print(fault or "legal")
        return 1 if fault else 0
    count, first = int(words[2]), int(words[3])
    if words[0] == "try":
        return 1 if try_runs(program, count, first) else 0
    return 1 if check_runs(program, count, first) else 0


if __name__ == "__main__":
    sys.exit(main(sys.argv[1:]))
