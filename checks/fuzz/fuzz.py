"""Whether what holds of each run of any script holds of random ones (scripts.py says of which).

    The program ends, with status 0, or with 3 where a line was refused, and says nothing else.
    Each line that isn't blank is refused, or has the answer that its form has, in order: numbers of
    lines and syncs are right, and each sync covers the events since the one before.
    A line is bad JSON exactly where Python's reader, held to UTF-8, to whole characters, to finite
    numbers and to 127 levels, doesn't read it.
    However the input is cut into pieces, and for 1, 3 and 4 workers, the text is the same.
    A packet goes where an explanation of the same one, right before it, says: the explanation goes
    by the objects and the packet by the table.
    With a bookmark in place of each line that is refused, shows something or explains something,
    the text is the same, but for what these lines print.
    kp_restore_echo reads the tables of each family at the end, and prints them as they were; and
    packets go where these say (walk.py walks their rules).
    In the other modes over the same lines the text is the same, but for what these add; and where
    connections are kept, but for the flows that a list of openers owns (../track/tracker.py), by the
    endpoints of UDP in the tables after each sync.
    Where streams run at once the program ends well. Of some scripts what is written then is judged,
    too: it is a legal run (../live/runs.py says of what), and the last tables of a stream alone are
    those of a replay.

    fuzz.py check PROGRAM ECHO COUNT FIRST    runs random scripts, by the seeds from FIRST on
    fuzz.py find PROGRAM ECHO COUNT FIRST     tells which of these is the first that shows a fault
    fuzz.py judge PROGRAM ECHO SCRIPT         runs a script
    fuzz.py script SEED                       prints the random script of a seed
"""

import json
import math
import os
import random
import re
import sys
import time
from functools import cached_property, lru_cache
from ipaddress import ip_address
from itertools import accumulate, islice, zip_longest
from multiprocessing import Pool
from pathlib import Path

CHECKS = Path(__file__).resolve().parent.parent
sys.path += [str(CHECKS / "live"), str(CHECKS / "track")]

import runs
from answers import endpoint_of, tracked
from runner import PIECE, Wrong, end_of, file_of, pieces_of, pipe_of
from scripts import MOST_BYTES, random_script, to_door
from walk import Tables, Unknown, Walk

MOST_LEVELS = 127
MOST_DRAW = 2**31 - 1  # which stands for one that is missing
FEWEST = 512  # lines that workers share
MOST_FAULTS = 5
JUDGED = 0.1  # of the live runs are judged, which takes the most time
WALKED = 10  # packets by the last tables
IN_MODES = 0.25  # of the scripts run in another mode as well
TRACKED = 0.15  # of them keep connections, too
MAPPED = 0.15  # of them pick endpoints by a remainder, too
PATHED = 0.15  # of them tell all paths, too
# how the lines begin that a mode adds, and the form of what it adds at the end
RULES_AT_END = r"(?:\*filter\n:KUBE-NODEPORTS .*\n(?:-A .*\n)+COMMIT\n)?"
MODES = {"changes": ("change", ""), "health": ("health", RULES_AT_END)}
SHRINKING = 30  # seconds in which a smaller script is looked for

BLANKS = b" \t\r"
NO_VALUE = object()
BOOKMARK = b'{"type":"BOOKMARK","object":{}}'
TABLES = [b'{"op":"show","what":"nat"}', b'{"op":"show","what":"filter"}']
TABLES6 = [b'{"op":"show","what":"nat6"}', b'{"op":"show","what":"filter6"}']
REFUSED = re.compile(r"^line (\d+): refused: (.*)\n", re.M)
SYNCED = re.compile(r"^sync \d+: .*\n", re.M)
CHOSEN = re.compile(r"(explain (\d+) at \d+: to ).*; (door \S+ \S+ list \S+ size (\d+)) by (\w+) place (\d+)")
REPLIED = re.compile(r"((?:packet|explain) \d+ at \d+): (to|rejected|dropped|left alone)\b")
BEHIND = re.compile(r"^(path|aside|source) (\d+) (.*)\n", re.M)
PLACE = re.compile(r"(\d+) of (\d+) chance ([01])\.(\d{10}): ([^;]+; [^;]+)(?:; sent to (\S+); door .*)?")
TO_UDP = re.compile(r"^-A .* -p udp .*-j DNAT --to-destination \[?(.+?)\]?:(\d+)$", re.M)

TOO_LONG = f"longer than {MOST_BYTES} bytes"
PATH = r' "(?:[^"\\]|\\.)*"'
WHY = "|".join([
    "bad json|not an event|config is not the first line",
    f"kind{PATH} is not supported|op{PATH} is not known|missing{PATH}|duplicate port at{PATH}",
    f"(?:wrong type|out of range|bad name|bad address|bad range) at{PATH}",
    rf"too many at{PATH}: \d+|{TOO_LONG}|journal full at \d+",
    "chain name KUBE-.* of .* and of .*",
])  # fmt: skip
ENDPOINT = r"(?:[\d.]+|\[[\da-f:.]+\]):\d+"
VERDICT = rf"(?:(?:to {ENDPOINT}|rejected)(?: masked)?|dropped|left alone)"
RULES = r"(?:(?::|-A |-X )[A-Z].*\n)+COMMIT\n"
NAT, FILTER = ":PREROUTING ACCEPT", ":INPUT ACCEPT"  # with which whole tables begin
# what stands after the beginning of an answer, which has the numbers of the line and of the sync
FORMS = {
    "refused": f"(?:{WHY})\n",
    "sync": r", written \d+, removed \d+\n",
    "packet": f"{VERDICT}\n",
    "explain": f"{VERDICT}; .+\n",
    "trail": r"(?:[A-Z].*|none)\n",
    "nat": f"\\*nat\n(?={NAT}){RULES}",
    "filter": f"\\*filter\n(?={FILTER}){RULES}",
    "batch": f"(?:\\*nat\n(?!{NAT}){RULES})?(?:\\*filter\n(?!{FILTER}){RULES})?",
    "slices": r"(?:slice \S+: .*, endpoints \d+\n)*",
    "endpoints": r"(?:endpoint \S+ \d+: .*\n)*",
    "nothing": "",
}
FORMS = {name: re.compile(form) for name, form in FORMS.items()}


# what the judge meets where the program reads a line that it should refuse, or ends otherwise later
UNREAD = (KeyError, TypeError, ValueError, AttributeError, RuntimeError)


def demand(condition, where):
    """Raises where a condition isn't met."""
    if not condition:
        raise Wrong(where)


def compare(what, text, wanted):
    """Raises the first line in which a text isn't what is wanted."""
    if text != wanted:
        pairs = enumerate(zip(text.split("\n") + [None], wanted.split("\n") + [None]), 1)
        place, (found, line) = next((i, pair) for i, pair in pairs if pair[0] != pair[1])
        raise Wrong(f"{what}: line {place} of the text is {found!r}, and not {line!r}")


# ---- the programs


class Program:
    """The built program, and the one that reads tables, if it is there."""

    def __init__(self, path, echo):
        self.path, self.echo = path, echo
        self.judge = Judge(path)
        self.echoed = lru_cache(maxsize=64)(self.echoed)  # many scripts have the same few tables

    def run(self, words, data, pieces=()):
        """The status and the text of a run whose input comes whole, or in pieces."""
        given = pipe_of(pieces) if pieces else file_of(data)
        return end_of([self.path, *words], given)

    def echoed(self, text, *words):
        """What is printed of tables that are read again."""
        given = file_of(text.encode(errors="surrogateescape"))
        status, said = end_of([self.echo, *words], given)
        return said if status == 0 else f"{said}status {status}"


class Judge(runs.Program):
    """The built program, as those ask it who judge live runs."""

    def run(self, mode, data):
        status, text = end_of([self.path, mode], file_of(data))
        return text, status


# ---- what lines ask for


def value_of(line):
    """The value of a line, or NO_VALUE where it isn't JSON that is read."""
    try:
        text = line.decode()
        value = (READER_OF_LONG if len(text) > LONG else READER).decode(text)
        if text.count("[") + text.count("{") > MOST_LEVELS and levels_of(text) > MOST_LEVELS:
            return NO_VALUE
        if HALF.search(text):  # no text of all members has half a character
            pairs = json.loads(text, object_pairs_hook=tuple)
            json.dumps(pairs, ensure_ascii=False).encode()
        return value
    except (ValueError, RecursionError):
        return NO_VALUE


def finite(text):
    """A number, which no constant is."""
    number = float(text)
    if not math.isfinite(number):
        raise ValueError
    return number


def whole(text):
    finite(text)
    return int(text)


# a whole number of at most so many digits is finite, so that it is read as it is
LONG = 308
READER = json.JSONDecoder(parse_constant=finite, parse_float=finite)
READER_OF_LONG = json.JSONDecoder(parse_constant=finite, parse_float=finite, parse_int=whole)
TEXT = re.compile(r'"(?:[^"\\]|\\.)*"')
HALF = re.compile(r"\\u[dD]")  # how the escape of half a character begins


def levels_of(text):
    """How deep a value is written."""
    brackets = re.findall(r"[][{}]", TEXT.sub("", text))
    return max(accumulate(1 if it in "[{" else -1 for it in brackets), default=0)


class Line:
    """What is asked by a line, whatever stands before it."""

    def __init__(self, line):
        self.is_long = len(line) > MOST_BYTES
        self.is_blank = not self.is_long and not line.strip(BLANKS)
        self.value = NO_VALUE if self.is_long or self.is_blank else value_of(line)
        self.is_bad = self.value is NO_VALUE and not self.is_long
        self.op = self.value.get("op") if isinstance(self.value, dict) else None

    @cached_property
    def events(self):
        """How many events it brings."""
        return len([runs.told_of(*it) for it in runs.items_of(self.value)])

    @cached_property
    def packet(self):
        """What it says of a packet; nothing where that depends on the line's number, as the draws
        of a seed do."""
        value = {name: it for name, it in self.value.items() if name not in ("op", "trail")}
        return value if "draws" in value or "seed" not in value else None


asked_by = lru_cache(maxsize=256)(Line)  # crowds have few lines, each of them often


class Answers:
    """What is answered to each line of a replay, given the lines that are refused."""

    def __init__(self):
        self.syncs = self.events = 0
        self.has_six = False  # whether there are tables of IPv6
        self.explained = None  # what the line before explains, and its verdict

    def to(self, number, line, why):
        """The form of the answer to the next line, the beginning of each of its parts and the form
        of the part's rest. The line is refused so, or isn't."""
        if (why == TOO_LONG) != line.is_long or (why == "bad json") != line.is_bad:
            told = "too long" if line.is_long else "bad JSON" if line.is_bad else "JSON"
            raise Wrong(f"answers: line {number} is {told}, and is told as {why}")
        if why:
            return "refused", [(f"line {number}: refused: ", "refused")]
        op, value = line.op, line.value
        if op == "packet":
            parts = [(f"packet {number} at {self.syncs}: ", op)]
            return op, parts + [(f"trail {number}: ", "trail")] if value.get("trail") else parts
        if op == "explain":
            return op, [(f"explain {number} at {self.syncs}: ", op)]
        if op == "sync":
            self.syncs, events, self.events = self.syncs + 1, self.events, 0
            return op, [(f"sync {self.syncs}: events {events}", op)]
        if op == "show":
            table = value["what"].removesuffix("6")
            return op, [("", table if table == value["what"] or self.has_six else "nothing")]
        if op == "config":
            self.has_six = value.get("dualStack") is True
        else:
            self.events += line.events
        return op, []

    def compare(self, op, line, rest):
        """A packet has the verdict of the explanation before it, where both have the same draws."""
        before, self.explained = self.explained, None
        if op == "explain":
            self.explained = line.packet, re.split("[;\n]", rest)[0]
        elif op == "packet" and before and line.packet is not None and line.packet == before[0]:
            verdict, other = rest.partition("\n")[0], before[1]
            demand(verdict == other, f"verdict: {verdict!r}, and it is explained as {other!r}")


def check_answers(lines, refused, text):
    """Each line has its answer, and there is no other. The lines with a bookmark in place of each
    that changes nothing, and what the others print."""
    answers, place, marked, printed = Answers(), 0, [], []
    for number, line in enumerate(lines, 1):
        asked = asked_by(line)
        if asked.is_blank:
            demand(number not in refused, f"answers: line {number} is blank")
            marked.append(line)
            continue
        op, parts = answers.to(number, asked, refused.get(number))
        start = place
        for beginning, form in parts:
            end = place + len(beginning)
            found = text.startswith(beginning, place) and FORMS[form].match(text, end)
            if not found:
                raise Wrong(f"answers: line {number}: {text[place : place + 200]!r} is no {form}")
            if place == start:
                answers.compare(op, asked, text[end : found.end()])
            place = found.end()
        is_asking = op in ("refused", "explain", "show")
        marked.append(BOOKMARK if is_asking else line)
        printed.append("" if is_asking else text[start:place])
    demand(place == len(text), f"answers: after all lines: {text[place : place + 200]!r}")
    return marked, "".join(printed)


# ---- running


def lines_of(data):
    lines = data.split(b"\n")
    return lines[:-1] if lines[-1] == b"" else lines


def check_status(mode, ended):
    """The program ended well; its text."""
    status, text = ended
    is_refused = ": refused: " in text and re.search("^(?:line|final).*: refused: ", text, re.M)
    wanted = 3 if is_refused else 0
    demand(status == wanted, f"status: {mode} ends with {status}, not {wanted}: {text[-200:]!r}")
    return text


def check_script(program, data, rng):
    """Raises what isn't so of a script."""
    text = check_status("replay", program.run(["replay", "--workers", "1"], data))
    lines, refused = lines_of(data), {int(line): why for line, why in REFUSED.findall(text)}
    marked, printed = check_answers(lines, refused, text)
    again = program.run(["replay", "--workers", "4"], data, pieces_of(data, rng))
    compare("pieces and workers", check_status("replay in pieces", again), text)
    if len(lines) >= FEWEST:
        shared = program.run(["replay", "--workers", "3"], data)
        compare("workers", check_status("replay by workers", shared), text)
    if rng.random() < IN_MODES:
        check_mode(program, data, text, rng.choice(list(MODES)))
    if rng.random() < TRACKED:
        check_track(program, data, lines, marked)
    if rng.random() < MAPPED:
        check_vmap(program, data, lines, refused, text)
    if rng.random() < PATHED:
        check_paths(program, data, text)
    tables, tables6 = check_marked(program, marked, printed, rng)
    if program.echo:
        compare("echo", program.echoed(tables), tables)
    if program.echo and tables6:
        compare("echo of IPv6", program.echoed(tables6, "-6"), tables6)
    ended = program.run(["live"], data)
    check_status("live", ended)
    if rng.random() < JUDGED:
        check_live(program, data, marked, *ended)


def check_mode(program, data, replayed, mode):
    """A mode prints what a replay prints, and what it adds."""
    word, ending = MODES[mode]
    text = check_status(mode, program.run([mode], data))
    text = re.sub(f"^{word} .*\n", "", text, flags=re.M)
    compare(mode, text[: len(replayed)], replayed)
    rest = text[len(replayed) :]
    demand(re.fullmatch(ending, rest), f"{mode}: ends with {rest[-200:]!r}")


def check_track(program, data, lines, marked):
    """Connections are kept as a list of openers says."""
    asked = [[it, *TABLES, *TABLES6] if asked_by(it).op == "sync" else [it] for it in marked]
    text = program.run(["replay"], b"\n".join([*sum(asked, []), b""]))[1]
    standing = [{endpoint_of(*it) for it in TO_UDP.findall(part)} for part in SYNCED.split(text)[1:]]
    wanted = tracked(lambda it: program.run(["replay"], it), lines, lambda *_: iter(standing))
    text = check_status("track", program.run(["track"], data))
    compare("track", text, "".join(it + "\n" for it in wanted[1]))


def check_vmap(program, data, lines, refused, replayed):
    """Packets and explanations are answered by a remainder, and all else as in a replay."""
    text = check_status("vmap", program.run(["vmap"], data))
    check_answers(lines, refused, text)
    pairs = list(zip_longest(text.split("\n"), replayed.split("\n"), fillvalue=""))
    for line, other in pairs:
        found, theirs = REPLIED.match(line), REPLIED.match(other)
        if other.startswith("trail "):
            other = other.partition(":")[0] + ": none"
        if not found or not theirs:
            demand(line == other, f"vmap: {line!r}, and not {other!r}")
            continue
        demand(found[1] == theirs[1], f"vmap: {line!r}, and a replay says {other!r}")
        # what is refused may be so at the endpoint that was picked, and what no door takes is known
        known = {found[2], theirs[2]}
        demand(len(known) == 1 or "left alone" not in known, f"vmap: {line!r}, and a replay says {other!r}")
        check_chosen(lines, line, other)


def check_chosen(lines, line, other):
    """The door and the list of an explanation are those of a replay, and the place is by the draw."""
    ours, theirs = CHOSEN.match(line), CHOSEN.match(other)
    demand(not ours or not theirs or ours[3] == theirs[3], f"vmap: {line!r}, and a replay says {other!r}")
    if ours and ours[5] == "draws":
        value = asked_by(lines[int(ours[2]) - 1]).value
        draws, seed = value.get("draws"), value.get("seed")
        if draws is not None or seed is None:
            place = (int(draws[0]) if draws else MOST_DRAW) % int(ours[4]) + 1
            demand(int(ours[6]) == place, f"vmap: {line!r}, and the draw leaves place {place}")


def check_paths(program, data, replayed):
    """Behind each explanation stand its paths, other endpoints and sources, and all else is a replay's."""
    text = check_status("paths", program.run(["paths"], data))
    compare("paths", BEHIND.sub("", text), replayed)
    explained, behind = None, []
    for line in [*text.split("\n"), ""]:
        found = BEHIND.match(line + "\n")
        if found:
            behind.append(found.groups())
            continue
        if explained or behind:
            check_behind(explained, behind)
        explained, behind = re.match(r"explain (\d+) at \d+: (.*)", line), []


def check_behind(explained, behind):
    """The lines behind an explanation are its own, in order. It is one of the paths, whose chances add up
    to one. No endpoint stands twice, and no kind of source."""
    demand(explained, f"paths: what follows isn't behind an explanation: {behind[:1]}")
    kinds = [kind for kind, *_ in behind]
    demand(kinds == sorted(kinds, key=["path", "aside", "source"].index), f"paths: in order {kinds}")
    demand({it for _, it, _ in behind} == {explained[1]}, f"paths: {explained[0]!r} has lines of others, or none")
    said = {it: [own for kind, _, own in behind if kind == it] for it in ("path", "aside", "source")}
    paths = [PLACE.fullmatch(it) for it in said["path"]]
    demand(all(paths), f"paths: {explained[0]!r} has {said['path']}")
    places = [(int(it[1]), int(it[2])) for it in paths]
    demand(places == [(it + 1, len(paths)) for it in range(len(paths))], f"paths: places {places}")
    demand(sum(int(it[3] + it[4]) for it in paths) == 10**10, f"paths: the chances of {explained[0]!r}")
    demand(explained[2] in [it[5] for it in paths], f"paths: {explained[0]!r} isn't among {said['path']}")
    reached = [it[6] or it[5].split()[1] for it in paths if it[6] or it[5].startswith("to ")]
    others = [it.split(": ")[1].split()[0] for it in said["aside"]]
    ends = reached + others
    demand(len(ends) == len(set(ends)), f"paths: {explained[0]!r} has an endpoint twice: {ends}")
    heads = [it.split(", ", 1) for it in said["source"]]
    addresses, sources = [ip_address(it) for it, _ in heads], [it.split(": ")[0] for _, it in heads]
    demand(addresses == sorted(set(addresses)), f"paths: sources {addresses}")
    demand(len(sources) == len(set(sources)), f"paths: sources {sources}")


def check_marked(program, marked, wanted, rng):
    """The lines that are marked changed nothing. After all lines and a sync packets go where the
    tables say. The tables of each family then."""
    first = next((line for line in map(asked_by, marked) if not line.is_blank), None)
    setting = first.value if first and first.op == "config" else {}
    packets = [to_door(setting, rng) for _ in range(WALKED)]
    asked = [json.dumps(it).encode() for it in packets]
    data = b"\n".join([*marked, b'{"op":"sync"}', *TABLES, *TABLES6, *asked, b""])
    text = check_status("replay of what is read", program.run(["replay"], data))
    compare("what marked lines leave", text[: len(wanted)], wanted)
    whole = text[len(wanted) :].partition("\n")[2]  # without what the sync prints
    end, six = whole.find("\npacket ") + 1, whole.find("*nat\n", 1)
    texts = whole[:end] if six < 0 else whole[:six], "" if six < 0 else whole[six:end]
    check_walks(packets, setting, texts, whole[end:])
    return texts


def check_walks(packets, setting, texts, said):
    """Packets go where the tables of each family say."""
    tables = [Tables(text) for text in texts]
    verdicts = re.findall(r": (.*)\n", said)
    demand(len(verdicts) == len(packets), f"walk: {len(verdicts)} answers to {len(packets)} packets")
    for packet, verdict in zip(packets, verdicts):
        try:
            wanted = Walk(tables[":" in packet["dst"]], setting, packet).verdict()
        except Unknown:
            continue
        demand(verdict == wanted, f"walk: {verdict!r}, and not {wanted!r}: {json.dumps(packet)}")


def check_live(program, data, marked, status, text):
    """What streams at once write is a legal run."""
    script = runs.read_script(program.judge, data)
    fault = runs.fault_of(program.judge, script, text, status)
    program.judge.said.clear()
    demand(not fault, f"live: {fault}")
    if set(script.streams) <= {"main"}:
        lines = [BOOKMARK if at in script.refused else line for at, line in enumerate(marked, 1)]
        asked = [*lines, b'{"op":"sync"}', *TABLES, *TABLES6, b""]
        ended = program.run(["replay"], b"\n".join(asked))[1]
        compare("live tables", text[text.find("*nat\n") :], ended[ended.find("*nat\n") :])


def fault_of(program, data, seed):
    """What isn't so of a script, or nothing."""
    try:
        check_script(program, data, random.Random(f"pieces {seed}"))
    except Wrong as fault:
        return str(fault)
    except UNREAD as fault:
        return f"no judgement: {fault!r}"
    return ""


# ---- smaller scripts


def smallest(program, data, seed, fault):
    """A small part of a script that has a fault of the same kind, and its fault."""
    kind, least = fault.partition(":")[0], (data, fault)
    end = time.monotonic() + SHRINKING

    def has_fault(parts):
        nonlocal least
        smaller = b"".join(parts)
        found = fault_of(program, smaller, seed) if time.monotonic() < end else ""
        if found.partition(":")[0] != kind:
            return False
        least = smaller, found
        return True

    fewer(re.findall(rb"[^\n]*\n|[^\n]+", data), has_fault)
    if len(least[0]) <= PIECE:
        fewer([bytes([it]) for it in least[0]], has_fault)
    return least


def fewer(parts, has_fault):
    """Leaves out parts, many at a time and then few, as long as the fault is there."""
    size = max(1, len(parts) // 2)
    while size:
        place = 0
        while place < len(parts):
            others = parts[:place] + parts[place + size :]
            if has_fault(others):
                parts = others
            else:
                place += size
        size //= 2


# ---- the check


def begin(path, echo):
    """Makes a process of the check ready."""
    global built
    built = Program(path, echo)


def processes(path, echo):
    """Processes of the check, one for each processor."""
    return Pool(len(os.sched_getaffinity(0)), begin, (path, echo))


def told(seed):
    """What is told of a seed, or nothing."""
    data = random_script(seed)
    fault = fault_of(built, data, seed)
    if not fault:
        return ""
    data, fault = smallest(built, data, seed, fault)
    lines = data[:PIECE].decode(errors="backslashreplace").split("\n")
    of = f"  by this part of what fuzz.py script {seed} prints:"
    return "\n    ".join([f"checks: fuzz: seed {seed}: {fault}\n{of}", *lines])


def check(path, echo, count, first):
    """Tells what isn't so of random scripts, up to some."""
    seeds = range(first, first + count)
    with processes(path, echo) as pool:
        faults = filter(None, pool.imap_unordered(told, seeds, chunksize=20))
        faults = list(islice(faults, MOST_FAULTS))
    print(*faults, sep="\n", end="\n" * bool(faults))
    return int(bool(faults))


def shown(seed):
    """The fault that a seed's script shows, or nothing."""
    return fault_of(built, random_script(seed), seed)


def find(path, echo, count, first):
    """Tells which random script is the first that shows a fault."""
    seeds = range(first, first + count)
    with processes(path, echo) as pool:
        faults = enumerate(pool.imap(shown, seeds), 1)
        place, fault = next(((place, it) for place, it in faults if it), (0, ""))
    if fault:
        print(f"script {place} shows it: {fault}")
    return int(not fault)


def main(words):
    """Does what the words ask for; the status."""
    mode, *words = words
    if mode == "script":
        sys.stdout.buffer.write(random_script(int(words[0])))
        return 0
    if mode in ("check", "find"):
        how = check if mode == "check" else find
        return how(words[0], words[1], int(words[2]), int(words[3]))
    begin(*words[:2])
    fault = fault_of(built, Path(words[2]).read_bytes(), 0)
    print(fault or "as it should be")
    return int(bool(fault))


if __name__ == "__main__":
    sys.exit(main(sys.argv[1:]))
