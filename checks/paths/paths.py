"""Whether `kproxy paths` tells all that may become of explained packets, by a model (behind.py).

Of each script, all lines behind explanations are those of the model, byte for byte, and the others are
those of a replay. Then the program is asked again, by a replay: for each list of up to six endpoints all
draws at each threshold and one below it; and draws of 2147483647 before one of 0. The answers are the
paths, no more and no fewer. And some explanations stand beside those of 200 addresses and all bounds,
each from the origin of its kind: what becomes of them, endpoint by endpoint, is what the line of the one
source of their kind counts.

    paths.py check PROGRAM COUNT FIRST    judges the scripts beside this file and those of other checks, and
                                          random ones (worlds.py makes them), by the seeds from FIRST on
    paths.py judge PROGRAM SCRIPT         judges a script
    paths.py say PROGRAM SCRIPT           prints what the model has to say of a script
    paths.py script SEED                  prints a random script
"""

import ipaddress
import json
import random
import re
import sys
from functools import partial
from itertools import product
from multiprocessing import Pool
from pathlib import Path

HERE = Path(__file__).resolve().parent
TOP = HERE.parent.parent
sys.path += [str(HERE.parent / it) for it in ("changes", "vmap")]

from doors import run

import worlds
from answers import ended, first_difference
from behind import Known, Model, Packet, bounds
from draws import MOST, Draws, by_thresholds, threshold

FOLDERS = [HERE, *(HERE.parent / it for it in ("replays", "changes", "health", "track", "vmap")), TOP / "examples"]
MOST_SIZE = 6  # of a list of which all draws are tried
DRAWN = 32  # draws that are listed in the place of a seed
ADDRESSES = 200  # beside an explanation
PROBED = 2  # explanations of a script that addresses stand beside
BEHIND = re.compile(r"(path|aside|source) ")
PATH = re.compile(r"path \d+ (\d+) of (\d+) chance (\d)\.(\d{10}): (.*)")
EXPLAINED = re.compile(r"explain (\d+) at \d+: (.*)")
SOURCE = re.compile(r"source \d+ ([^,]+), (.*?): (.*)")
COUNTED = re.compile(r"open (\d+)(?:, masked (\d+))?(?:, refused (\d+))?; (.*)")


def data_of(lines):
    return b"".join(it + b"\n" for it in lines)


def asked_of(program, mode, lines):
    """The status of a run, and its lines."""
    status, text = run(program, mode, data_of(lines))
    return status, ended(text)


# ---- what is printed


class Explained:
    """An explanation, and what stands behind it."""

    def __init__(self, line):
        self.number, self.said = EXPLAINED.match(line).groups()
        self.number = int(self.number)
        self.paths, self.asides, self.sources = [], [], []

    def add(self, line):
        {"path": self.paths, "aside": self.asides, "source": self.sources}[line.split()[0]].append(line)

    def answers(self):
        """What may become of the packet, place by place, without where it was sent before that."""
        return ["; ".join(PATH.match(it)[5].split("; ")[:2]) for it in self.paths]


def explained_in(lines):
    """All explanations of a text, in order."""
    found = []
    for line in lines:
        if EXPLAINED.match(line):
            found.append(Explained(line))
        elif BEHIND.match(line):
            found[-1].add(line)
    return found


def sum_fault(explained):
    """Whether places are counted from 1, and chances add up to 1."""
    found = [PATH.match(it).groups() for it in explained.paths]
    places = [(int(place), int(count)) for place, count, *_ in found]
    if places != [(it + 1, len(found)) for it in range(len(found))]:
        return f"places {places}"
    total = sum(int(whole) * 10**10 + int(part) for *_, whole, part, _ in found)
    return "" if total == 10**10 else f"chances add up to {total}"


# ---- draws


def draws_of(size):
    """All draws at each threshold of a list and one below it."""
    tests = [threshold(it) for it in range(size, 1, -1)]
    return [list(it) for it in product(*[(test, test - 1) for test in tests])]


def drawn(lines, answered):
    """The same lines, of which those that are answered list the draws of their seeds: so they are
    answered alike at other lines, too."""
    made = list(lines)
    for number in answered:
        value = json.loads(lines[number - 1])
        if value.get("seed") is not None and value.get("draws") is None:
            own = Draws(value, number)
            value["draws"] = [own[place] for place in range(DRAWN)]
            made[number - 1] = json.dumps(value).encode()
    return made


def draws_fault(program, lines, found):
    """Whether the answers for draws are the paths, no more and no fewer."""
    tries, asked = {it.number: tried_with(len(it.paths)) for it in found}, []
    for number, line in enumerate(lines, 1):
        asked.append(line)
        for draws, _ in tries.get(number, []):
            asked.append(json.dumps(json.loads(line) | {"draws": draws}).encode())
    said = (it.said for it in explained_in(asked_of(program, "replay", asked)[1]))
    for own in found:
        paths, reached = own.answers(), {next(said)}
        for draws, place in tries[own.number]:
            answer = next(said)
            reached.add(answer)
            if answer != paths[place]:
                return f"line {own.number} with draws {draws}: {answer!r}, and not {paths[place]!r}"
        if reached != set(paths):
            return f"line {own.number} has answers {reached}, and paths {paths}"
    return ""


def tried_with(count):
    """The draws that are tried of so many paths, each with the place that it has to pick."""
    first = [([MOST] * place + [0], place) for place in range(count)]
    all_of = draws_of(count) if 1 < count <= MOST_SIZE else [[0], [MOST]]
    return first + [(it, by_thresholds([*it, MOST], count)) for it in all_of]


# ---- sources


def addresses_beside(rng, behind, packet):
    """Addresses that are asked from: bounds and those beside them, and random ones."""
    version = packet.target.version
    make = {4: ipaddress.IPv4Address, 6: ipaddress.IPv6Address}[version]
    most = 2 ** (32 if version == 4 else 128) - 1
    networks = behind.asked_networks(packet)
    found = bounds(networks, version)
    found += [it - 1 for it in found if int(it)]
    within = [it for it in networks if it.version == version]
    while len(found) < ADDRESSES + 2 * len(within):
        it = rng.choice(within)
        found.append(make(rng.choice([rng.randint(0, most), int(it[rng.randrange(it.num_addresses)])])))
    return found


def sources_fault(program, lines, found, model):
    """Whether what sources get is what the lines of their kinds say."""
    rng, served = random.Random(len(lines)), [it for it in found if it.sources]
    numbers = {it.number: it for it in rng.sample(served, min(PROBED, len(served)))}
    asked, kinds = [], {}
    for number, line in enumerate(lines, 1):
        asked.append(line)
        own = numbers.get(number)
        if own:
            value, behind = json.loads(line), model.behinds[number]
            for address in addresses_beside(rng, behind, Packet(value)):
                kinds[len(asked) + 1] = own, behind.kind(Packet(value), address), address
                asked.append(json.dumps(asked_from(value, address, behind)).encode())
    said = asked_of(program, "paths", asked)[1]
    replayed = without_behind(said)
    fault = first_difference(said, list(Model(Known(asked, replayed)).lines(replayed)))
    if fault:
        return f"beside {', '.join(map(str, numbers))}: {fault}"
    for it in explained_in(said):
        if it.number in kinds:
            own, kind, address = kinds[it.number]
            fault = kind_fault(own, kind, address, it)
            if fault:
                return f"line {own.number} from {address}, {kind}: {fault}"
    return ""


def asked_from(value, address, behind):
    """The explanation of a packet from an address, as the line of its kind has it."""
    value = {name: it for name, it in value.items() if name not in ("from", "draws", "seed")}
    origin = {"from": "node"} if behind.node.is_own(address) else {}
    return value | {"src": str(address)} | origin


def kind_fault(own, kind, address, explained):
    """Whether what becomes of the packets of a source is what the line of its kind says."""
    if [without_number(it) for it in own.sources] != [without_number(it) for it in explained.sources]:
        return "other lines of sources than the explanation's"
    lines = [it for it in own.sources if SOURCE.match(it)[2] == kind]
    if len(lines) != 1:
        return f"{len(lines)} lines of its kind"
    said = SOURCE.match(lines[0])[3]
    counted = COUNTED.fullmatch(said)
    if not counted:
        return turned_away_fault(said, explained)
    if " by affinity " in explained.paths[0]:
        return ""
    count, masked, refused = (int(it or 0) for it in counted.groups()[:3])
    verdicts = [it.split("; ")[0] for it in explained.answers()]
    sent = [it for it in verdicts if it.startswith("to ")]
    itself = address_text(address)
    marked = [it for it in sent if it.endswith(" masked") and not it.startswith(f"to {itself}:")]
    own_place = [it for it in sent if it.startswith(f"to {itself}:")]
    if (len(sent), len(verdicts) - len(sent)) != (count, refused):
        return f"{len(sent)} of {len(verdicts)} endpoints are open, and it says {said}"
    if not len(marked) <= masked <= len(marked) + len(own_place):
        return f"{len(marked)} are masked, and it says {said}"
    if not all(f"{counted[4]} size {len(verdicts)} by draws " in it for it in explained.paths):
        return f"it says {said}, and {explained.paths[0]}"
    return ""


def turned_away_fault(said, explained):
    verdict, cause, door = re.fullmatch(r"([^,]+), ([^;]+); (door .*)", said).groups()
    answer = explained.answers()[0]
    if len(explained.paths) != 1 or answer.split("; ")[0] != verdict:
        return f"it says {said}, and {answer}"
    whys = {"no endpoints": "has no endpoints", "no local endpoints": "has no local endpoints"}
    whys = [whys.get(cause, "is closed to the source"), "is closed to the source"]
    is_so = verdict == "left alone" or answer in [f"{verdict}; {door} {why}" for why in whys]
    return "" if is_so else f"it says {said}, and {answer}"


def address_text(address):
    return f"[{address}]" if address.version == 6 else str(address)


def without_number(line):
    word, _, rest = line.split(" ", 2)
    return f"{word} {rest}"


def without_behind(lines):
    return [it for it in lines if not BEHIND.match(it)]


# ---- a script


class Judged(Model):
    """A model that keeps by which sync each explanation was."""

    def __init__(self, known):
        self.behinds = {}
        super().__init__(known)

    def answer(self, number, is_kept):
        self.behinds[number] = self.now
        return super().answer(number, is_kept)


def said_of(program, lines, model=Model):
    """The lines that the model says."""
    replayed = asked_of(program, "replay", lines)[1]
    return list(model(Known(lines, replayed)).lines(replayed))


def fault_of(program, lines):
    """The first thing that isn't as it should be, or nothing."""
    status, replayed = asked_of(program, "replay", lines)
    found, said = asked_of(program, "paths", lines)
    if found != status:
        return f"status {found}, and not {status}"
    fault = first_difference(without_behind(said), replayed)
    if fault:
        return f"beside a replay: {fault}"
    model = Judged(Known(lines, replayed))
    fault = first_difference(said, list(model.lines(replayed)))
    if fault:
        return fault
    explained = explained_in(said)
    for it in explained:
        if sum_fault(it):
            return f"line {it.number}: {sum_fault(it)}"
    lines = drawn(lines, model.behinds)
    return draws_fault(program, lines, explained) or sources_fault(program, lines, explained, model)


def lines_in(path):
    data = path.read_bytes()
    return data.removesuffix(b"\n").split(b"\n") if data else []


def worked_scripts():
    """The lines of worked inputs, by the names of their files."""
    paths = (path for folder in FOLDERS for path in sorted(folder.glob("*.jsonl")))
    return {str(path.relative_to(TOP)): lines_in(path) for path in paths}


def random_lines(seed):
    return [json.dumps(value).encode() for value in worlds.random_script(seed)]


def random_fault(program, seed):
    return fault_of(program, random_lines(seed))


def check(program, count, first):
    """Tells what isn't so of all scripts."""
    faults = {name: fault_of(program, lines) for name, lines in worked_scripts().items()}
    seeds = range(first, first + count)
    with Pool() as pool:
        found = pool.map(partial(random_fault, program), seeds, chunksize=4)
    faults |= {f"script {it}": fault for it, fault in zip(seeds, found)}
    for name, fault in faults.items():
        if fault:
            print(f"checks: paths: {name}: {fault}")
    return int(any(faults.values()))


def main(words):
    """Does what the words ask for; the status."""
    mode, *words = words
    if mode == "script":
        sys.stdout.buffer.write(data_of(random_lines(int(words[0]))))
        return 0
    if mode == "check":
        return check(words[0], *map(int, words[1:]))
    program, path = words
    if mode == "say":
        print(*said_of(program, lines_in(Path(path))), sep="\n")
        return 0
    fault = fault_of(program, lines_in(Path(path)))
    print(fault or "as it should be")
    return int(bool(fault))


if __name__ == "__main__":
    sys.exit(main(sys.argv[1:]))
