"""Whether `kproxy health` tells load balancers the health of this node, by a model.

A script is what ../follow/changes.py makes, with health ports given to its Services. The program
replays it and says the health. Both texts are one but for the lines of health after each accepted
sync, and the accept rules at the end, which are those of the model, byte for byte. It counts the
addresses of ready endpoints on this node anew at each accepted sync.

    health.py check PROGRAM SYNCS COUNT FIRST    judges the scripts beside this file, and random
                                                 ones, by the seeds from FIRST on
    health.py judge PROGRAM SCRIPT               judges a script
    health.py say PROGRAM SCRIPT                 prints what the model has to say of a script
"""

import random
import sys
from itertools import zip_longest
from pathlib import Path

HERE = Path(__file__).resolve().parent
sys.path.append(str(HERE.parent / "changes"))

from doors import SYNCED, data_of, run
from record import Record, cluster_address, covered_at

import changes
from follow import read_script


def health_of(record, key, service):
    """The port at which a Service's health is asked for, and how many endpoints it has here, or
    nothing where there is no such port."""
    spec = service["spec"]
    is_local = spec.get("externalTrafficPolicy") == "Local"
    port = spec.get("healthCheckNodePort") or 0
    families = [it for it in record.families() if cluster_address(spec, it)]
    if spec.get("type") != "LoadBalancer" or not is_local or not port or not families:
        return None
    addresses = set()
    for it in spec.get("ports") or []:
        own = *key, it.get("name", ""), it.get("protocol", "TCP")
        for family in record.families():
            endpoints = record.endpoints(own, spec, family)
            here = [end for end in endpoints if end.state.ready and record.is_local(end.state)]
            addresses |= {end.address for end in here}
    return port, len(addresses)


def healths(record):
    """The health of each Service that has a port for it, in order of Services."""
    for key, service in sorted(record.of("Service").items()):
        found = health_of(record, key, service)
        if found:
            yield "/".join(key), *found


def rules_of(record):
    """The rules that let probes pass, by port."""
    ports = sorted({port for _, port, _ in healths(record)})
    accept = [f"-A KUBE-NODEPORTS -p tcp -m tcp --dport {port} -j ACCEPT" for port in ports]
    return ["*filter", ":KUBE-NODEPORTS - [0:0]", *accept, "COMMIT"] if ports else []


def lines_with_health(values, replayed):
    """The lines that a replay prints, with those of health."""
    is_set = bool(values) and values[0].get("op") == "config"
    setting = values[0] if is_set else {}
    covered, lines = covered_at(values, replayed), []
    record = Record(setting, {})
    for line in replayed.splitlines():
        lines.append(line)
        if SYNCED.match(line):
            record = Record(setting, next(covered))
            for name, port, count in healths(record):
                status = 200 if count else 503
                lines.append(f"health {name} port {port}: {status} local {count}")
    return lines + rules_of(record)


def fault_of(program, values):
    """The first line that isn't as it should be, or nothing."""
    data = data_of(values)
    status, replayed = run(program, "replay", data)
    found, said = run(program, "health", data)
    if found != status:
        return f"status {found}, and not {status}"
    pairs = enumerate(zip_longest(said.splitlines(), lines_with_health(values, replayed)), 1)
    wrong = (f"line {place}: {it!r}, and not {line!r}" for place, (it, line) in pairs if it != line)
    return next(wrong, "")


def random_script(seed, syncs):
    """A script of small changes, in which some Services have health ports."""
    rng = random.Random(f"health {seed}")
    return [with_port(value, rng) for value in changes.random_script(seed, syncs)]


def with_port(value, rng):
    """A line with a health port in its Services, mostly."""
    if isinstance(value, list):
        return [with_port(it, rng) for it in value]
    if not isinstance(value, dict):
        return value
    value = {name: with_port(it, rng) for name, it in value.items()}
    if value.get("kind") == "Service" and "spec" in value:
        port = rng.choice([None, 0, *[rng.randint(31000, 31040)] * 6])
        value["spec"] |= {} if port is None else {"healthCheckNodePort": port}
    return value


def main(words):
    """Does what the words ask for; the status."""
    mode, program, *words = words
    if mode == "check":
        syncs, count, first = map(int, words)
        names = {path.name: read_script(path.read_bytes()) for path in HERE.glob("*.jsonl")}
        seeds = range(first, first + count)
        scripts = names | {f"{syncs} {it}": random_script(it, syncs) for it in seeds}
        faults = {name: fault_of(program, values) for name, values in scripts.items()}
        for name, fault in faults.items():
            if fault:
                print(f"checks: health: script {name}: {fault}")
        return int(any(faults.values()))
    values = read_script(Path(words[0]).read_bytes())
    if mode == "say":
        replayed = run(program, "replay", data_of(values))[1]
        print(*lines_with_health(values, replayed), sep="\n")
        return 0
    fault = fault_of(program, values)
    print(fault or "as it should be")
    return int(bool(fault))


if __name__ == "__main__":
    sys.exit(main(sys.argv[1:]))
