"""Whether tools/why, tools/plan and tools/analyze print what the program says, of the objects that
kubectl prints.

    Clusters have the answers that Kubernetes' pages give (cases.py). With a program that exchanges
    endpoints, chances and causes (otherwise), the tool prints that program's. Of random clusters the
    answers with all objects, and with those that the tool keeps, are alike on each node. Objects meet
    docs/why.schema.json, and each fault has its sentence and status.
    Changes are told with what is lost (changes.py). Each finding stands in a cluster that has it, and
    not in the same one mended (faulty.py).

    why.py PROGRAM COUNT FIRST
"""

import json
import os
import random
import re
import shlex
import shutil
import subprocess
import sys
import tempfile
from multiprocessing import Pool
from pathlib import Path

import cases
import changes
import faulty
import kubectl

try:
    import jsonschema
except ImportError:
    jsonschema = None

HERE = Path(__file__).resolve().parent
TOP = HERE.parent.parent
TOOL, PLAN, ANALYZE, JSON = (str(TOP / "tools" / it) for it in ("why", "plan", "analyze", "json"))
SCHEMA = json.loads((TOP / "docs" / "why.schema.json").read_bytes())
MOST_FAULTS = 5

faults = []


def expect(holds, text):
    if not holds:
        faults.append(text)


def tell():
    """Tells some of the faults; the status of the check."""
    for it in faults[:MOST_FAULTS]:
        print(f"checks: why: {it}")
    return int(bool(faults))


def copied_cluster(folder):
    """tools/cluster without what stands beside it, so that tools/lint doesn't read each state."""
    for name in ("cluster", "cluster.jq"):
        shutil.copy(TOP / "tools" / name, folder)
    return f"{folder}/cluster"


def state_of(tool, items, path, *words, node="n1"):
    """Has tools/cluster write the state of a node for these objects."""
    pipe, data = subprocess.PIPE, kubectl.text_of(items).encode()
    made = subprocess.run([tool, node, "-", *words], input=data, stdout=pipe, stderr=pipe)
    Path(path).write_bytes(made.stdout)
    expect(made.returncode == 0, f"tools/cluster: {made.stderr.decode()}")


def run(words, tool=TOOL, **environment):
    """The status of a tool, and what it writes and says."""
    pipe = subprocess.PIPE
    made = subprocess.run([tool, *words], stdout=pipe, stderr=pipe, env={**os.environ, **environment})
    return made.returncode, made.stdout.decode(), made.stderr.decode(errors="replace")


def differs(wanted, found):
    """The first line that is another one."""
    for one, other in zip(wanted.split("\n") + [""], found.split("\n") + [""]):
        if one != other:
            return f"wanted {one!r}, found {other!r}"
    return ""


# ---- clusters of Kubernetes' pages


def check_cases(folder):
    tool = copied_cluster(folder)
    for case in cases.CASES:
        path = f"{folder}/{case.name}.jsonl"
        state_of(tool, case.items, path)
        for words, wanted in case.asks:
            status, found, said = run([path, *words.split()])
            expect((status, said) == (0, ""), f"{case.name}: {words}: status {status}: {said}")
            told = differs(wanted[1:], found)
            expect(not told, f"{case.name}: {words}: {told}")
            check_objects(case.name, path, words.split())


def check_objects(name, path, words):
    """The objects of an answer meet the schema."""
    status, found, said = run([path, *words, "-o", "json"])
    expect(status == 0, f"{name}: {words}: -o json: status {status}: {said}")
    chances = len(re.findall(r'"chance":[01][.][0-9]{10}[,}]', found))
    expect(chances == found.count('"chance":'), f"{name}: {words}: -o json: a chance isn't a number")
    for line in found.splitlines():
        if jsonschema is not None:
            error = next(jsonschema.Draft7Validator(SCHEMA).iter_errors(json.loads(line)), None)
            expect(error is None, f"{name}: {words}: -o json: {error and error.message}: {line[:200]}")


# ---- a program that says otherwise


# what has to be printed then: endpoints, chances, causes and counts are that program's
OTHERWISE = {
    ("an_endpoint_that_is_not_ready", 0): """
Pod default/client-a (10.244.1.30, node n1) to Service default/web, port http: cluster IP 10.96.0.20:80/TCP

CHANCE  ENDPOINT          POD            NODE  ZONE  SEES
12.5 %  10.244.2.10:8080  default/web-b  n2    b     10.244.1.30
87.5 %  10.244.1.10:8080  default/web-a  n1    a     10.244.1.30
-       10.244.2.12:8080  default/web-c  n2    b     hinted for other zones

others   from outside 10.244.0.0/16 and from n1 itself: the same two, of which 1 sees an address of n1
""",
    ("no_endpoint", 0): """
Pod default/client-a (10.244.1.30, node n1) to Service default/web, port http: cluster IP 10.96.0.20:80/TCP

dropped (times out): internalTrafficPolicy is Local, and no endpoint is on n1

others   from outside 10.244.0.0/16 and from n1 itself: the same
""",
}


def check_otherwise(program, folder):
    log = f"{folder}/said"
    for case in cases.CASES:
        path = f"{folder}/{case.name}.jsonl"
        for at, (words, _) in enumerate(case.asks):
            Path(log).write_bytes(b"")
            told = {"KPROXY": str(HERE / "otherwise"), "REAL": program, "SAID": log}
            if (case.name, at) in OTHERWISE:
                found = run([path, *words.split()], **told)[1]
                other = differs(OTHERWISE[case.name, at][1:], found)
                expect(not other, f"a program that says otherwise: {case.name}: {other}")
                Path(log).write_bytes(b"")
            status, found, said = run([path, *words.split(), "-o", "json"], **told)
            expect(status == 0, f"a program that says otherwise: {case.name}: {said}")
            wanted = lines_said(log)
            printed = lines_printed(found)
            expect(wanted == printed, f"a program that says otherwise: {case.name}: {words}: other lines")


def lines_said(log):
    """What was printed for questions, without the numbers of their lines."""
    made = subprocess.run([JSON], stdin=open(log, "rb"), stdout=subprocess.PIPE)
    values = map(json.loads, made.stdout.splitlines())
    return sorted(shape_of(it) for it in values if it["form"] in ("path", "aside", "source"))


def lines_printed(text):
    """The same of the tool's objects."""
    found = []
    for line in text.splitlines():
        value = json.loads(line, parse_float=str)  # chances, as they are printed
        for form, name in (("path", "paths"), ("aside", "asides"), ("source", "sources")):
            found += [shape_of({"form": form, **it}) for it in value.get(name, ())]
    return sorted(found)


def shape_of(said):
    """A line without its number, and without what the tool adds."""
    added = ("line", "pods", "node", "zone")
    return json.dumps({it: value for it, value in said.items() if it not in added}, sort_keys=True)


# ---- changes and findings


def check_changes(folder):
    tool = copied_cluster(folder)
    for it in changes.CHANGES:
        path, applied = f"{folder}/before.jsonl", f"{folder}/applied.json"
        state_of(tool, it.before, path)
        words = ["--drain", it.after]
        if isinstance(it.after, list):
            Path(applied).write_text(kubectl.text_of(it.after))
            words = ["--with", applied]
        status, found, said = run([path, *words], PLAN)
        expect(status == it.status, f"{it.name}: status {status}: {said}")
        told = differs(it.wanted[1:], found)
        expect(not told, f"{it.name}: {told}")
        is_said = it.said in said and (it.status != 2 or said.count("\n") == 1)
        expect(is_said, f"{it.name}: on standard error: {said}")
        if it.status != 2:
            check_as_file(tool, it, folder, found)
    for words in ([], [path], [path, path, "--drain", "n1"], [path, path, "--fail-on", "all"]):
        status, _, said = run(words, PLAN)
        expect(status == 2 and said.startswith("usage: tools/plan"), f"{words}: status {status}: {said}")
    for words in ([path, "--drain", "n9"], [path, f"{folder}/nowhere"], [path, "--with", TOOL]):
        status, found, said = run(words, PLAN)
        expect((status, found, said.count("\n")) == (2, "", 1), f"{words}: status {status}: {said}")


def check_as_file(tool, change, folder, wanted):
    """A state after the change, as another file, is told alike, where slices stay as they are."""
    if isinstance(change.after, list):
        names = [(it["kind"], it["metadata"]["name"]) for it in change.after]
        kept = [it for it in change.before if (it["kind"], it["metadata"]["name"]) not in names]
        state_of(tool, [*kept, *change.after], f"{folder}/after.jsonl")
        found = run([f"{folder}/before.jsonl", f"{folder}/after.jsonl"], PLAN)[1]
        told = differs(wanted, found)
        expect(not told, f"{change.name}: as another file: {told}")


def check_findings(folder):
    tool = copied_cluster(folder)
    for it in faulty.FAULTY:
        path, words = f"{folder}/faulty.jsonl", ["--as-written"] * it.as_written
        state_of(tool, it.items, path, *words)
        status, found, said = run([path, "-o", "json"], ANALYZE)
        told = [one for one in map(json.loads, found.splitlines()) if one["code"] == it.code]
        expect(status == 1 and len(told) == 1, f"{it.code}: status {status}: {found}{said}")
        for one in told:
            expect(one["field"] == it.field, f"{it.code}: {one['field']}")
            expect(one["becomes"].startswith(it.consequence), f"{it.code}: {one['becomes']}")
        text = run([path], ANALYZE)[1]
        expect(f"{it.code}: " in text, f"{it.code}: isn't in the text: {text}")
        check_asked(it.code, path, text)
        state_of(tool, it.items, f"{folder}/other.jsonl", *words, node="n2")
        other = run([f"{folder}/other.jsonl"], ANALYZE)[1].replace("/other.jsonl", "/faulty.jsonl")
        expect(other == text, f"{it.code}: written for n2: {differs(text, other)}")
        state_of(tool, it.mended, path, *words)
        status, found, said = run([path, "-o", "json"], ANALYZE)
        codes = [json.loads(one)["code"] for one in found.splitlines()]
        expect(it.code not in codes, f"{it.code}: is found where it is mended: {found}{said}")
        told = {"KPROXY": str(HERE / "alone"), "REAL": os.environ["KPROXY"]}
        state_of(tool, it.items, path, *words)
        found = run([path, "-o", "json"], ANALYZE, **told)[1]
        codes = [json.loads(one)["code"] for one in found.splitlines()]
        expect(it.code not in codes, f"{it.code}: is found where no answer bears it out: {found}")


def check_asked(code, path, text):
    """The call that a finding prints is answered."""
    asked = [shlex.split(it)[1:] for it in text.splitlines() if it.startswith("    ask ")]
    expect(asked, f"{code}: prints no call")
    for tool, *words in asked:
        expect((tool, words[0]) == ("tools/why", path), f"{code}: asks {tool} {words}")
        status, _, said = run(words)
        expect((status, said) == (0, ""), f"{code}: {words}: status {status}: {said}")


# ---- random clusters

ADDRESSES = [f"10.244.{place}.{it}" for place in (1, 2) for it in (10, 11, 12)]
CLUSTER_IPS = [f"10.96.0.{it}" for it in range(20, 26)]
OUTSIDE = ["203.0.113.5", "203.0.113.9", "198.51.100.32"]
NUMBERS = [80, 443, 8080]
RANGES = ["198.51.100.0/24", "10.244.1.0/24", "192.168.1.11/32", "0.0.0.0/0"]


def random_items(rng):
    """Services that share addresses and ports, and have endpoints that are places of others."""
    services = [random_service(rng, at) for at in range(rng.randint(3, 6))]
    slices = [it for one in services for it in random_slices(rng, one["metadata"]["name"])]
    pods = [kubectl.pod(f"web-{at}", it, f"n{it[7]}") for at, it in enumerate(ADDRESSES)]
    return [*cases.cluster(), *services, *slices, *pods]


def random_service(rng, at):
    name, form = f"s{at}", rng.choice(["ClusterIP", "NodePort", "LoadBalancer"])
    with_node_ports = form != "ClusterIP"
    ports = [
        kubectl.port(f"p{it}", it, it, 30000 + it + at if with_node_ports else None, proto)
        for it in rng.sample(NUMBERS, rng.randint(1, 2))
        for proto in rng.sample(["TCP", "TCP", "UDP"], 1)
    ]
    more = {"sessionAffinity": "ClientIP"} if rng.random() < 0.2 else {}
    more |= {"externalIPs": rng.sample(OUTSIDE, 1)} if rng.random() < 0.4 else {}
    more |= {"internalTrafficPolicy": rng.choice(["Cluster", "Local"])}
    ingress = None
    if form == "LoadBalancer":
        ingress = [{"ip": rng.choice(OUTSIDE), "ipMode": "VIP"}]
        more |= {"loadBalancerSourceRanges": rng.sample(RANGES, 1)} if rng.random() < 0.5 else {}
    if form != "ClusterIP":
        more |= {"externalTrafficPolicy": rng.choice(["Cluster", "Local"])}
    return kubectl.service(name, CLUSTER_IPS[at], ports, {"app": name}, form, ingress, **more)


def random_slices(rng, name):
    others = [*ADDRESSES, *CLUSTER_IPS, "192.168.1.11", "192.168.1.12", *OUTSIDE]
    for family in ["IPv4"] * rng.randint(0, 2):
        given = rng.sample(others if rng.random() < 0.4 else ADDRESSES, rng.randint(0, 4))
        entries = [
            kubectl.entry(
                it,
                rng.choice(["n1", "n2"]),
                "",
                rng.random() < 0.7,
                rng.random() < 0.7,
                rng.random() < 0.2,
                rng.choice([None, "a", "b"]),
            )
            for it in given
        ]
        ports = tuple((f"p{it}", rng.choice([it, *NUMBERS, 30080])) for it in NUMBERS)
        made = kubectl.slice_of(name, entries, ports, family, protocol=rng.choice(["TCP", "TCP", "UDP"]))
        made["metadata"]["name"] += str(rng.randrange(10**6))
        yield made


def random_question(rng, items):
    services = [it["metadata"]["name"] for it in items if it["kind"] == "Service"]
    sources = ["pod/default/client-a", "node/n1", "198.51.100.7", "192.0.2.9", "10.244.2.11"]
    places = [*CLUSTER_IPS, *OUTSIDE, "192.168.1.11", "10.244.1.10"]
    number = rng.choice([*NUMBERS, *range(30080, 30086), 30443])
    address = f"{rng.choice(places)}:{number}{rng.choice(['', '/udp'])}"
    asked = rng.choice([f"svc/default/{rng.choice(services)}", address])
    node = rng.choice(["all", "all", "n1", "n2"])
    return ["--from", rng.choice(sources), "--to", asked, "--node", node]


ASKED = 3  # questions of each random cluster


def check_seed(seed):
    """The answers of a random cluster, with all objects and with those that are kept."""
    del faults[:]
    rng = random.Random(f"why {seed}")
    items = random_items(rng)
    with tempfile.TemporaryDirectory() as folder:
        path = f"{folder}/state.jsonl"
        state_of(copied_cluster(folder), items, path)
        for _ in range(ASKED):
            words = random_question(rng, items)
            for form in ("text", "json"):
                kept = run([path, *words, "-o", form])
                whole = run([path, *words, "--whole", "-o", form])
                expect(kept[0] == 0, f"seed {seed}: {words}: status {kept[0]}: {kept[2]}")
                told = differs(whole[1], kept[1])
                expect(not told, f"seed {seed}: {words}: with all objects: {told}")
    return list(faults)


def check_random(count, first):
    with Pool(len(os.sched_getaffinity(0))) as pool:
        for found in pool.imap_unordered(check_seed, range(first, first + count)):
            faults.extend(found)


# ---- faults


def check_faults(folder):
    path = f"{folder}/two_ready_endpoints.jsonl"
    Path(f"{folder}/bad.jsonl").write_text('{"op":"config","node":"n1"}\n{bad\n')
    Path(f"{folder}/none.jsonl").write_text('{"kind":"Node","metadata":{"name":"n1"}}\n')
    question = ["--from", "10.0.0.1", "--to", "10.96.0.20:80"]
    wanted = [
        ([f"{folder}/nowhere"], "can't be read: No such file or directory"),
        ([f"{folder}/bad.jsonl"], "line 2 of .* is no object: write it by tools/cluster NODE"),
        ([f"{folder}/none.jsonl"], "has no setting of a node: write it by tools/cluster NODE"),
        ([path, *question, "--node", "n9"], "there is no Node n9; there are: n1, n2"),
        ([path, "--from", "pod/default/web-x", *question[2:]], "there is no Pod default/web-x: is it "),
        ([path, "--from", "web-a", *question[2:]], "--from web-a: give pod/NAMESPACE/NAME, "),
        ([path, *question[:2], "--to", "svc/default/wep"], "there is no Service default/wep: is it default/web?"),
        ([path, *question[:2], "--to", "svc/default/web:8080"], "has no port 8080: that is the targetPort of its port"),
        ([path, *question[:2], "--to", "svc/default/web:81"], "has no port 81; it has 80/TCP .http."),
        ([path, *question[:2], "--to", "svc/default/web/lb"], "has no load balancer: it has cluster IP"),
        ([path, *question[:2], "--to", "svc/default/web/roof"], "there is no /roof: give svc/NAMESPACE/NAME"),
        ([path, *question[:2], "--to", "web"], "--to web: give svc/NAMESPACE/NAME"),
        ([path, *question[:2], "--to", "10.0.0.256:80"], "10.0.0.256 is no address"),
        ([path, *question[:2], "--to", "10.96.0.20:0"], "0 is no port: give 1 to 65535"),
        ([path, *question[:2], "--to", "10.96.0.20:80/icmp"], "ICMP is no protocol: give tcp, udp or sctp"),
        ([path, "--from", "fd00::1", *question[2:]], "fd00::1 has no address of IPv4: give one as --from"),
    ]
    for words, sentence in wanted:
        status, found, said = run(words)
        is_so = subprocess.run(["grep", "-q", "--", sentence], input=said.encode()).returncode == 0
        expect((status, found, said.count("\n")) == (1, "", 1) and is_so, f"{words}: status {status}: {said}")
    check_without_range(folder, path, question)
    check_balancers(folder, question[:2])
    for words in ([], [path, "--from", "10.0.0.1"], [path, "--chains"], [path, "--why"], [path, "-o", "yaml"]):
        status, _, said = run(words)
        expect(status == 2 and said.startswith("usage: tools/why"), f"{words}: status {status}: {said}")
    status, _, said = run([path, *question], KPROXY="/bin/false")
    expect(status == 1 and said.startswith("why: the program ended with status 1"), f"false: {said}")


def check_without_range(folder, path, question):
    """A state without the range of Pods: it's said once."""
    lines = Path(path).read_text().splitlines(keepends=True)
    setting = {it: value for it, value in json.loads(lines[0]).items() if it != "clusterCIDR"}
    Path(f"{folder}/no-range.jsonl").write_text("".join([json.dumps(setting) + "\n", *lines[1:]]))
    wanted = "no clusterCIDR in the state: Pods count as outside; give --cluster-cidr to tools/cluster"
    for words in (question, []):
        status, _, said = run([f"{folder}/no-range.jsonl", *words, "--node", "all"])
        expect((status, said) == (0, f"why: {wanted}\n"), f"no range: {words}: status {status}: {said}")


def check_balancers(folder, source):
    """A load balancer without an address that is a door: why it has none."""
    path, tool = f"{folder}/balancer.jsonl", copied_cluster(folder)
    lacks = [
        (None, "no address in status yet"),
        ([{"hostname": "lb.example.com"}], "a hostname only: nodes have no rules for it"),
        ([{"ip": "203.0.113.20", "ipMode": "Proxy"}], "ipMode Proxy: nodes have no rules for it"),
    ]
    for ingress, lack in lacks:
        made = cases.web(form="LoadBalancer", ingress=ingress)
        state_of(tool, cases.cluster(*made, kubectl.slice_of("web", cases.both())), path)
        told = f"Service default/web, load balancer: {lack}"
        found = run([path, *source, "--to", "svc/default/web/lb"])
        expect(found == (1, "", f"why: {told}; it has cluster IP\n"), f"load balancer: {found}")
        expect(f"besides  {told}\n" in run([path])[1], f"table: it doesn't say: {told}")


def main(program, count, first):
    os.environ["KPROXY"] = program
    with tempfile.TemporaryDirectory() as folder:
        check_cases(folder)
        check_otherwise(program, folder)
        check_faults(folder)
        check_changes(folder)
        check_findings(folder)
    check_random(count, first)
    return tell()


if __name__ == "__main__":
    sys.exit(main(sys.argv[1], int(sys.argv[2]), int(sys.argv[3])))
