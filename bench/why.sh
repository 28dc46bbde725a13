#!/usr/bin/env bash
# tools/why over a large cluster: at one node, at all of them, and tools/analyze at one; wall time,
# and the most memory that the tool or a program of its held.
#   bench/why.sh [SERVICES PODS NODES]
set -eu
cd "$(dirname "$0")/.."
services=${1:-10000}
pods=${2:-60000}
nodes=${3:-1000}
export KPROXY=${KPROXY:-$(checks/program kproxy)}
work=$(mktemp -d)
trap 'rm -rf "$work"' EXIT

python3 -B bench/why.py "$services" "$pods" "$nodes" >"$work/state.jsonl"
echo "input: $services Services, $pods Pods and $nodes Nodes, $(wc -c <"$work/state.jsonl") bytes"
python3 - "$work/state.jsonl" <<'END'
import resource, subprocess, sys, time
asked = ["--to", "svc/default/s3/lb"]
calls = [
    ("tools/why at one node", ["tools/why", "--from", "pod/default/s0-0", *asked]),
    ("tools/why at all", ["tools/why", "--from", "198.51.100.7", *asked]),
    ("tools/analyze at one node", ["tools/analyze", "--node", "n1"]),
]
for name, (tool, *words) in calls:
    begin = time.monotonic()
    made = subprocess.run([tool, sys.argv[1], *words], stdout=subprocess.DEVNULL)
    taken = time.monotonic() - begin
    held = resource.getrusage(resource.RUSAGE_CHILDREN).ru_maxrss // 1024
    print(f"{name}: {taken:.1f} s, at most {held} MiB so far, status {made.returncode}")
END
