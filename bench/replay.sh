#!/usr/bin/env bash
# A whole replay of a made cluster beside `jq -c .` on the same file in the same run: processor
# time, each the median of five runs, and the most memory that the program held.
#   bench/replay.sh [SERVICES PODS PACKETS]
# PACKETS are those after each of the two syncs.
set -eu
cd "$(dirname "$0")/.."
services=${1:-2000}
pods=${2:-20000}
packets=${3:-8000}
program=${KPROXY:-$(checks/program kproxy)}
work=$(mktemp -d)
trap 'rm -rf "$work"' EXIT
. bench/timing.sh

bench/cluster.sh "$services" "$pods" "$packets" >"$work/lines"
echo "input: bench/cluster.sh $services $pods $packets, $(wc -c <"$work/lines") bytes; processor time"

ours=$(median_of_five "$work/lines" "$program" replay)
echo "kproxy replay: $ours s"
if command -v python3 >/dev/null; then
    python3 - "$work/lines" "$program" <<'END'
import os, resource, subprocess, sys
with open(sys.argv[1], "rb") as lines:
    subprocess.run([sys.argv[2], "replay"], stdin=lines, stdout=subprocess.DEVNULL, check=True)
most = resource.getrusage(resource.RUSAGE_CHILDREN).ru_maxrss * 1024
print(f"memory: at most {most / os.path.getsize(sys.argv[1]):.1f} times the input")
END
fi
if command -v jq >/dev/null; then
    theirs=$(median_of_five "$work/lines" jq -c .)
    echo "jq -c .: $theirs s; kproxy takes $(ratio "$theirs" "$ours") of it"
else
    echo "jq is missing, so there is nothing to compare with"
fi
