#!/usr/bin/env bash
# What lists of addresses and families cost: a whole replay of a made cluster, and of the same one
# with `clusterIPs`, `ipFamilies` and `podIPs` in its objects; with another program beside them, the
# first one by it too. By turns, and each figure is the least of seven runs.
#   bench/lists.sh [SERVICES PODS [OTHER]]
set -eu
cd "$(dirname "$0")/.."
services=${1:-2000}
pods=${2:-20000}
other=${3-}
program=${KPROXY:-$(checks/program kproxy)}
work=$(mktemp -d)
trap 'rm -rf "$work"' EXIT
. bench/timing.sh

bench/cluster.sh "$services" "$pods" 0 1 0 >"$work/without"
bench/cluster.sh "$services" "$pods" 0 1 1 >"$work/with"
echo "input: bench/cluster.sh $services $pods 0 1 0, and 1 at its end; processor time"

for ((run = 0; run < 7; run++)); do
    for lists in without with; do
        processor_seconds "$work/$lists" "$program" replay >>"$work/ours_$lists"
    done
    [[ -z $other ]] || processor_seconds "$work/without" "$other" replay >>"$work/other"
done

least() { # $1: which runs
    sort -n "$work/$1" | head -n 1
}
plain=$(least ours_without) listed=$(least ours_with)
echo "kproxy replay: $plain s; with lists $listed s, which is $(ratio "$plain" "$listed") of it"
if [[ -n $other ]]; then
    theirs=$(least other)
    echo "$other: $theirs s; kproxy takes $(ratio "$theirs" "$plain") of it"
fi
