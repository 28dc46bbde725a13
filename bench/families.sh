#!/usr/bin/env bash
# What tables of IPv6 cost beside those of IPv4: packets of IPv4, syncs after one Pod's event each
# that gives it other addresses, and loading, in a made cluster whose objects have addresses of both
# families, beside the same cluster with IPv4 alone; with another program beside them, this cluster
# by it too. By turns, and each figure is the least of seven runs, or with METER=instructions that of
# one run.
#   bench/families.sh [SERVICES PODS PACKETS SYNCS [OTHER]]
set -eu
cd "$(dirname "$0")/.."
services=${1:-1000} pods=${2:-6000} packets=${3:-200000} syncs=${4:-500} other=${5-}
program=${KPROXY:-$(checks/program kproxy)}
work=$(mktemp -d)
trap 'rm -rf "$work"' EXIT
. bench/timing.sh
meter=${METER:-processor_seconds} runs=7
[[ $meter != instructions ]] || runs=1

for lists in 1 2; do
    bench/cluster.sh "$services" "$pods" 0 1 "$lists" >"$work/loaded.$lists"
    bench/cluster.sh "$services" "$pods" "$packets" 1 "$lists" >"$work/packets.$lists"
    bench/changes.sh move "$syncs" unsynced <"$work/loaded.$lists" >"$work/unsynced.$lists"
    bench/changes.sh move "$syncs" <"$work/loaded.$lists" >"$work/synced.$lists"
done
echo "input: bench/cluster.sh $services $pods 0|$packets 1 1|2, bench/changes.sh move $syncs; $meter"
for ((run = 0; run < runs; run++)); do
    for what in loaded packets unsynced synced; do
        for lists in 1 2; do
            "$meter" "$work/$what.$lists" "$program" replay >>"$work/ours.$what.$lists"
        done
        [[ -z $other ]] || "$meter" "$work/$what.1" "$other" replay >>"$work/other.$what.1"
    done
done

least() { # $1: which runs
    sort -n "$work/$1" | head -n 1
}
# what is in one file of a cluster and not in another
more() { # $1: whose runs, $2: more, $3: less, $4: which cluster
    awk -v more="$(least "$1.$2.$4")" -v less="$(least "$1.$3.$4")" 'BEGIN { print more - less }'
}
echo "packets of IPv4: $(ratio "$(more ours packets loaded 1)" "$(more ours packets loaded 2)") of those without IPv6"
echo "syncs of both families: $(ratio "$(more ours synced unsynced 1)" "$(more ours synced unsynced 2)") of those of IPv4 alone"
echo "loading: $(ratio "$(least ours.loaded.1)" "$(least ours.loaded.2)") of loading without IPv6"
[[ -n $other ]] || exit 0
echo "without IPv6, beside $other: packets $(ratio "$(more other packets loaded 1)" "$(more ours packets loaded 1)"), syncs $(ratio "$(more other synced unsynced 1)" "$(more ours synced unsynced 1)"), loading $(ratio "$(least other.loaded.1)" "$(least ours.loaded.1)")"
