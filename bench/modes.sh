#!/usr/bin/env bash
# What a sync costs in each mode beside one of a replay, among 10,000 Services: after one event of a
# Pod each that gives a ready Pod other addresses, that takes a Service its only endpoint and gives
# it back, or that says what is known. Each figure is the difference between a run with 2,000 such
# syncs and one with none, of processor time and the least of some runs by turns, three by default.
#   bench/modes.sh [SERVICES PODS [RUNS]]
# KPROXY is the command that is measured, the proved program if left out.
set -eu
cd "$(dirname "$0")/.."
services=${1:-10000}
pods=${2:-60000}
runs=${3:-3}
syncs=2000
read -ra program <<<"${KPROXY:-$(checks/program kproxy)}"
work=$(mktemp -d)
trap 'rm -rf "$work"' EXIT
. bench/timing.sh

# a hundredth of the Services tell load balancers their health; of each a line comes at each sync
bench/cluster.sh "$services" "$pods" 0 | awk '/DELETED/ { exit }
    /"kind":"Service"/ && count++ % 100 == 50 {
        sub(/"spec":{/, "&\"type\":\"LoadBalancer\",\"externalTrafficPolicy\":\"Local\"," \
            "\"healthCheckNodePort\":" 20000 + int(count / 100) ",")
    }
    { print }' >"$work/none"
for kind in move last beat; do
    bench/changes.sh $kind $syncs <"$work/none" >"$work/$kind"
done
for ((run = 0; run < runs; run++)); do
    for mode in replay changes health; do
        for kind in none move last beat; do
            echo "$mode $kind $(processor_seconds "$work/$kind" "${program[@]}" $mode)"
        done
    done
done | awk -v syncs=$syncs -v services="$services" '
    !($1 " " $2 in least) || $3 < least[$1 " " $2] { least[$1 " " $2] = $3 }
    function cost(mode, kind) { return (least[mode " " kind] - least[mode " none"]) * 1000 / syncs }
    END {
        split("replay changes health", mode)
        split("move last beat", kind)
        for (k = 1; k <= 3; k++) for (m = 1; m <= 3; m++)
            printf "%s, %s: %.3f ms a sync among %d Services, %.2f of a replay\n", kind[k], mode[m],
                cost(mode[m], kind[k]), services, cost(mode[m], kind[k]) / cost("replay", kind[k])
    }'
