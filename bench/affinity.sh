#!/usr/bin/env bash
# Packets to 100 Services with session affinity and 20 endpoints each, from so many sources by turns,
# beside `jq -c .` on the same file: processor time, each the least of seven runs by turns.
#   bench/affinity.sh [PACKETS [SOURCES..]]
# KPROXY is the path of the program that is measured, that of the built one if left out.
set -eu
cd "$(dirname "$0")/.."
packets=${1:-500000}
[[ $# == 0 ]] || shift
[[ $# != 0 ]] || set -- 49 997
program=${KPROXY:-$(checks/program kproxy)}
work=$(mktemp -d)
trap 'rm -rf "$work"' EXIT
. bench/timing.sh

for sources in "$@"; do
    bench/sources.sh "$packets" "$sources" >"$work/lines"
    for turn in 1 2 3 4 5 6 7; do
        echo "ours $(processor_seconds "$work/lines" "$program" replay)"
        echo "theirs $(processor_seconds "$work/lines" jq -c .)"
    done | awk -v packets="$packets" -v sources="$sources" '
        !($1 in least) || $2 < least[$1] { least[$1] = $2 }
        END {
            printf "%d packets of %d sources: %.2f s, %.2f of jq -c .\n", packets, sources,
                least["ours"], least["ours"] / least["theirs"]
        }'
done
