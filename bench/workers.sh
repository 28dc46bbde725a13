#!/usr/bin/env bash
# Wall time of `kproxy replay` with 1, 2 and 4 workers on the same file, least of seven runs by
# turns, and from how many lines together on workers gain: packets with seeds to so many Services,
# of which each has two pods or so, packets of one source, and scripts whose packets stand in runs
# of so many lines with a command between them.
#   bench/workers.sh [PACKETS [SERVICES]]
set -eu
cd "$(dirname "$0")/.."
packets=${1:-1000000}
services=${2:-1000}
program=${KPROXY:-$(checks/program kproxy)}
work=$(mktemp -d)
trap 'rm -rf "$work"' EXIT
. bench/timing.sh

# the least wall time of a file with each number of workers, by turns
by_turns() { # $1: the file, then the numbers
    local file=$1 turn workers
    shift
    for turn in 1 2 3 4 5 6 7; do
        for workers in "$@"; do
            echo "$workers $(wall_seconds "$file" "$program" replay --workers "$workers")"
        done
    done | awk '{ if (!($1 in least) || $2 < least[$1]) least[$1] = $2 }
        END { for (w in least) print w, least[w] }' | sort -n
}

told() { # $1: what it is, $2: the file
    by_turns "$2" 1 2 4 | awk -v what="$1" '
        $1 == 1 { one = $2 }
        { printf "%s, %s workers: %.2f s, %.2f of one\n", what, $1, $2, $2 / one }'
}

# the last sync changes nothing, so that a batch that is shown is empty
{ bench/cluster.sh "$services" $((services * 2)) 0; echo '{"op":"sync"}'; } >"$work/cluster"
packet() { # $1: how many, $2: how many sources
    awk -v many="$1" -v sources="$2" -v services="$services" 'BEGIN {
        for (i = 0; i < many; i++) {
            to = i % services + 1
            printf "{\"op\":\"packet\",\"src\":\"10.244.%d.%d\",\"dst\":\"10.96.%d.%d\",\"proto\":\"TCP\",\"dport\":80,\"now\":%d,\"seed\":%d}\n",
                int(i % sources / 250), i % sources % 250 + 1,
                int(to / 256), to % 256, int(i / 1000), i
        }
    }'
}

{ cat "$work/cluster"; packet "$packets" 997; } >"$work/many"
told "$packets seeded packets" "$work/many"
{ cat "$work/cluster"; packet "$packets" 1; } >"$work/one"
told "$packets seeded packets of one source" "$work/one"
for run in 128 256 512 1024 4096; do
    { cat "$work/cluster"; packet 100000 997 | awk -v run="$run" '{ print }
        NR % run == 0 { print "{\"op\":\"show\",\"what\":\"batch\"}" }'; } >"$work/runs"
    told "100000 packets in runs of $run" "$work/runs"
done
