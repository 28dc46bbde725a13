#!/usr/bin/env bash
# What `kproxy vmap` costs beside a replay of the same file, of processor time and memory:
# - packets over 10,000 Services of three endpoints, with seeds and with listed draws, and explanations;
#   and a packet over 10,000 Services beside one over 100;
# - packets to 100 Services with session affinity and 20 endpoints each (bench/sources.sh);
# - a sync of each kind of bench/changes.sh among 10,000 Services;
# - loading 10,000 Services and 60,000 Pods with one sync, and the memory of it.
# Each figure is the least of some runs by turns, seven by default. Of packets it is the difference
# between a run and one with what comes before alone, and of syncs what bench/parts.py tells of what
# comes after the load.
#   bench/vmap.sh [RUNS [PACKETS [SERVICES PODS]]]
# KPROXY is the command that is measured, the proved program if left out. BEFORE is one of another
# state of the sources: explanations of a replay are measured by it, too.
set -eu
cd "$(dirname "$0")/.."
runs=${1:-7}
packets=${2:-1000000}
services=${3:-10000}
pods=${4:-60000}
few=$(((services + 99) / 100))
held=$((packets / 2))
syncs=2000
read -ra program <<<"${KPROXY:-$(checks/program kproxy)}"
read -ra before <<<"${BEFORE-}"
work=$(mktemp -d)
trap 'rm -rf "$work"' EXIT
. bench/timing.sh

# Services of three endpoints, and a sync
served() { # $1: how many
    echo '{"op":"config","node":"n1","nodeAddresses":["192.168.0.1"],"clusterCIDR":"10.244.0.0/16"}'
    bench/served.sh "$1"
    echo '{"op":"sync"}'
}

# packets to these Services in an order that jumps among them
sent() { # $1: packet or explain, $2: seed or draws, $3: of how many Services
    awk -v op="$1" -v by="$2" -v services="$3" -v many="$packets" 'BEGIN {
        for (i = 0; i < many; i++) {
            to = i * 7919 % services + 1
            draw = i * 48271 % 2147483647
            print "{\"op\":\"" op "\",\"src\":\"10.244.200." i % 250 + 1 "\",\"dst\":\"10.96." \
                int(to / 256) % 256 "." to % 256 "\",\"dport\":80," (by == "seed" ? "\"seed\":" i : \
                "\"draws\":[" draw "," draw * 3 % 2147483647 "]") "}"
        }
    }'
}

served "$services" >"$work/served"
served "$few" >"$work/few"
for by in seed draws; do
    { cat "$work/served" && sent packet $by "$services"; } >"$work/$by"
done
{ cat "$work/few" && sent packet draws "$few"; } >"$work/near"
{ cat "$work/served" && sent explain draws "$services"; } >"$work/explain"
bench/sources.sh 0 1 >"$work/alone"
for sources in 49 997; do
    bench/sources.sh "$held" $sources >"$work/from$sources"
done
bench/cluster.sh "$services" "$pods" 0 | awk '/DELETED/ { exit } { print }' >"$work/load"
for kind in move last beat; do
    bench/changes.sh $kind $syncs <"$work/load" | tail -n +$(($(wc -l <"$work/load") + 1)) >"$work/$kind"
done

# what comes after the load, in seconds
seconds_after() { # $1: the file, then the command
    bench/parts.py "$work/load" "$work/$1" "${@:2}" | awk '{ printf "%.6f\n", $2 / 1000000000 }'
}

for ((run = 0; run < runs; run++)); do
    for mode in replay vmap; do
        for file in served few seed draws near explain alone from49 from997 load; do
            echo "$mode $file $(processor_seconds "$work/$file" "${program[@]}" $mode)"
        done
        for file in move last beat; do
            echo "$mode $file $(seconds_after $file "${program[@]}" $mode)"
        done
    done
    for file in served explain; do
        ((${#before[@]} == 0)) ||
            echo "before $file $(processor_seconds "$work/$file" "${before[@]}" replay)"
    done
done | awk -v packets="$packets" -v held="$held" -v syncs=$syncs -v services="$services" -v few="$few" \
    -v pods="$pods" '
    !($1 " " $2 in least) || $3 < least[$1 " " $2] { least[$1 " " $2] = $3 }
    function cost(mode, file, base) { return least[mode " " file] - (base ? least[mode " " base] : 0) }
    function told(what, file, base, times, unit, most) {
        printf "%s: %.2f %s, %.2f of a replay%s\n", what,
            cost("vmap", file, base) * 1000000 / times, unit,
            cost("vmap", file, base) / cost("replay", file, base), most ? " (at most " most ")" : ""
    }
    END {
        over = " over " services " Services"
        told("packets with seeds" over, "seed", "served", packets, "us a packet", "0.9")
        told("packets with draws" over, "draws", "served", packets, "us a packet", "0.9")
        printf "a packet over %d Services: %.2f of one over %d (at most 1.3)\n", services,
            cost("vmap", "draws", "served") / cost("vmap", "near", "few"), few
        told("packets of 49 sources with affinity", "from49", "alone", held, "us a packet", "1.0")
        told("packets of 997 sources with affinity", "from997", "alone", held, "us a packet", "1.0")
        told("move among " services " Services", "move", "", syncs, "us a sync", "1.5")
        told("last among " services " Services", "last", "", syncs, "us a sync", "1.5")
        told("beat among " services " Services", "beat", "", syncs, "us a sync", "1.5")
        printf "loading %d Services and %d Pods: %.2f s, %.2f of a replay (at most 1.4)\n", services, pods,
            least["vmap load"], least["vmap load"] / least["replay load"]
        told("explanations" over, "explain", "served", packets, "us each", "")
        now = cost("replay", "explain", "served")
        printf "explanations of a replay: %.2f us each", now * 1000000 / packets
        if ("before explain" in least)
            printf ", %.2f of what they cost before", now / cost("before", "explain", "served")
        print ""
    }'
for file in load served; do
    replay=$(most_memory "$work/$file" "${program[@]}" replay)
    vmap=$(most_memory "$work/$file" "${program[@]}" vmap)
    echo "memory, $file: $((vmap / 1024)) MB, $(ratio "$replay" "$vmap") of a replay (at most 1.4)"
done
