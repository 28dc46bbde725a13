#!/usr/bin/env bash
# Three ways side by side to keep the same doors, among so many Services: rules in order, rules by
# destination, and the map. Told is what a packet to the last Service costs, and what a sync after
# one Pod's event costs, of which there is none for rules in order. Each figure is of processor time
# and the least of some runs by turns: of packets the difference between two numbers of repeats, and
# of syncs what bench/parts.py tells of what comes after the load.
# bench/ways.py makes a picture of what is printed.
#   bench/ways.sh [RUNS [SERVICES..]]
# Rules in order are the same walker over the same table, whose rules of KUBE-SERVICES ask for the
# protocol first, which no index takes. KPROXY is the command that is measured, the proved program if
# left out, and KP_BENCH that of single libraries, likewise.
set -eu
cd "$(dirname "$0")/.."
runs=${1:-7}
[[ $# == 0 ]] || shift
[[ $# != 0 ]] || set -- 10 100 1000 10000
syncs=${SYNCS:-4000}
read -ra program <<<"${KPROXY:-$(checks/program kproxy)}"
if [[ -z ${KP_BENCH-} ]]; then
    KP_BENCH=$PWD/crates/kp_bench/out/kp_bench
    (cd crates/kp_bench && rt run -- lines 0 </dev/null >/dev/null 2>&1)
fi
work=$(mktemp -d)
trap 'rm -rf "$work"' EXIT
. bench/timing.sh

# a packet to the Service whose rule is the last one of a table
to_the_last() { # $1: the table
    sed -n 's/^-A KUBE-SERVICES -d \(.*\)\/32 -p tcp .*/\1/p' "$1" | tail -n 1 |
        sed 's/.*/{"op":"packet","src":"10.244.200.9","dst":"&","dport":80}/'
}

table() { # $1: the Services
    { bench/served.sh "$1"; printf '{"op":"%s\n' 'sync"}' 'show","what":"nat"}' \
        'show","what":"filter"}'; } | "${program[@]}" replay | tail -n +2
}

in_order() {
    sed 's/^-A KUBE-SERVICES -d /-A KUBE-SERVICES -p tcp -d /'
}

# how often a packet is sent: in order that costs more, the more Services there are
times_of() { # $1: the way, $2: the Services
    case $1 in
        order) echo $((40000000 / ($2 + 20))) ;;
        *) echo 3000000 ;;
    esac
}

layer_of() { # $1: the way
    [[ $1 == map ]] && echo look || echo walk
}

# what all runs of a number of Services read
for services in "$@"; do
    table "$services" >"$work/table"
    to_the_last "$work/table" >"$work/packet"
    cat "$work/packet" "$work/table" >"$work/destination.$services"
    in_order <"$work/destination.$services" >"$work/order.$services"
    { cat "$work/packet" && bench/served.sh "$services"; } >"$work/map.$services"
    bench/cluster.sh "$services" $((6 * services)) 0 |
        awk '/DELETED/ { exit } { print }' >"$work/none.$services"
    bench/changes.sh move "$syncs" <"$work/none.$services" |
        tail -n +$(($(wc -l <"$work/none.$services") + 1)) >"$work/move.$services"
done

echo "machine: $(sed -n 's/^model name.*: //p' /proc/cpuinfo | head -n 1 | grep . || uname -m), $(date +%F)"
for ((run = 0; run < runs; run++)); do
    for services in "$@"; do
        for way in order destination map; do
            for times in 1 $(($(times_of $way "$services") + 1)); do
                file=$work/$way.$services
                took=$(processor_seconds "$file" "$KP_BENCH" "$(layer_of $way)" "$times")
                echo "$way $services $times $took"
            done
        done
        for mode in replay vmap; do
            read -r _ nanoseconds < <(
                bench/parts.py "$work/none.$services" "$work/move.$services" "${program[@]}" $mode
            )
            echo "$mode $services move $nanoseconds"
        done
    done
done | awk -v syncs="$syncs" '
    { way = $1 " " $2; at = way " " $3 }
    !(way in seen) { seen[way] = 1; order[++ways] = way; many[way] = 1 }
    $3 + 0 > many[way] { many[way] = $3 }
    !(at in least) || $4 < least[at] { least[at] = $4 }
    BEGIN {
        named["replay"] = "rules by destination"
        named["order"] = "rules in order"
        named["destination"] = "rules by destination"
        named["map"] = named["vmap"] = "the map"
    }
    END {
        for (i = 1; i <= ways; i++) {
            way = order[i]
            split(way, part, " ")
            if (part[1] == "replay" || part[1] == "vmap")
                printf "a sync, %s, %d Services: %.0f ns\n", named[part[1]], part[2],
                    least[way " move"] / syncs
            else
                printf "a packet, %s, %d Services: %.0f ns\n", named[part[1]], part[2],
                    (least[way " " many[way]] - least[way " 1"]) * 1e9 / (many[way] - 1)
        }
    }'
