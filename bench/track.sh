#!/usr/bin/env bash
# What keeping connections costs beside a replay of the same file, of processor time and memory:
# - flows to 1,000 Services of two endpoints: later ones and replies of 65,536 connections, one in four
#   a reply; new ones of TCP, most of which aren't kept; and new ones of UDP, each of which ends
#   before the table is full;
# - a sync of each kind of bench/changes.sh among Services of UDP, while 65,536 connections are open,
#   and one that changes one of 1,000 endpoints of a Service of UDP;
# - a sync that ends all of 65,536.
# What comes before is loaded in the same run, and isn't measured (parts.py). Each figure is the least
# of some runs by turns, seven by default.
#   bench/track.sh [RUNS [FLOWS [SERVICES PODS]]]
#   METER=instructions bench/track.sh [RUNS [FLOWS [SERVICES PODS]]]
# KPROXY is the command that is measured, the proved program if left out. With the second call figures
# are instructions, of one run and fewer flows and syncs by default: other work on the machine doesn't
# change them, and they say nothing of what waits for memory.
set -eu
cd "$(dirname "$0")/.."
meter=nanoseconds runs=7 flows=1000000 syncs=5000
[[ ${METER-} != instructions ]] || meter=counted runs=1 flows=200000 syncs=200
runs=${1:-$runs}
flows=${2:-$flows}
services=${3:-10000}
pods=${4:-60000}
read -ra program <<<"${KPROXY:-$(checks/program kproxy)}"
work=$(mktemp -d)
trap 'rm -rf "$work"' EXIT
. bench/timing.sh

# Services of two endpoints with a port of each protocol, and a sync
served() { # $1: how many
    awk -v services="$1" 'BEGIN {
        print "{\"op\":\"config\",\"node\":\"n1\",\"clusterCIDR\":\"10.0.0.0/8\",\"controller\":false}"
        for (i = 0; i < services; i++) {
            end = int(i / 250) "." i % 250 + 1
            print "{\"apiVersion\":\"v1\",\"kind\":\"Service\",\"metadata\":{\"name\":\"s" i "\"},\"spec\":{" \
                "\"clusterIP\":\"10.96." end "\",\"ports\":[{\"name\":\"t\",\"port\":80,\"targetPort\":8080}," \
                "{\"name\":\"u\",\"port\":80,\"targetPort\":8080,\"protocol\":\"UDP\"}]}}"
            print "{\"apiVersion\":\"discovery.k8s.io/v1\",\"kind\":\"EndpointSlice\",\"metadata\":{\"name\":\"s" \
                i "-x\",\"labels\":{\"kubernetes.io/service-name\":\"s" i "\"}},\"addressType\":\"IPv4\"," \
                "\"ports\":[{\"name\":\"t\",\"port\":8080},{\"name\":\"u\",\"port\":8080,\"protocol\":\"UDP\"}]," \
                "\"endpoints\":[{\"addresses\":[\"10.244." end "\"]},{\"addresses\":[\"10.245." end "\"]}]}"
        }
        print "{\"op\":\"sync\"}"
    }'
}

# flows to these Services
sent() { # $1: held, new or ending, $2: how many, $3: of how many Services, $4: the protocol
    awk -v kind="$1" -v many="$2" -v services="$3" -v proto="$4" 'BEGIN {
        for (i = 0; i < many; i++) {
            c = kind == "held" ? (i * 7919) % 65536 : i
            to = c % services
            end = int(to / 250) "." to % 250 + 1
            source = 100 + int(c / 62500) "." int(c / 250) % 250 "." c % 250 + 1
            port = 40000 + c % 20000
            if (kind == "held" && i >= 65536 && i % 4 == 3)
                print "{\"op\":\"packet\",\"src\":\"10.244." end "\",\"sport\":8080,\"dst\":\"10." source \
                    "\",\"dport\":" port ",\"proto\":\"" proto "\"}"
            else
                print "{\"op\":\"packet\",\"src\":\"10." source "\",\"sport\":" port ",\"dst\":\"10.96." end \
                    "\",\"dport\":80,\"proto\":\"" proto "\",\"draws\":[0]" \
                    (kind == "ending" ? ",\"now\":" int(i / 500) : "") "}"
        }
    }'
}

# a cluster whose Services are of UDP
of_udp() { # $1: Services, $2: Pods
    bench/cluster.sh "$1" "$2" 0 | awk '/DELETED/ { exit }
        { sub(/"targetPort":8080/, "&,\"protocol\":\"UDP\""); print }'
}

# such a cluster, with more connections than are kept
opened() {
    of_udp "$services" "$pods"
    awk -v services="$services" 'BEGIN {
        for (i = 0; i < 100000; i++) {
            to = i % services + 1
            print "{\"op\":\"packet\",\"src\":\"10.100." int(i / 250) % 250 "." i % 250 + 1 "\",\"sport\":" \
                40000 + int(i / 62500) ",\"dst\":\"10.96." int(to / 256) % 256 "." to % 256 \
                "\",\"dport\":80,\"proto\":\"UDP\",\"seed\":1}"
        }
    }'
}

# changes of a kind, without the lines that they follow
changes() { # $1: a file of a cluster, then the arguments of changes.sh
    local cluster=$1
    shift
    bench/changes.sh "$@" <"$cluster" | tail -n "+$(($(wc -l <"$cluster") + 1))"
}

# what the program takes for a file behind another
nanoseconds() { # $1: the first file, $2: the second, $3: the mode
    bench/parts.py "$work/$1" "$work/$2" "${program[@]}" "$3" | cut -d ' ' -f 2
}

# the same in instructions
counted() { # as nanoseconds
    cat "$work/$1" "$work/$2" >"$work/both"
    echo $(($(instructions "$work/both" "${program[@]}" "$3") - $(instructions "$work/$1" "${program[@]}" "$3")))
}

served 1000 >"$work/served"
sent held "$flows" 1000 TCP >"$work/held"
sent new "$flows" 1000 TCP >"$work/new"
sent ending "$flows" 1000 UDP >"$work/ending"
opened >"$work/open"
for kind in move last beat; do
    changes "$work/open" $kind $syncs >"$work/$kind"
done
of_udp 1 1000 >"$work/wide"
changes "$work/wide" move $((syncs / 10)) >"$work/widened"
{ served 1 && sent new 65536 1 UDP; } >"$work/one"
{ sed -n '/"name":"s0-x"/s/10\.24/10.23/gp' "$work/one" && echo '{"op":"sync"}'; } >"$work/cleared"

for ((run = 0; run < runs; run++)); do
    while read -r before file; do
        for mode in replay track; do
            echo "$mode $file $($meter "$before" "$file" $mode)"
        done
    done <<'FILES'
served held
served new
served ending
open move
open last
open beat
wide widened
one cleared
FILES
done | awk -v flows="$flows" -v syncs=$syncs -v services="$services" -v meter=$meter '
    BEGIN {
        small = meter == "counted" ? "thousand instructions" : "us"
        large = meter == "counted" ? "million instructions" : "ms"
    }
    !($1 " " $2 in least) || $3 < least[$1 " " $2] { least[$1 " " $2] = $3 }
    function told(what, file, times, each) {
        printf "%s: %.2f %s %s, %.2f of a replay\n", what, least["track " file] / 1000 / times, small, each,
            least["track " file] / least["replay " file]
    }
    END {
        told("flows of 65,536 connections", "held", flows, "a flow")
        told("new flows of TCP", "new", flows, "a flow")
        told("new flows of UDP that end", "ending", flows, "a flow")
        told("move among " services " Services", "move", syncs, "a sync")
        told("last among " services " Services", "last", syncs, "a sync")
        told("beat among " services " Services", "beat", syncs, "a sync")
        told("one of 1,000 endpoints", "widened", syncs / 10, "a sync")
        printf "a sync that ends 65,536 connections: %.1f %s more than in a replay\n",
            (least["track cleared"] - least["replay cleared"]) / 1000000, large
    }'
cat "$work/served" "$work/held" >"$work/both"
for file in served both open; do
    replay=$(most_memory "$work/$file" "${program[@]}" replay)
    echo "memory, $file: $((($(most_memory "$work/$file" "${program[@]}" track) - replay) / 1024)) MB more than a replay"
done
