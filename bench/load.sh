#!/usr/bin/env bash
# The greatest loads that the program is made for: how long each takes, and the most memory that it
# held, beside the same load in a tenth of the lines. Inputs are made as they are read, so that none
# lies on the disk.
#   bench/load.sh [TIMES [LOAD..]]
# Each load has so many times a thousandth of its lines, 1,000 by default. The loads:
#   packets   10,000,000 packet lines of sources by turns, with affinity
#   bytes     10,000,000 packet lines that fill 4 GiB, and the same with 4 workers
#   events    1,000,000 events, nearly all of 20,000 Pods, with a sync after each 10,000
#   limit     4,294,967,296 bytes, which are all read, and one more, which is too long an input
#   long      200 lines of 16 MiB: packets, and of every 20 lines a List of 30,000 Nodes
#   live      64 streams of 100 MB together, which feed 2,600 Services each, sync and send packets
# KPROXY is the command that is measured, the proved program if left out.
set -eu
cd "$(dirname "$0")/.."
times=${1:-1000}
loads=("${@:2}")
[[ ${#loads[@]} != 0 ]] || loads=(packets bytes limit events long live)
read -ra program <<<"${KPROXY:-$(checks/program kproxy)}"
work=$(mktemp -d)
trap 'rm -rf "$work"' EXIT

# packet lines, each filled up to a length by spaces before its feed
packets() { # $1: how many, $2: the length
    bench/one_service.sh 10 0 | sed 's/"clusterIP"/"sessionAffinity":"ClientIP",&/'
    awk -v many="$1" -v length_of="$2" 'BEGIN {
        for (i = 0; i < 1000; i++) {
            text = sprintf("{\"op\":\"packet\",\"src\":\"10.%d.%d.%d\",\"dst\":\"10.96.0.10\"," \
                "\"dport\":80,\"now\":%d,\"draws\":[%d]}", i % 100, i % 7, i % 251, i, i * 2000003)
            line[i] = sprintf("%-*s", length_of - 1, text)
        }
        for (i = 0; i < many; i++) print line[i % 1000]
    }'
}

# events of a cluster with 1,000 Services and 3 Nodes, which are among them
events() { # $1: how many, which are no more than a journal holds
    bench/cluster.sh 1000 0 0
    awk -v many="$(($1 - 1003))" 'BEGIN {
        for (i = 0; i < many; i++) {
            printf "{\"apiVersion\":\"v1\",\"kind\":\"Pod\",\"metadata\":{\"name\":\"p%d\"," \
                "\"labels\":{\"app\":\"s%d\"}},\"spec\":{\"nodeName\":\"n%d\"},\"status\":{" \
                "\"phase\":\"Running\",\"podIP\":\"10.%d.%d.%d\",\"conditions\":[" \
                "{\"type\":\"Ready\",\"status\":\"%s\"}]}}\n", i % 20000, i % 1000, i % 3,
                64 + i % 20000 / 62500, i % 20000 / 250 % 250, i % 250,
                int(i / 20000) % 2 ? "False" : "True"
            if (i % 10000 == 9999) print "{\"op\":\"sync\"}"
        }
    }'
}

long_lines() { # $1: how many
    python3 -c 'import sys
most = 16_777_216
packet = """{"op":"packet","src":"10.0.0.1","dst":"10.0.0.2","dport":80}""".ljust(most)
node = """{"kind":"Node","metadata":{"name":"n%d","annotations":{"a":"%s"}}}"""
nodes = ",".join(node % (number % 1000, "a" * 490) for number in range(30_000))
listed = ("""{"kind":"List","items":[%s]}""" % nodes).ljust(most)
for number in range(int(sys.argv[1])):
    print(listed if number % 20 == 10 else packet)' "$1"
}

streams() { # $1: how many packets
    bench/streams.sh 64 2600 "$1"
}

run() { # $1: what it is, $2: the words, $3: what writes the input, $4: how many lines, and more
    local many bytes words
    read -ra words <<<"$2"
    for many in $(($4 * times / 10000)) $(($4 * times / 1000)); do
        "$3" "$many" "${@:5}" | tee >(wc -c >"$work/bytes") |
            /usr/bin/time -f '%e %M' -o "$work/took" "${program[@]}" "${words[@]}" >/dev/null
        bytes=$(<"$work/bytes")
        awk -v what="$1" -v many="$many" -v size="$bytes" '
            { printf "%s, %d lines, %.0f MB: %.1f s, %.0f MB a second, most memory %.1f MB\n",
                what, many, size / 1e6, $1, size / 1e6 / $1, $2 / 1024 }' "$work/took"
    done
}

# so many bytes in blank lines of 16 MiB, feeds included, with what the program says and its status
ended_after() { # $1: how many bytes more than 256 such lines
    local status=0 said
    said=$(python3 -c 'import sys
for _ in range(256):
    sys.stdout.write(" " * 16_777_215 + "\n")
sys.stdout.write(" " * int(sys.argv[1]))' "$1" | "${program[@]}" replay 2>&1) || status=$?
    echo "4294967296 bytes and $1 more: status $status${said:+, $said}"
}

for load in "${loads[@]}"; do
    case $load in
        packets) run packets replay packets 10000000 1 ;;
        bytes)
            run "4 GiB" replay packets 10000000 429
            run "4 GiB, 4 workers" "replay --workers 4" packets 10000000 429
            ;;
        limit)
            ended_after 0
            ended_after 1
            ;;
        events) run events replay events 1000000 ;;
        long) run "lines of 16 MiB" replay long_lines 200 ;;
        live) run "live, 64 streams" live streams 100000 ;;
        *) echo "bench/load.sh: there is no load $load" >&2 && exit 2 ;;
    esac
done
