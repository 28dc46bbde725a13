#!/bin/sh
# Writes the lines of a live run. Each of so many streams feeds the same Services, each with a slice
# of three endpoints, and syncs, so that its packets, which follow by turns, meet a table that has
# all of them. Where CHANGES is given, one stream more does the same, and then changes a pod of
# another Service so often, each time with a sync. That Service has another pod, which stays; with
# `last` it has none, so that each sync writes KUBE-SERVICES whole.
#   bench/streams.sh STREAMS SERVICES PACKETS [CHANGES [last]]
set -eu
if [ $# -lt 3 ] || [ $# -gt 5 ] || [ "${5-last}" != last ]; then
    echo "usage: bench/streams.sh STREAMS SERVICES PACKETS [CHANGES [last]]" >&2
    exit 2
fi
"$(dirname "$0")/served.sh" "$2" |
    awk -v streams="$1" -v services="$2" -v packets="$3" -v changes="${4-0}" -v last="${5-}" '
function event(by, object) {
    return "{\"op\":\"event\",\"by\":\"" by "\"," \
        "\"event\":{\"type\":\"MODIFIED\",\"object\":" object "}}"
}

function pod(name, address, ready) {
    return "{\"apiVersion\":\"v1\",\"kind\":\"Pod\",\"metadata\":{\"name\":\"" name "\"," \
        "\"labels\":{\"app\":\"changing\"}},\"spec\":{\"nodeName\":\"n1\"}," \
        "\"status\":{\"phase\":\"Running\",\"podIP\":\"" address "\"," \
        "\"conditions\":[{\"type\":\"Ready\",\"status\":\"" ready "\"}]}}"
}

function feed(by,   i) {
    for (i = 1; i <= NR; i++) print event(by, object[i])
}

function sync(by) {
    print "{\"op\":\"sync\",\"by\":\"" by "\"}"
}

function send(number,   to) {
    to = number % services + 1
    print "{\"op\":\"packet\",\"by\":\"s" number % streams "\",\"src\":\"10.244.9.9\"," \
        "\"dst\":\"10." 96 + int(to / 65536) "." int(to / 256) % 256 "." to % 256 "\"," \
        "\"dport\":80,\"seed\":1}"
}

function change(by,   i) {
    print event(by, "{\"apiVersion\":\"v1\",\"kind\":\"Service\"," \
        "\"metadata\":{\"name\":\"changing\"},\"spec\":{\"clusterIP\":\"10.95.0.1\"," \
        "\"ports\":[{\"port\":80,\"targetPort\":8080}],\"selector\":{\"app\":\"changing\"}}}")
    if (last == "") print event(by, pod("staying", "10.250.0.2", "True"))
    for (i = 0; i < changes; i++) {
        print event(by, pod("changing", "10.250.0.1", i % 2 ? "False" : "True"))
        sync(by)
    }
}

{
    object[NR] = $0
}

END {
    print "{\"op\":\"config\",\"node\":\"n1\",\"nodeAddresses\":[\"10.0.0.1\"]," \
        "\"clusterCIDR\":\"10.244.0.0/16\"}"
    for (s = 0; s < streams; s++) {
        feed("s" s)
        sync("s" s)
    }
    if (changes) {
        feed("changing")
        change("changing")
    }
    for (i = 0; i < packets; i++) send(i)
}'
