#!/bin/sh
# Writes the lines of a made cluster, the same ones for the same arguments: a configuration, three
# nodes, Services, pods, a sync, packets, the deletion of each tenth pod, a sync and the packets
# again. An object, a command or a packet is one line.
#   bench/cluster.sh SERVICES PODS [PACKETS [SEED [LISTS]]]
# PACKETS are those after each sync, four a Service if left out; SEED is 1 if left out. With LISTS 1
# Services have clusterIPs and ipFamilies, and pods podIPs, as those of every cluster have; with 2
# these have addresses of both families, and so has the node its tables; it is 0 if left out. Packets
# are of IPv4.
set -eu
if [ $# -lt 2 ] || [ $# -gt 5 ]; then
    echo "usage: bench/cluster.sh SERVICES PODS [PACKETS [SEED [LISTS]]]" >&2
    exit 2
fi
for number in "$@"; do
    case $number in
        '' | *[!0-9]*)
            echo "bench/cluster.sh: $number isn't a number" >&2
            exit 2
            ;;
    esac
done
if [ "$1" -lt 1 ]; then
    echo "bench/cluster.sh: there is at least one Service" >&2
    exit 2
fi
exec awk -v services="$1" -v pods="$2" -v packets="${3-$(($1 * 4))}" -v seed="${4-1}" \
    -v lists="${5-0}" '
# the next of the numbers from 1 to 2147483646 that the seed begins (Park and Miller)
function word() {
    state = state * 16807 % 2147483647
    return state
}

function address(first, second, number) {
    return first "." second "." int(number / 256) % 256 "." number % 256
}

# by number: every fourth Service has affinity, a local policy or a preference for its zone
function service(i,   more, own) {
    own = address(10, 96, i + 1)
    if (i % 4 == 1) more = ",\"sessionAffinity\":\"ClientIP\""
    if (i % 4 == 2) more = ",\"internalTrafficPolicy\":\"Local\""
    if (i % 4 == 3) more = ",\"trafficDistribution\":\"PreferClose\""
    if (lists == 1) more = more ",\"clusterIPs\":[\"" own "\"],\"ipFamilies\":[\"IPv4\"]"
    if (lists == 2) more = more ",\"clusterIPs\":[\"" own "\",\"" sprintf("fd00:10:96::%x", i + 1) \
        "\"],\"ipFamilies\":[\"IPv4\",\"IPv6\"]"
    print "{\"apiVersion\":\"v1\",\"kind\":\"Service\",\"metadata\":{\"name\":\"s" i "\"},\"spec\":{" \
        "\"clusterIP\":\"" own "\",\"ports\":[{\"port\":80,\"targetPort\":8080}]," \
        "\"selector\":{\"app\":\"s" i "\"}" more "}}"
}

# three new numbers: its Service, its node, and whether it is ready
function pod(j,   app, node, ready, own, more) {
    own = address(10, 244, j + 1)
    if (lists == 1) more = ",\"podIPs\":[{\"ip\":\"" own "\"}]"
    if (lists == 2) more = ",\"podIPs\":[{\"ip\":\"" own "\"},{\"ip\":\"" \
        sprintf("fd00:10:244::%x", j + 1) "\"}]"
    app = word() % services
    node = 1 + word() % 3
    ready = word() % 8 ? "True" : "False"
    print "{\"apiVersion\":\"v1\",\"kind\":\"Pod\",\"metadata\":{\"name\":\"p" j "\"," \
        "\"labels\":{\"app\":\"s" app "\"}},\"spec\":{\"nodeName\":\"n" node "\"}," \
        "\"status\":{\"phase\":\"Running\",\"podIP\":\"" own "\"" more "," \
        "\"conditions\":[{\"type\":\"Ready\",\"status\":\"" ready "\"}]}}"
}

# four to each Service in turn
function send(from,   k) {
    for (k = 0; k < packets; k++)
        print "{\"op\":\"packet\",\"src\":\"10.244.255." 1 + k % 4 "\",\"dst\":\"" \
            address(10, 96, int(k / 4) % services + 1) "\",\"dport\":80,\"seed\":" seed \
            ",\"now\":" from + k % 4 "}"
}

BEGIN {
    state = seed % 2147483646 + 1
    if (lists == 2)
        print "{\"op\":\"config\",\"node\":\"n1\",\"nodeAddresses\":[\"10.0.0.1\",\"fd00::1\"]," \
            "\"clusterCIDR\":\"10.244.0.0/16,fd00:10:244::/48\",\"dualStack\":true}"
    else
        print "{\"op\":\"config\",\"node\":\"n1\",\"nodeAddresses\":[\"10.0.0.1\"]," \
            "\"clusterCIDR\":\"10.244.0.0/16\"}"
    for (i = 1; i <= 3; i++)
        print "{\"apiVersion\":\"v1\",\"kind\":\"Node\",\"metadata\":{\"name\":\"n" i "\"," \
            "\"labels\":{\"topology.kubernetes.io/zone\":\"" substr("abc", i, 1) "\"}}}"
    for (i = 0; i < services; i++) service(i)
    for (j = 0; j < pods; j++) pod(j)
    print "{\"op\":\"sync\"}"
    send(0)
    for (j = 9; j < pods; j += 10)
        print "{\"type\":\"DELETED\",\"object\":{\"apiVersion\":\"v1\",\"kind\":\"Pod\"," \
            "\"metadata\":{\"name\":\"p" j "\"}}}"
    print "{\"op\":\"sync\"}"
    send(20000)
}'
