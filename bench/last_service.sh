#!/bin/sh
# Writes the lines of so many Services with an endpoint each, a sync, and packets to the last of
# them.
#   bench/last_service.sh SERVICES PACKETS
set -eu
exec awk -v services="$1" -v packets="$2" '
function address(first, second, number) {
    return first "." second "." int(number / 256) % 256 "." number % 256
}

BEGIN {
    print "{\"op\":\"config\",\"node\":\"n1\",\"nodeAddresses\":[\"192.168.0.1\"]," \
        "\"clusterCIDR\":\"10.244.0.0/16\"}"
    for (i = 1; i <= services; i++) {
        print "{\"apiVersion\":\"v1\",\"kind\":\"Service\",\"metadata\":{\"name\":\"s" i "\"}," \
            "\"spec\":{\"clusterIP\":\"" address(10, 96, i) "\"," \
            "\"ports\":[{\"port\":80,\"targetPort\":8080}]}}"
        print "{\"apiVersion\":\"discovery.k8s.io/v1\",\"kind\":\"EndpointSlice\",\"metadata\":{" \
            "\"name\":\"s" i "-1\",\"labels\":{\"kubernetes.io/service-name\":\"s" i "\"}}," \
            "\"addressType\":\"IPv4\",\"ports\":[{\"port\":8080}],\"endpoints\":[" \
            "{\"addresses\":[\"" address(10, 244, i) "\"],\"nodeName\":\"n1\"}]}"
    }
    print "{\"op\":\"sync\"}"
    for (i = 1; i <= packets; i++)
        print "{\"op\":\"packet\",\"src\":\"10.244.200.9\",\"dst\":\"" address(10, 96, services) \
            "\",\"dport\":80}"
}'
