#!/bin/sh
# Writes the lines of so many Services, each with a slice of three endpoints.
#   bench/served.sh SERVICES
set -eu
exec awk -v services="$1" '
function address(first, second, number) {
    return first "." second + int(number / 65536) "." int(number / 256) % 256 "." number % 256
}

function endpoint(number) {
    return "{\"addresses\":[\"" address(10, 244, number) "\"],\"nodeName\":\"n" number % 3 "\"}"
}

BEGIN {
    for (i = 1; i <= services; i++) {
        print "{\"apiVersion\":\"v1\",\"kind\":\"Service\",\"metadata\":{\"name\":\"s" i "\"}," \
            "\"spec\":{\"clusterIP\":\"" address(10, 96, i) "\"," \
            "\"ports\":[{\"port\":80,\"targetPort\":8080}]}}"
        print "{\"apiVersion\":\"discovery.k8s.io/v1\",\"kind\":\"EndpointSlice\",\"metadata\":{" \
            "\"name\":\"s" i "-1\",\"labels\":{\"kubernetes.io/service-name\":\"s" i "\"}}," \
            "\"addressType\":\"IPv4\",\"ports\":[{\"port\":8080}],\"endpoints\":[" \
            endpoint(3 * i) "," endpoint(3 * i + 1) "," endpoint(3 * i + 2) "]}"
    }
}'
