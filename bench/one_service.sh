#!/bin/sh
# Writes the lines of one Service, one slice, a sync and packets. A packet's three draws are 11 times
# its number, so that most stop at the first statistic test, and the last some thousand of 200,000 go
# through all of them.
#   bench/one_service.sh ENDPOINTS PACKETS
set -eu
exec awk -v endpoints="$1" -v packets="$2" 'BEGIN {
    print "{\"op\":\"config\",\"node\":\"n1\",\"nodeAddresses\":[\"192.168.0.1\"]," \
        "\"clusterCIDR\":\"10.244.0.0/16\"}"
    print "{\"apiVersion\":\"v1\",\"kind\":\"Service\",\"metadata\":{\"name\":\"web\"}," \
        "\"spec\":{\"clusterIP\":\"10.96.0.10\",\"ports\":[{\"port\":80,\"targetPort\":8080}]}}"
    printf "{\"apiVersion\":\"discovery.k8s.io/v1\",\"kind\":\"EndpointSlice\",\"metadata\":{" \
        "\"name\":\"web-1\",\"labels\":{\"kubernetes.io/service-name\":\"web\"}}," \
        "\"addressType\":\"IPv4\",\"ports\":[{\"port\":8080}],\"endpoints\":["
    for (i = 0; i < endpoints; i++)
        printf "%s{\"addresses\":[\"10.244.%d.%d\"],\"nodeName\":\"n1\"}", i ? "," : "",
            i / 250, i % 250 + 1
    print "]}"
    print "{\"op\":\"sync\"}"
    for (i = 1; i <= packets; i++)
        printf "{\"op\":\"packet\",\"src\":\"10.244.9.9\",\"dst\":\"10.96.0.10\",\"dport\":80," \
            "\"draws\":[%d,%d,%d]}\n", 11 * i, 11 * i, 11 * i
}'
