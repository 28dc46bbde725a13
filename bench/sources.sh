#!/bin/sh
# Writes the lines of 100 Services with session affinity and 20 endpoints each, a sync, and packets
# to them from so many sources by turns.
#   bench/sources.sh PACKETS SOURCES
set -eu
exec awk -v packets="$1" -v sources="$2" 'BEGIN {
    print "{\"op\":\"config\",\"node\":\"n1\",\"nodeAddresses\":[\"192.168.0.1\"]," \
        "\"clusterCIDR\":\"10.244.0.0/16\"}"
    for (s = 1; s <= 100; s++) {
        printf "{\"apiVersion\":\"v1\",\"kind\":\"Service\",\"metadata\":{\"name\":\"s%d\"}," \
            "\"spec\":{\"clusterIP\":\"10.96.0.%d\",\"sessionAffinity\":\"ClientIP\"," \
            "\"ports\":[{\"port\":80,\"targetPort\":8080}]}}\n", s, s
        printf "{\"apiVersion\":\"discovery.k8s.io/v1\",\"kind\":\"EndpointSlice\"," \
            "\"metadata\":{\"name\":\"s%d-1\",\"labels\":{\"kubernetes.io/service-name\":" \
            "\"s%d\"}},\"addressType\":\"IPv4\",\"ports\":[{\"port\":8080}],\"endpoints\":[", s, s
        for (e = 1; e <= 20; e++)
            printf "%s{\"addresses\":[\"10.245.%d.%d\"],\"nodeName\":\"n1\"}", \
                (e > 1 ? "," : ""), s, e
        print "]}"
    }
    print "{\"op\":\"sync\"}"
    for (i = 0; i < packets; i++)
        printf "{\"op\":\"packet\",\"src\":\"10.244.%d.%d\",\"dst\":\"10.96.0.%d\"," \
            "\"dport\":80,\"now\":%d,\"seed\":%d}\n", int(i % sources / 250), \
            i % sources % 250 + 1, i % 100 + 1, int(i / 1000), i
}'
