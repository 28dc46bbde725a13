#!/bin/sh
# Adds changes to the lines of a made cluster, which standard input has: so many times one Pod's
# event and a sync. Or writes so many Services that share a destination, and a sync.
#   bench/cluster.sh SERVICES PODS 0 | bench/changes.sh KIND TIMES [THEN]
#   bench/changes.sh external|balancer SERVICES
# KIND says what an event does: `move` gives a ready Pod other addresses, so that its Service keeps
# an endpoint; `last` makes the only ready Pod of a Service unready, and then ready again; `beat` says
# what is known, with another version. THEN is `nothing`, `explain` or `slices`: what follows each
# sync; or `unsynced`, where no sync follows.
# `external` gives each Service one external address, the same for all; `balancer` gives each that
# address at its load balancer, and source ranges of its own.
set -eu
if [ $# -eq 2 ] && { [ "$1" = external ] || [ "$1" = balancer ]; }; then
    exec awk -v kind="$1" -v services="$2" '
# by number: what a Service has beside its cluster address, and its status
function shared(i) {
    if (kind == "external") return ",\"externalIPs\":[\"203.0.113.5\"]}"
    return ",\"type\":\"LoadBalancer\",\"loadBalancerSourceRanges\":[\"192." int(i / 256) % 256 "." i % 256 \
        ".0/24\"]},\"status\":{\"loadBalancer\":{\"ingress\":[{\"ip\":\"203.0.113.5\"}]}}"
}

BEGIN {
    print "{\"op\":\"config\",\"node\":\"n1\",\"nodeAddresses\":[\"10.0.0.1\"],\"clusterCIDR\":\"10.244.0.0/16\"}"
    for (i = 0; i < services; i++) {
        name = "s" i
        print "{\"apiVersion\":\"v1\",\"kind\":\"Service\",\"metadata\":{\"name\":\"" name \
            "\"},\"spec\":{\"clusterIP\":\"10.96." int(i / 256) % 256 "." i % 256 \
            "\",\"ports\":[{\"port\":80}]" shared(i) "}"
        print "{\"apiVersion\":\"discovery.k8s.io/v1\",\"kind\":\"EndpointSlice\",\"metadata\":{\"name\":\"" \
            name "-x\",\"labels\":{\"kubernetes.io/service-name\":\"" name \
            "\"}},\"addressType\":\"IPv4\",\"ports\":[{\"port\":80}],\"endpoints\":[{\"addresses\":[\"10.244." \
            int(i / 256) % 256 "." i % 256 "\"],\"nodeName\":\"n1\"}]}"
    }
    print "{\"op\":\"sync\"}"
}'
fi
if [ $# -lt 2 ] || [ $# -gt 3 ]; then
    echo "usage: bench/changes.sh move|last|beat TIMES [nothing|explain|slices|unsynced]" >&2
    echo "       bench/changes.sh external|balancer SERVICES" >&2
    exit 2
fi
exec awk -v kind="$1" -v times="$2" -v after="${3-nothing}" '
# what stands behind a member of a line, up to its quote
function member(line, name,   at) {
    at = index(line, "\"" name "\":\"")
    return at ? substr(line, at + length(name) + 4, index(substr(line, at + length(name) + 4), "\"") - 1) : ""
}

# a line with one text in place of another
function with(line, old, new,   at) {
    at = index(line, old)
    return substr(line, 1, at - 1) new substr(line, at + length(old))
}

function follow(pod,   app) {
    if (after == "unsynced") return
    print "{\"op\":\"sync\"}"
    app = substr(member(pod, "app"), 2) + 1
    if (after == "explain")
        print "{\"op\":\"explain\",\"src\":\"10.244.255.1\",\"dst\":\"10.96." int(app / 256) % 256 "." \
            app % 256 "\",\"dport\":80,\"seed\":1}"
    if (after == "slices") print "{\"op\":\"show\",\"what\":\"slices\"}"
}

# the Pods that are changed: all that are ready, or the only ready ones of their Services
function choose(   i) {
    for (i = 1; i <= ready; i++)
        if (kind != "last" || count[member(pods[i], "app")] == 1) chosen[++most] = pods[i]
    if (!most) {
        print "bench/changes.sh: there is no such Pod" > "/dev/stderr"
        exit 1
    }
}

# a Pod that has other addresses, also in its list
function moved(pod, n,   four, six) {
    four = "{\"ip\":\"10.244."
    six = "{\"ip\":\"fd00:10:244:"
    pod = with(pod, "\"podIP\":\"10.244.", "\"podIP\":\"10." 100 + n % 99 ".")
    if (index(pod, four)) pod = with(pod, four, "{\"ip\":\"10." 100 + n % 99 ".")
    if (index(pod, six)) pod = with(pod, six, sprintf("{\"ip\":\"fd00:10:%x:", 768 + n % 99))
    return pod
}

# the n-th event of a Pod
function event(pod, n) {
    if (kind == "move") return moved(pod, n)
    if (kind == "last") return n % 2 ? pod : with(pod, "\"status\":\"True\"", "\"status\":\"False\"")
    return with(pod, "\"metadata\":{", "\"metadata\":{\"resourceVersion\":\"" n "\",")
}

{ print }
/"kind":"Pod"/ && /"status":"True"/ && !/DELETED/ {
    pods[++ready] = $0
    count[member($0, "app")]++
}

END {
    choose()
    for (n = 0; n < times; n++) {
        pod = chosen[(kind == "last" ? int(n / 2) : n) * 37 % most + 1]
        print event(pod, n)
        follow(pod)
    }
}'
