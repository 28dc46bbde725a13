#!/usr/bin/env bash
# What it costs to load objects that have much in common, or that are large: Services that share pairs
# of their selectors, each with a Pod of its own, beside as many that share none; and one Service of
# many ports, loaded, and changed once after. Each is timed for so many, twice and four times as many,
# so that a square shows. Processor time of whole replays, each the least of five runs by turns.
#   bench/shared.sh [SERVICES [PORTS]]
set -eu
cd "$(dirname "$0")/.."
services=${1:-2000}
ports=${2:-4000}
program=${KPROXY:-$(checks/program kproxy)}
work=$(mktemp -d)
trap 'rm -rf "$work"' EXIT
. bench/timing.sh

# Services with a Pod each, and a sync. KIND says what the selectors are: `own` has a pair that no other
# has, and `first` has another behind one that all have; with `deep` three that all have stand around
# the own one. With `apart` all Services have one pair and an own one, and the Pods the first alone.
# With `same` all have one selector, of which each Pod has the first pair.
pairs() { # $1: the kind, $2: how many
    awk -v kind="$1" -v many="$2" 'BEGIN {
        print "{\"op\":\"config\",\"node\":\"n1\",\"nodeAddresses\":[\"192.168.0.1\"],\"controller\":true}"
        common = "\"app\":\"x\""
        for (i = 0; i < many; i++) {
            own = "\"id\":\"i" i "\""
            selector = labels = own
            if (kind == "first") selector = labels = common "," own
            if (kind == "deep") selector = labels = common ",\"env\":\"y\"," own ",\"tier\":\"z\""
            if (kind == "apart") { selector = common "," own; labels = common }
            if (kind == "same") { selector = common ",\"env\":\"y\""; labels = common "," own }
            ip = int(i / 250) "." i % 250 + 1
            print "{\"apiVersion\":\"v1\",\"kind\":\"Service\",\"metadata\":{\"name\":\"s" i "\"},\"spec\":{" \
                "\"clusterIP\":\"10.96." ip "\",\"selector\":{" selector "},\"ports\":[{\"port\":80}]}}"
            print "{\"apiVersion\":\"v1\",\"kind\":\"Pod\",\"metadata\":{\"name\":\"p" i "\",\"labels\":{" labels "}}," \
                "\"spec\":{\"nodeName\":\"n1\"},\"status\":{\"phase\":\"Running\",\"podIP\":\"10.244." ip "\"," \
                "\"conditions\":[{\"type\":\"Ready\",\"status\":\"True\"}]}}"
        }
        print "{\"op\":\"sync\"}"
    }'
}

# one Service of many ports with an external address, and a sync; with `changed` it gets another
# address then, and there is another sync
wide() { # $1: `loaded` or `changed`, $2: how many ports
    awk -v kind="$1" -v many="$2" '
    function service(address,   i) {
        printf "{\"apiVersion\":\"v1\",\"kind\":\"Service\",\"metadata\":{\"name\":\"web\"},\"spec\":{" \
            "\"clusterIP\":\"10.96.0.10\",\"externalIPs\":[\"%s\"],\"ports\":[", address
        for (i = 1; i <= many; i++) printf "%s{\"name\":\"p%d\",\"port\":%d}", (i > 1 ? "," : ""), i, i
        print "]}}"
        print "{\"op\":\"sync\"}"
    }
    BEGIN {
        print "{\"op\":\"config\",\"node\":\"n1\",\"nodeAddresses\":[\"192.168.0.1\"]}"
        service("198.51.100.1")
        if (kind == "changed") service("198.51.100.2")
    }'
}

files=()
for times in 1 2 4; do
    for kind in own first deep apart same; do
        pairs "$kind" $((services * times)) >"$work/$kind-$times"
        files+=("$kind-$times")
    done
    for kind in loaded changed; do
        wide "$kind" $((ports * times)) >"$work/$kind-$times"
        files+=("$kind-$times")
    done
done
for ((run = 0; run < 5; run++)); do
    for name in "${files[@]}"; do
        echo "$name $(processor_seconds "$work/$name" "$program" replay)"
    done
done | awk '!($1 in least) || $2 < least[$1] { least[$1] = $2 } END { for (name in least) print name, least[name] }' >"$work/least"

# the least of some runs
of() { # $1: the name of the file
    awk -v name="$1" '$1 == name { print $2 }' "$work/least"
}

# a line of three sizes
sizes() { # $1: a sentence, $2: the kind
    echo "$1: $(of "$2-1"), $(of "$2-2") and $(of "$2-4") s"
}

echo "$services, $((2 * services)) and $((4 * services)) Services with a Pod each, one sync; processor time"
sizes "no pair shared" own
for row in "the first pair shared:first" "three pairs of four shared:deep" \
    "one pair shared, that Pods have alone:apart" "both pairs shared, of which Pods have one:same"; do
    kind=${row##*:}
    sizes "${row%:*}" "$kind"
    echo "  of those that share none: $(ratio "$(of own-4)" "$(of "$kind-4")") at the last"
done
echo "one Service of $ports, $((2 * ports)) and $((4 * ports)) ports with an external address"
sizes "loaded, and one sync" loaded
sizes "loaded and then changed, two syncs" changed
