#!/usr/bin/env bash
# What calls of single libraries cost by `kp_bench LAYER TIMES`, as ratios in one run: in a large
# cluster beside a small one, and a store beside the reading of its objects.
#   bench/libraries.sh [SERVICES [CHAINS]]
#   METER=instructions bench/libraries.sh ..
# Costs are processor time, or with the second call the instructions that valgrind counts, of which
# a hundredth of the times is enough: other work on the machine doesn't change them.
set -eu
cd "$(dirname "$0")/.."
services=${1:-10000}
chains=${2:-50000}
meter=${METER:-seconds}
program=crates/kp_bench/out/kp_bench
kproxy=${KPROXY:-$(checks/program kproxy)}
work=$(mktemp -d)
trap 'rm -rf "$work"' EXIT
. bench/timing.sh

if ! (cd crates/kp_bench && rt run -- lines 0 </dev/null >/dev/null 2>"$work/built"); then
    cat "$work/built" >&2
    exit 1
fi
case $meter in
    seconds) fewer=1 ;;
    instructions) fewer=100 ;;
    *)
        echo "METER is seconds or instructions" >&2
        exit 2
        ;;
esac
echo "input: bench/served.sh and bench/cluster.sh; ratios of $meter"

# the cost of a layer on a file, so often
cost_of() { # $1: the layer, $2: the file, $3: how often
    if [ "$meter" = seconds ]; then
        median_of_five "$work/$2" "$program" "$1" "$3"
    else
        instructions "$work/$2" "$program" "$1" "$3"
    fi
}

# the cost of one more time, where the first isn't counted
each_of() { # $1: the layer, $2: the file, $3: how often
    local times=$((($3 + fewer - 1) / fewer)) low high
    low=$(cost_of "$1" "$2" 1) && high=$(cost_of "$1" "$2" $((times + 1))) || return 1
    awk -v low="$low" -v high="$high" -v times="$times" \
        'BEGIN { printf "%.12f\n", (high - low) / times }'
}

# a layer on the file of a large cluster beside that of a small one
beside() { # $1: what is done, $2: the layer, $3: the files, $4: how often
    local large small
    large=$(each_of "$2" "$3.large" "$4") && small=$(each_of "$2" "$3.small" "$4") || return 1
    echo "$1: $(ratio "$small" "$large") times as dear in the large cluster as in the small one"
}

# objects and no commands, of which none is deleted
objects() { # $1: the Services, $2: the pods
    bench/cluster.sh "$1" "$2" 0 | grep '"kind"' | grep -v DELETED
}

# a packet to the last Service
to_the_last() { # $1: the Services
    bench/last_service.sh "$1" 1 | tail -n 1
}

# the table's text of so many Services with three endpoints each
table() { # $1: the Services
    { bench/served.sh "$1"; printf '{"op":"%s\n' 'sync"}' 'show","what":"nat"}' \
        'show","what":"filter"}'; } | "$kproxy" replay | tail -n +2
}

# the objects of a cluster
many=$((2 * services))
{ objects "$many" $((3 * many)); bench/served.sh $((many / 20)) | grep EndpointSlice; } \
    >"$work/objects"
read=$(each_of read objects $((3 * fewer)))
stored=$(each_of store objects $((3 * fewer)))
echo "the objects of $many Services are stored: $(ratio "$read" "$stored") of reading them"

# a pod among 20,000, which comes again
for size in large small; do
    objects $([ "$size" = large ] && echo "$services" || echo 100) 20000 >"$work/pod.$size"
done
beside "a pod comes again, among $services Services and 100" pod pod 200000

# a packet to the last Service
for size in large small; do
    few=$([ "$size" = large ] && echo "$services" || echo 10)
    { to_the_last "$few"; bench/served.sh "$few"; } >"$work/decide.$size"
    few=$([ "$size" = large ] && echo "$services" || echo 1)
    { to_the_last "$few"; table "$few"; } >"$work/walk.$size"
done
beside "a packet is decided, among $services Services and 10" decide decide 200000
beside "a packet walks to the last of $services Services and to the only one" walk walk 2000000
beside "its rule of KUBE-SERVICES is looked up" next walk 20000000

# four chains to a Service, and two other endpoints of the last one, which are five edits
with_batch() { # $1: the chains, $2: the file
    bench/served.sh $(($1 / 4)) >"$work/served"
    {
        cat "$work/served"
        printf '{"op":"%s\n' 'sync"}' 'show","what":"nat"}' 'show","what":"filter"}'
        tail -n 1 "$work/served" | sed 's/"10\.244/"10.9/; s/"10\.244/"10.9/'
        printf '{"op":"%s\n' 'sync"}' 'show","what":"batch"}'
    } | "$kproxy" replay | awk 'NR > 1 { print /^sync/ ? "" : $0 }' >"$work/$2"
}

with_batch "$chains" chains.large
with_batch 500 chains.small
beside "two batches of five edits are applied, to $chains chains and to 500" apply chains 100000
