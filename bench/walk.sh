#!/usr/bin/env bash
# What a packet line costs `kproxy replay` by what its walk meets: in a cluster with one Service, to
# the last of many, and through many endpoints. `jq -c .` reads the same lines in the same run.
#   bench/walk.sh [SERVICES [ENDPOINTS [PACKETS]]]
set -eu
cd "$(dirname "$0")/.."
services=${1:-10000}
endpoints=${2:-1000}
many=${3:-600000}
few=$((many / 10)) # the rest has to outweigh what reading the Services varies by
program=${KPROXY:-$(checks/program kproxy)}
work=$(mktemp -d)
trap 'rm -rf "$work"' EXIT
. bench/timing.sh

echo "input: bench/last_service.sh SERVICES and bench/one_service.sh ENDPOINTS, each with $few and" \
    "$many packets; processor time"

measure() { # $1: its name, $2: the script that writes the lines, $3: how many it makes
    bench/"$2" "$3" "$few" >"$work/less"
    bench/"$2" "$3" "$many" >"$work/more"
    each=$(each_on_files "$work/less" "$few" "$work/more" "$many" "$program" replay)
    echo "$1: $(a_second "$each") packet lines a second"
    if command -v jq >/dev/null; then
        theirs=$(each_on_files "$work/less" "$few" "$work/more" "$many" jq -c .)
        echo "    kproxy takes $(ratio "$theirs" "$each") of jq -c ."
    fi
}

measure "to the only Service" last_service.sh 1
only=$each
measure "to the last of $services Services" last_service.sh "$services"
echo "    $(ratio "$only" "$each") times as long as to the only one"
measure "through $endpoints endpoints" one_service.sh "$endpoints"
