#!/usr/bin/env bash
# Lines a second of `kproxy replay` beside those of `jq -c .` on the same files in the same run: one
# slice of 1,000 endpoints, and packets.
#   bench/packets.sh [PACKETS]
set -eu
cd "$(dirname "$0")/.."
many=${1:-200000}
few=$((many / 2))
program=${KPROXY:-$(checks/program kproxy)}
work=$(mktemp -d)
trap 'rm -rf "$work"' EXIT
. bench/timing.sh

bench/one_service.sh 1000 "$few" >"$work/less"
bench/one_service.sh 1000 "$many" >"$work/more"
echo "input: bench/one_service.sh 1000 PACKETS, with $few and $many packets; processor time"

measure() { # $1: its name, then the command
    local name=$1
    shift
    each=$(each_on_files "$work/less" "$few" "$work/more" "$many" "$@")
    echo "$name: $(a_second "$each") packet lines a second"
}

measure "kproxy replay" "$program" replay
ours=$each
if command -v jq >/dev/null; then
    measure "jq -c ." jq -c .
    echo "jq takes $(ratio "$ours" "$each") times as long"
else
    echo "jq is missing, so there is nothing to compare with"
fi
