#!/usr/bin/env bash
# Rules a second that are read and printed beside those of `iptables-restore --test` on the same
# files in one run. iptables-restore runs in a network namespace of its own.
#   bench/restore.sh [SERVICES]
set -eu
cd "$(dirname "$0")/.."
many=${1:-10000}
few=$((many / 2))
work=$(mktemp -d)
trap 'rm -rf "$work"' EXIT
. bench/timing.sh

bench/table.sh "$few" >"$work/less"
bench/table.sh "$many" >"$work/more"
echo "input: bench/table.sh SERVICES, with $few and $many, five rules each; processor time"
if ! (cd crates/kp_restore_echo && rt run <stdin >/dev/null 2>"$work/built"); then
    cat "$work/built" >&2
    exit 1
fi

# the seconds for a Service are those for five rules
measure() { # $1: its name, then the command
    local name=$1
    shift
    each=$(each_on_files "$work/less" $((5 * few)) "$work/more" $((5 * many)) "$@")
    echo "$name: $(a_second "$each") rules a second"
}

measure "kp_restore_echo, read and printed" crates/kp_restore_echo/out/kp_restore_echo
ours=$each
cmp "$work/more" "$work/output"
for variant in nft legacy; do
    if command -v "iptables-$variant-restore" >/dev/null && unshare -n true 2>/dev/null; then
        measure "iptables-$variant-restore --test" unshare -n "iptables-$variant-restore" --test
        echo "iptables-$variant-restore takes $(ratio "$ours" "$each") times as long"
    fi
done
