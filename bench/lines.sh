#!/usr/bin/env bash
# Packet lines that are read and answered with no table, by `kp_bench lines 1`, beside `jq -c .` on
# the same file in the same run: lines without draws, and lines with three. And the most memory that
# the program held, for all of the lines and for a tenth of them.
#   bench/lines.sh [LINES]
set -eu
cd "$(dirname "$0")/.."
lines=${1:-1000000}
program=crates/kp_bench/out/kp_bench
work=$(mktemp -d)
trap 'rm -rf "$work"' EXIT
. bench/timing.sh

if ! (cd crates/kp_bench && rt run -- lines 1 </dev/null >/dev/null 2>"$work/built"); then
    cat "$work/built" >&2
    exit 1
fi
echo "input: the $lines packet lines of bench/last_service.sh 1 and of bench/one_service.sh 1;" \
    "processor time"

measure() { # $1: what the lines are, $2: the script that writes them
    local ours theirs
    bench/"$2" 1 "$lines" | grep '"op":"packet"' >"$work/lines"
    ours=$(median_of_five "$work/lines" "$program" lines 1)
    echo "$1: $(a_second "$(awk -v all="$ours" -v n="$lines" 'BEGIN { print all / n }')") a second"
    if command -v jq >/dev/null; then
        theirs=$(median_of_five "$work/lines" jq -c .)
        echo "    kp_bench takes $(ratio "$theirs" "$ours") of jq -c ."
    fi
}

measure "lines without draws" last_service.sh
measure "lines with three draws" one_service.sh

if [ -x /usr/bin/time ]; then
    head -n $((lines / 10)) "$work/lines" >"$work/tenth"
    for file in tenth lines; do
        /usr/bin/time -f '%M KB' -o "$work/$file.held" "$program" lines 1 <"$work/$file" \
            >"$work/output" 2>"$work/complaints"
    done
    echo "memory: $(<"$work/tenth.held") for a tenth of the lines, $(<"$work/lines.held") for all"
fi
