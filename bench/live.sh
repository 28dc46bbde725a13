#!/usr/bin/env bash
# The wall time of `kproxy live` on packets to a table of 1,000 Services: sent by one stream, by
# four, and by four beside a fifth that changes a pod and syncs 2,000 times: a pod that leaves its
# Service an endpoint, or its Service's only one. The four run by turns; each figure is the least of
# its runs, less what a run without lines takes. Then the most memory that three of them held, and
# how much of it one packet more takes, with its line.
#   bench/live.sh [PACKETS [RUNS]]
# KPROXY is the command that is measured, the proved program if left out.
set -eu
cd "$(dirname "$0")/.."
packets=${1:-1000000}
runs=${2:-5}
services=1000
changes=2000
read -ra program <<<"${KPROXY:-$(checks/program kproxy)}"
program+=(live)
work=$(mktemp -d)
trap 'rm -rf "$work"' EXIT
. bench/timing.sh

: >"$work/none"
bench/streams.sh 1 "$services" $((packets / 2)) >"$work/half"
bench/streams.sh 1 "$services" "$packets" >"$work/one"
bench/streams.sh 4 "$services" "$packets" >"$work/four"
bench/streams.sh 4 "$services" "$packets" "$changes" >"$work/five"
bench/streams.sh 4 "$services" "$packets" "$changes" last >"$work/last"
echo "input: bench/streams.sh 1 and 4 $services $packets, and 4 with $changes changes; wall time," \
    "the least of $runs by turns, on $(nproc) processors"
"${program[@]}" <"$work/none" >/dev/null

for ((run = 0; run < runs; run++)); do
    for name in none one four five last; do
        wall_seconds "$work/$name" "${program[@]}" >>"$work/$name.seconds"
    done
done

# the least time of a file's runs, less that of a run without lines
least() { # $1: the file
    awk -v none="$(sort -n "$work/none.seconds" | sed -n 1p)" \
        -v own="$(sort -n "$work/$1.seconds" | sed -n 1p)" 'BEGIN { printf "%.3f", own - none }'
}

tell() { # $1: what it is, $2: the file, $3: what it stands beside, $4: the file of that
    echo "$1: $(least "$2") s, $(ratio "$(least "$4")" "$(least "$2")") of $3"
}

echo "one stream: $(least one) s"
tell "four streams" four "one stream" one
tell "four streams beside a fifth" five "four streams" four
tell "the same, of a Service's last endpoint" last "four streams" four
[ -x /usr/bin/time ] || exit 0
for name in half one four five; do
    most_memory "$work/$name" "${program[@]}" >"$work/$name.held"
done
echo "memory: $(<"$work/one.held") KB, $(<"$work/four.held") KB, $(<"$work/five.held") KB;" \
    "$((($(<"$work/one.held") - $(<"$work/half.held")) * 2048 / packets)) bytes for a packet more"
