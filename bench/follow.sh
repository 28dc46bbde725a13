#!/usr/bin/env bash
# What it costs to follow a cluster: syncs after one Pod's event each, beside loading the cluster and
# syncing once, a smaller cluster, and `jq -c .`. Processor time, each the least of seven runs by
# turns. The events and syncs are written once the program has answered all that comes before them,
# so that they are measured by themselves (parts.py).
#   bench/follow.sh [FIGURE..]
#   METER=instructions bench/follow.sh size|explain|slices|last|beats
# FIGURE is `size`, `explain`, `slices`, `last`, `jq`, `beats` or `memory`; all of them if left out.
# With the second call they are instructions, which other work on the machine doesn't change.
# KPROXY is the path of the program that is measured, that of the built one if left out.
set -eu
cd "$(dirname "$0")/.."
meter=nanoseconds turns=7
[[ ${METER-} != instructions ]] || meter=counted turns=1
program=${KPROXY:-$(checks/program kproxy)}
work=$(mktemp -d)
trap 'rm -rf "$work"' EXIT
. bench/timing.sh
declare -A cluster_of=()

# a file of changes, and the one of the cluster that they follow
changes() { # $1: the name of the file, $2: Services, $3: Pods, then the arguments of changes.sh
    local name=$1 cluster=$work/$2-$3
    [[ -f $cluster ]] || bench/cluster.sh "$2" "$3" 0 | awk '/DELETED/ { exit } { print }' >"$cluster"
    shift 3
    bench/changes.sh "$@" <"$cluster" | tail -n "+$(($(wc -l <"$cluster") + 1))" >"$work/$name"
    cluster_of[$name]=$cluster
}

# what the program takes for a cluster, and then for the changes
nanoseconds() { # $1: the cluster, $2: the changes
    bench/parts.py "$1" "$2" "$program" replay
}

# the same in instructions
counted() { # as nanoseconds
    local before after
    cat "$1" "$2" >"$work/both"
    before=$(instructions "$1" "$program" replay)
    after=$(instructions "$work/both" "$program" replay)
    echo "$before $((after - before))"
}

# the least of all runs for each of these changes and its cluster, by turns
least_by_turns() { # the names of files, each once
    local run name
    for ((run = 0; run < turns; run++)); do
        for name in "$@"; do
            echo "$name $("$meter" "${cluster_of[$name]}" "$work/$name")"
        done
    done | awk '
        !($1 in load) || $2 < load[$1] { load[$1] = $2 }
        !($1 in after) || $3 < after[$1] { after[$1] = $3 }
        END { for (name in load) print name, load[name], after[name] }' >"$work/least"
}

# a figure over what the least of the files is, for the cluster and after it
figure() { # $1: a sentence, $2: an awk expression over load["name"] and after["name"]
    awk -v sentence="$1" '{ load[$1] = $2; after[$1] = $3 }
        END { printf "%s: %.3f\n", sentence, '"$2"' }' "$work/least"
}

size() {
    changes many 10000 60000 move 200
    changes few 1000 6000 move 200
    least_by_turns many few
    figure "200 syncs among 10,000 Services, of loading and syncing once" \
        'after["many"] / load["many"]'
    figure "200 syncs among 10,000 Services, of those among 1,000" 'after["many"] / after["few"]'
    [[ $meter == counted ]] ||
        figure "milliseconds of one sync among 10,000 Services" 'after["many"] / 200 / 1000000'
}

explain() {
    changes many 10000 60000 move 200 explain
    changes few 1000 6000 move 200 explain
    least_by_turns many few
    figure "200 syncs and explains among 10,000 Services, of loading and syncing once" \
        'after["many"] / load["many"]'
    figure "200 syncs and explains among 10,000 Services, of those among 1,000" \
        'after["many"] / after["few"]'
}

slices() {
    changes shown 1000 6000 move 200 slices
    yes '{"op":"show","what":"slices"}' | head -200 >"$work/shows"
    cluster_of[shows]=${cluster_of[shown]}
    least_by_turns shown shows
    figure "200 events, syncs and shows of slices, of 200 shows" 'after["shown"] / after["shows"]'
}

last() {
    changes ends 10000 60000 last 200
    least_by_turns ends
    figure "200 syncs of a Service's last endpoint among 10,000, of loading and syncing once" \
        'after["ends"] / load["ends"]'
}

jq() {
    local ours run theirs
    changes whole 3000 18000 move 1500
    cat "${cluster_of[whole]}" "$work/whole" >"$work/lines"
    for ((run = 0; run < turns; run++)); do
        processor_seconds "$work/lines" "$program" replay >>"$work/ours"
        processor_seconds "$work/lines" command jq -c . >>"$work/theirs"
    done
    ours=$(sort -n "$work/ours" | sed -n 1p)
    theirs=$(sort -n "$work/theirs" | sed -n 1p)
    echo "loading 3,000 Services and 1,500 syncs, of jq -c .: $(ratio "$theirs" "$ours")"
}

beats() {
    changes beats 3000 18000 beat 20000
    changes unsynced 3000 18000 beat 20000 unsynced
    least_by_turns beats unsynced
    figure "loading 3,000 Services and 20,000 heartbeats with a sync each, of the same without syncs" \
        '(load["beats"] + after["beats"]) / (load["unsynced"] + after["unsynced"])'
    figure "the heartbeats with a sync each alone, of those without" \
        'after["beats"] / after["unsynced"]'
}

memory() {
    changes held 10000 60000 move 200
    cat "${cluster_of[held]}" "$work/held" >"$work/lines"
    python3 - "$work/lines" "$program" <<'END'
import os, resource, subprocess, sys
with open(sys.argv[1], "rb") as lines:
    subprocess.run(sys.argv[2:] + ["replay"], stdin=lines, stdout=subprocess.DEVNULL, check=True)
most = resource.getrusage(resource.RUSAGE_CHILDREN).ru_maxrss * 1024
print(f"memory: at most {most / os.path.getsize(sys.argv[1]):.1f} times the input")
END
}

[[ $# != 0 ]] || set -- size explain slices last jq beats memory
for name in "$@"; do
    case $name in
        size | explain | slices | last | jq | beats | memory) "$name" ;;
        *)
            echo "bench/follow.sh: there is no figure $name" >&2
            exit 2
            ;;
    esac
done
