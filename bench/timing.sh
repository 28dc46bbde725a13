# What the benches share: time, measured from outside. A figure of processor time is the difference
# of two numbers of repeats, each the median of five runs, so that starting and reading what comes
# first isn't in it. The caller sets the folder `work`.

# the processor time of a command on a file, in seconds; a command that fails ends the bench
processor_seconds() { # $1: the file, then the command
    local file=$1 TIMEFORMAT='%3U %3S'
    shift
    if ! { time "$@" <"$file" >"$work/output" 2>"$work/complaints"; } 2>"$work/took"; then
        echo "$*: failed" >&2
        cat "$work/complaints" >&2
        return 1
    fi
    awk '{ printf "%.3f\n", $1 + $2 }' "$work/took"
}

# the instructions of a command on a file, as valgrind counts them
instructions() { # as processor_seconds; the command is a program, and no script
    local file=$1
    shift
    valgrind --tool=callgrind --callgrind-out-file=/dev/null "$@" <"$file" 2>&1 >"$work/output" |
        awk '/Collected/ { print $NF }'
}

# the wall time of a command on a file, in seconds; a command that fails ends the bench
wall_seconds() { # as processor_seconds
    local file=$1 TIMEFORMAT='%3R'
    shift
    if ! { time "$@" <"$file" >"$work/output" 2>"$work/complaints"; } 2>"$work/took"; then
        echo "$*: failed" >&2
        cat "$work/complaints" >&2
        return 1
    fi
    cat "$work/took"
}

# the most memory that a command on a file held, in KB
most_memory() { # as processor_seconds
    local file=$1
    shift
    /usr/bin/time -f '%M' -o "$work/held" "$@" <"$file" >"$work/output" 2>"$work/complaints"
    cat "$work/held"
}

# the median of five runs
median_of_five() { # as processor_seconds
    local run
    for run in 1 2 3 4 5; do
        processor_seconds "$@" || return 1
    done | sort -n | sed -n 3p
}

# the seconds for one more of what is repeated: `less` and `more` are two files with so many repeats
each_on_files() { # $1: less, $2: its repeats, $3: more, $4: its repeats, then the command
    local less=$1 few=$2 more=$3 many=$4 base whole
    shift 4
    base=$(median_of_five "$less" "$@") && whole=$(median_of_five "$more" "$@") || return 1
    awk -v base="$base" -v whole="$whole" -v times=$((many - few)) \
        'BEGIN { printf "%.9f\n", (whole - base) / times }'
}

# so many a second, where each takes these seconds
a_second() { # $1: the seconds
    awk -v each="$1" 'BEGIN { if (each > 0) printf "%d", 1 / each; else printf "too many to tell" }'
}

# how many times as long the second takes as the first
ratio() { # $1: seconds, $2: seconds
    awk -v ours="$1" -v theirs="$2" 'BEGIN { if (ours > 0) printf "%.2f", theirs / ours }'
}
