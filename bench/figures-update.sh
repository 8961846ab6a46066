#!/bin/sh
# What updates of many rules cost over real files, in folders of 11 rules: the first one; one by which nothing is to be done; one
# after an edit of a source that two rules read; one after an edit of one Tupfile. Beside them, in the same run, a program that
# lists, reads and digests the same files and does nothing else (reads.c). Each has its system calls (those for memory left out),
# what is written to the store and the syncs by strace, and its time without strace, the best of five. Words: the program, and
# numbers of rules (none: 1100 11000). It is no part of the gate.
set -eu
tup=$(realpath "$1")
tests=$(realpath "$(dirname "$0")")
shift
if ! strace -o /dev/null true 2> /dev/null; then
    echo "passed over: there is no strace, or it may not trace"
    exit 0
fi
work=$(mktemp -d "${WORK:-/tmp}/figures.XXXXXX")
trap 'cd /; rm -rf "$work"' EXIT
cc -O2 -o "$work/reads" "$tests/reads.c"

# project RULES: folders of 11 sources and a Tupfile, in which each source is copied, two of them with `h` behind.
project() {
    rm -rf "$work/project" && mkdir "$work/project" && cd "$work/project"
    awk -v n="$1" 'BEGIN {
        for (k = 0; k * 11 < n; k++) {
            folder = "d" k
            system("mkdir " folder)
            for (i = 1; i <= 11; i++) {
                print k, i > (folder "/f" i)
                line = i <= 2 ? sprintf("cat f%d h > o%d", i, i) : sprintf("cp f%d o%d", i, i)
                printf ": f%d |> %s |> o%d\n", i, line, i > (folder "/Tupfile")
                close(folder "/f" i)
            }
            print "head" > (folder "/h")
            close(folder "/h")
            close(folder "/Tupfile")
        }
    }'
    "$tup" init > /dev/null
}

# The seconds by the clock and of a processor that these words take.
seconds() {
    python3 -c 'if 1:
        import os, subprocess, sys, time
        begun = time.perf_counter()
        run = subprocess.Popen(sys.argv[1:], stdout=subprocess.DEVNULL)
        _, status, used = os.wait4(run.pid, 0)
        if status != 0: sys.exit(1)
        print("%.3f %.3f" % (time.perf_counter() - begun, used.ru_utime + used.ru_stime))' "$@"
}

# row WHAT EDIT FILES TIMES WORDS..: a row of the table. Before each run comes the edit, whose word is the number of the run.
row() {
    what=$1 edit=$2 files=$3 times=$4
    shift 4
    $edit 0
    strace -f -y -e 'trace=!%memory,futex,sched_yield' -o "$work/trace" "$@" > "$work/last"
    awk '
        { sub(/^[0-9]+ +/, "") }
        /^[a-z]/ { calls++ }
        /^pwrite64\([0-9]*<[^>]*\/\.tup\/db>/ { writes++; bytes += $NF }
        /^f(data)?sync\(/ { syncs++ }
        END { print calls, writes + 0, bytes + 0, syncs + 0 }' "$work/trace" > "$work/calls"
    : > "$work/times"
    for time in $(seq "$times"); do
        $edit "$time"
        seconds "$@" >> "$work/times"
    done
    clock=$(sort -n "$work/times" | head -1 | cut -d ' ' -f 1)
    processor=$(sort -n -k 2 "$work/times" | head -1 | cut -d ' ' -f 2)
    awk -v what="$what" -v files="$files" -v clock="$clock" -v processor="$processor" -v last="$(tail -1 "$work/last")" '{
        printf "| %s | %d | %d | %.2f | %d | %d | %d | %s | %s | %s |\n", what, files, $1, $1 / files, $2, $3, $4, clock, processor, last
    }' "$work/calls"
}

none() { :; }
header() { echo "head $1" > d1/h; }
tupfile() { sed -i '12,$d' d1/Tupfile && printf ': f3 |> cat f3 > p%d |> p%d\n' "$1" "$1" >> d1/Tupfile; }
anew() { project "$rules"; }

echo '| Update | Files (of the first: rules) | System calls | of each | Writes to the store | Bytes | Syncs | Seconds | of a processor | Its last line |'
echo '|---|--:|--:|--:|--:|--:|--:|--:|--:|---|'
for rules in ${*:-1100 11000}; do
    count=$((rules * 2 + rules / 11 * 2))
    row "$rules rules, the first" anew "$rules" 2 "$tup"
    "$tup" > /dev/null
    row "nothing to do" none "$count" 5 "$tup"
    row "reads.c" none "$count" 5 "$work/reads"
    row "a source of two rules" header "$count" 5 "$tup"
    row "a Tupfile" tupfile "$((count + 1))" 5 "$tup"
    stat -c "The store of $rules rules has %s bytes." .tup/db
done
