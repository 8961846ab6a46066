#!/bin/sh
# What `--explain` costs: a project in which each rule reads a source of its own and one that all share, in folders of 11 rules. In
# turn an update that explains and one that doesn't, each after an edit of the shared source, by one runner and without syncs: the
# seconds by the clock and of a processor, three of each. Words: the program, and a number of rules (none: 11000). It is no part of
# the gate.
set -eu
tup=$(realpath "$1")
rules=${2:-11000}
work=$(mktemp -d "${WORK:-/tmp}/explain.XXXXXX")
trap 'cd /; rm -rf "$work"' EXIT
cd "$work"
awk -v n="$rules" 'BEGIN {
    for (k = 0; k * 11 < n; k++) {
        folder = "d" k
        system("mkdir " folder)
        for (i = 1; i <= 11; i++) {
            print k, i > (folder "/f" i)
            printf ": f%d |> cat f%d ../h > o%d |> o%d\n", i, i, i, i > (folder "/Tupfile")
            close(folder "/f" i)
        }
        close(folder "/Tupfile")
    }
}'
echo 0 > h
"$tup" init --no-sync > /dev/null

# update EDIT WORDS..: after the edit of this number the update of these words, its lines into the file `told`.
update() {
    echo "$1" > h
    shift
    python3 -c 'if 1:
        import os, subprocess, sys, time
        begun = time.perf_counter()
        run = subprocess.Popen(sys.argv[2:], stdout=open(sys.argv[1], "w"))
        _, status, used = os.wait4(run.pid, 0)
        if status != 0: sys.exit(1)
        print("%.3f %.3f" % (time.perf_counter() - begun, used.ru_utime + used.ru_stime))' "$work/told" "$tup" upd -j 1 "$@"
}

# row WHAT FILE: the seconds of each run in a row of the table.
row() {
    printf '| %s |' "$1"
    awk '{ printf " %s (%s) |", $1, $2 }' "$work/$2"
    echo
}

update 1 > "$work/first"
grep -q 'run d0: cat f1 ../h > o1' "$work/told" || { echo 'the first update ran nothing'; exit 1; }
echo "| $rules rules | seconds (of a processor) | | |"
echo '|---|--:|--:|--:|'
: > "$work/plain"
: > "$work/explained"
for number in 2 4 6; do
    update "$number" >> "$work/plain"
    update "$((number + 1))" --explain >> "$work/explained"
    [ "$(grep -c '^  because changed h > d[0-9]*: cat f[0-9]* ../h > o[0-9]*$' "$work/told")" = "$(grep -c '^run ' "$work/told")" ] || {
        echo 'not each rule was explained'
        exit 1
    }
done
row 'unexplained' plain
row 'explained' explained
cat "$work/plain" "$work/explained" | awk '
    { if (NR <= 3) plain += $2; else explained += $2 }
    END { printf "\nexplained: %.3f times the seconds of a processor\n", explained / plain; exit explained > plain * 1.1 }'
