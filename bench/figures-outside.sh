#!/bin/sh
# What reading and writing real files costs `tup`: system calls by strace (those for memory left out), bytes written to the store,
# and seconds. Words: the program, and how many rules the last figures have (none: 10000). It is no part of the gate.
set -eu
tup=$(realpath "$1")
many=${2:-10000}
if ! strace -o /dev/null true 2> /dev/null; then
    echo "passed over: there is no strace, or it may not trace"
    exit 0
fi
work=$(mktemp -d "${WORK:-/tmp}/figures.XXXXXX")
trap 'cd /; rm -rf "$work"' EXIT

# project NAME SOURCES RULES: so many sources, and as many rules, each of which copies one of them.
project() {
    rm -rf "${work:?}/$1" && mkdir "$work/$1" && cd "$work/$1"
    rules "$3"
    awk -v n="$2" 'BEGIN { for (i = 1; i <= n; i++) print i > "f" i }'
    "$tup" init > /dev/null
}
rules() {
    awk -v n="$1" 'BEGIN { for (i = 1; i <= n; i++) printf ": f%d |> cp f%d o%d |> o%d\n", i, i, i, i }' > Tupfile
}

# traced NAME: an update, and its calls in a file of this name, each with the paths of its descriptors.
traced() {
    strace -f -y -e 'trace=!%memory,futex,sched_yield' -o "$work/$1.trace" "$tup" > "$work/said"
    sed -i 's/^[0-9]* *//; /^[a-z]/!d' "$work/$1.trace"
}

# kinds NAME: how many calls there are of each kind, the syncs by what is synced.
kinds() {
    awk '
        {
            kind = $0
            sub(/\(.*/, "", kind)
            if (kind ~ /sync/) kind = kind (/\.tup\/db/ ? " of the store" : /\/\.tup>/ ? " of .tup" : /\/[of][0-9]*>|\/new>/ ? " of a file" : " of a folder")
            count[kind]++
        }
        END { for (kind in count) print count[kind], kind }' "$work/$1.trace" | sort -k 2
}

# each WHAT NAME OTHER MORE: what an update of the second project has more than one of the first, for each of so many.
each() {
    kinds "$2" > "$work/kinds.fewer"
    kinds "$3" > "$work/kinds.more"
    echo "$1:"
    awk -v more="$4" '
        { number = $1; $1 = "" }
        FNR == NR { before[$0] = number; next }
        { all += number - before[$0]; if (number - before[$0] >= more / 10) printf "  %.2f%s\n", (number - before[$0]) / more, $0 }
        END { printf "  %.2f in all\n", all / more }' "$work/kinds.fewer" "$work/kinds.more"
}

project thousand 1000 0
traced thousand
project two 2000 0
traced two
each 'a source that is read' thousand two 1000

project few 100 100
traced few
project more 200 200
traced more
each 'a rule that runs, and its source' few more 100

project one 1000 1000
"$tup" > /dev/null
echo more > f1001
rules 1001
traced one
printf 'an update of %s rules, one of them new:\n' 1001
awk '
    /^p?write[a-z0-9]*\([0-9]*<[^>]*\/\.tup\/db|^copy_file_range\(.*\/\.tup\/db/ { bytes += $NF; writes++ }
    /^(fsync|fdatasync)\([0-9]*<[^>]*\/\.tup\/db/ { syncs++ }
    /^(fsync|fdatasync)\(/ { all++ }
    /^rename.*\/\.tup\/db/ { renames++ }
    END { printf "  %d bytes in %d writes to the store, %d syncs and %d renames of it, %d syncs in all\n", bytes, writes, syncs, renames, all }' "$work/one.trace"
stat -c '  the store has %s bytes' .tup/db

# timed WHAT: an update, in seconds.
timed() {
    /usr/bin/time -o "$work/time" -f '%e seconds, %U + %S of a processor' "$tup" > "$work/said"
    printf '  %s: %s; %s\n' "$1" "$(cat "$work/time")" "$(tail -n 1 "$work/said")"
}
project many "$many" "$many"
echo "$many rules:"
sync
timed 'the first update'
sync
timed 'the next one'
rules 0
sync
timed 'they vanish'
