#!/bin/sh
# Counts the system calls of updates of 1,000 files that are made of 1,000 sources, by strace, and says how many there are of each
# kind: of the first update, of one by which nothing is to be done, and of one by which each command is another and each file has
# its content already; all of it two folders further down; and of one rule alone, with the bytes that the store is given.
#
# It ends with 1 where there are more than these for each rule, and 600 beside. Nothing to do: ten, as source and output are each
# listed with one and read with four. The first update: 27, as its source is listed and read for the rules and read by its command,
# four make a file of it, six make that and its folder durable, and eight commit, twice, what begins and what ended. Each command
# another: 32, as the output is listed and read for the rules too, and read in place of being made. Each folder more above a file
# that is made takes three to be made durable; it is looked at once. Where nothing is to be done no byte is written, and three
# syncs are made: of the store, of its folder, of the one above. Where a project syncs once an update, each file that is made is
# synced once, and each folder above one; seventeen syncs are made beside, since an epoch whose commits weren't known as such would
# end at each of them. The updates have four runners; their calls of futex and
# sched_yield, by which they wait for each other, are told beside and in no sum.
# Word: the program. It is no part of the gate.
set -u
tup=$(realpath "$1")
if ! strace -o /dev/null true 2> /dev/null; then
    echo "passed over: there is no strace, or it may not trace"
    exit 0
fi
work=$(mktemp -d)
trap 'cd /; rm -rf "$work"' EXIT

# Counts in a new folder. Words: its place in the project, and the calls that its depth adds to each rule that runs.
count() {
    rm -rf "$work/project" && mkdir -p "$work/project/$1" && cd "$work/project/$1" || exit 1
    make_files
    cd "$work/project" || exit 1
    "$tup" init > /dev/null || exit 1
    update "the first update, in $1" $((27600 + $2 * 1000)) 900
    update "nothing to do" 10600 900
    [ "$bytes $syncs" = '0 3' ] || exit 1
    sed -i 's/cp \([^ ]*\)/cat \1 >/' "$1/Tupfile"
    update "each command is another" $((32600 + $2 * 1000)) 900
}

make_files() {
    awk 'BEGIN { for (i = 1; i <= 1000; i++) { printf ": f%d |> cp f%d o%d |> o%d\n", i, i, i, i; print i > "f" i } }' > Tupfile
}

# Counts the calls of an update. Words: which, how many there may be, and from how many on those of a kind are told.
update() {
    strace -f -y -o "$work/trace" "$tup" > "$work/told" || exit 1
    printf '%s: %s\n' "$1" "$(tail -1 "$work/told")"
    awk -v many="$3" '
        { sub(/^[0-9]+ +/, "") }
        /"\.["\/]/ { begun = 1 }
        !begun || /^[^a-z]/ || /^m/ { next }
        /^p?write(64)?\(.*\/\.tup\/db(\.new)?>/ { bytes += $NF }
        /^f(data)?sync\(/ { syncs++ }
        { sub(/\(.*/, "") }
        $0 == "futex" || $0 == "sched_yield" { waits++; next }
        { count[$0]++; all++ }
        END {
            for (name in count) if (count[name] >= many) { printf "  %d %s\n", count[name], name; counted += count[name] }
            printf "  %d others, and %d by which threads wait\n%d system calls, %d bytes to the store, %d syncs\n", all - counted, waits, all, bytes, syncs
        }' "$work/trace" | tee "$work/counts"
    read -r all _ _ bytes _ _ _ _ syncs _ << END
$(tail -1 "$work/counts")
END
    [ "$all" -le "$2" ] || exit 1
}

count . 0
count two/down 6

# Once an update: as many syncs as files and folders, and seventeen.
rm -rf "$work/project" && mkdir -p "$work/project/two/down" && cd "$work/project/two/down" || exit 1
make_files
cd "$work/project" || exit 1
"$tup" init --sync-once > /dev/null || exit 1
update "the first update, synced once" 27600 900
[ "$syncs" -le 1020 ] || exit 1
update "nothing to do, synced once" 10600 900
[ "$bytes $syncs" = '0 3' ] || exit 1
sed -i 's/cp \([^ ]*\)/cat \1 >/' two/down/Tupfile
update "each command is another, synced once" 32600 900
[ "$syncs" -le 1020 ] || exit 1

# One rule alone: its output is new, then its source has changed, then nothing is to be done.
rm -rf "$work/project" && mkdir "$work/project" && cd "$work/project" || exit 1
echo hi > a
echo ': a |> cp a b |> b' > Tupfile
"$tup" init > /dev/null || exit 1
update "one rule, whose output is new" 120 1
echo ho > a
update "one rule, whose source has changed" 120 1
update "one rule, and nothing to do" 100 1
[ "$bytes $syncs" = '0 3' ] || exit 1
