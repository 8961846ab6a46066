#!/bin/sh
# A store that is compacted, over real files. In a project of many rules whose store is due for it, each call of the system that
# compacting makes is failed by two errors and killed in turn, by strace: the next update is done and right, and leaves the store
# as large as it is once compacted, and one that changes a file as large as without the stop. Words: the program, and how many
# rules (none: 300). With the word `figures` in place of that: how large the store is after each hundredth of 1,000 updates, each
# of one edited source among 1,100 rules, and how long an update takes then that has nothing to do. It ends with 1 where something
# else came, and says so.
set -u
. "$(dirname "$0")/../lib.sh"
tup=$(realpath "$1")
here=$(dirname "$(realpath "$0")")
work=$(mktemp -d)
trap 'cd /; rm -rf "$work"' EXIT
trap 'exit 1' INT TERM
failures=0
all=0

# A project with so many rules, one for each source, and all of them run. Until it is asked to, it syncs nothing.
project() {
    rm -rf "$work/project" && mkdir "$work/project" && cd "$work/project" || exit 1
    "$tup" init --no-sync > /dev/null
    for number in $(seq "$1"); do echo "$number" > "s$number.c"; done
    echo ': foreach *.c |> cp %f %o |> %B.o' > Tupfile
    "$tup" > /dev/null
}

# The bytes of the store, and how many it has once it is compacted, by the second reading of its format.
size() { wc -c < .tup/db; }
live() { python3 -B -c 'import sys; sys.path.insert(0, sys.argv[1]); from store import *; print(live(read(open(".tup/db", "rb").read())[0]))' "$here/../model"; }

# Whether each output is a copy of its source.
is_right() { for source in *.c; do cmp -s "$source" "${source%.c}.o" || return 1; done; }

# Makes the store due to be compacted: something large is put and deleted again.
make_due() {
    python3 -B - "$here/../model" << 'END'
import sys
sys.path.insert(0, sys.argv[1])
from store import commits, live, read
store = open('.tup/db', 'rb').read()
entries, gate, high = read(store)
store = commits(store, gate, [('put', b'large', bytes(max(1048576, 4 * live(entries))))])
store = commits(store, len(store) - 1, [('delete', b'large', b'')])
open('.tup/db', 'wb').write(store)
END
}

# The calls of an update that write the store, or sync, until the store is cut and synced, each with its number.
calls_of() {
    strace -y -o "$work/trace" -e trace=pwrite64,fsync,fdatasync,ftruncate "$tup" > "$work/told"
    awk '{ name = $0; sub(/\(.*/, "", name); count[name]++ }
        /^pwrite64\(.*\/\.tup\/db>/ { begun = 1 }
        begun { print name, count[name] }
        name == "fdatasync" && cut { exit }
        name == "ftruncate" { cut = 1 }' "$work/trace"
}

# Stops an update at a call, and looks at the next one. Words: the call, its number, what is done to it, the size that the store
# has to have then.
stop() {
    rm -rf "$work/now" && cp -a "$work/due" "$work/now" && cd "$work/now" || exit 1
    what="$5: $1 number $2, $3"
    all=$((all + 1))
    strace -o /dev/null -e trace="$1" -e inject="$1:$3:when=$2" "$tup" > "$work/told" 2> "$work/said"
    case "$3 $?" in
        'signal=KILL 137') ;;
        'error='*' 7') grep -q '^tup: ' "$work/said" || wrong "exit 7, and nobody says why" ;;
        *) wrong "it ends otherwise: $(tail -1 "$work/told")" ;;
    esac
    next=$("$tup" 2>&1)
    case "$? $next" in
        '0 '*'done: '*) ;;
        *) wrong "the next update: $next" ;;
    esac
    is_right || wrong "an output isn't that of its source"
    [ "$(size)" -le "$4" ] || wrong "the store has $(size) bytes, not $4"
}

# All calls of compacting, in an update that changes a file or in one that doesn't. Words: which, the size of the store behind it.
stop_each() {
    rm -rf "$work/now" && cp -a "$work/due" "$work/now" && cd "$work/now" || exit 1
    calls_of > "$work/list"
    what=$1
    [ "$(wc -l < "$work/list")" -ge 11 ] || wrong "compacting makes $(wc -l < "$work/list") calls"
    wanted=$(size)
    [ "$2" != live ] || [ "$wanted" = "$(live)" ] || wrong "the store has $wanted bytes once it is compacted, and $(live) are live"
    while read -r call number; do
        for way in error=EIO error=ENOSPC signal=KILL; do stop "$call" "$number" "$way" "$wanted" "$1"; done
    done < "$work/list"
    printf '%s: %s calls; the store had %s bytes, and has %s\n' "$1" "$(wc -l < "$work/list")" "$(wc -c < "$work/due/.tup/db")" "$wanted"
}

# How long an update takes that has nothing to do, in thousandths of a second: the shortest of five.
nothing_to_do() {
    for round in 1 2 3 4 5; do
        begun=$(date +%s%N)
        "$tup" > /dev/null
        echo $((($(date +%s%N) - begun) / 1000000))
    done | sort -n | head -1
}

figures() {
    project 1100
    printf '%8s %10s %10s %10s\n' updates bytes live 'ms then'
    printf '%8s %10s %10s %10s\n' 0 "$(size)" "$(live)" "$(nothing_to_do)"
    for hundred in $(seq 10); do
        for one in $(seq 100); do
            echo "$hundred $one" > s500.c
            "$tup" > /dev/null || exit 1
        done
        printf '%8s %10s %10s %10s\n' "${hundred}00" "$(size)" "$(live)" "$(nothing_to_do)"
    done
}

if [ "${2:-}" = figures ]; then
    figures
    exit
fi
if ! strace -o /dev/null true 2> /dev/null; then
    echo "passed over: there is no strace, or it may not trace"
    exit 0
fi
what="the project"
project "${2:-300}"
make_due
rm -f .tup/options
cp -a "$work/project" "$work/due"
stop_each "an update with nothing to do" live
echo edited > "$work/due/s1.c"
stop_each "an update of one file" more
if [ "$failures" -gt 0 ]; then
    echo "$failures of $all updates that were stopped went wrong"
    exit 1
fi
echo "$all updates were stopped while they compacted the store; each next one was done, and the store no larger than without"
