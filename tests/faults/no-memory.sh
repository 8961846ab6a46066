#!/bin/sh
# Each allocation of an update is refused in turn: the update is done all the same, or it says so and ends with 12, or with 7 where
# it was the system that found no memory. No source changes, and the next update is done and leaves just the files of a clean
# build. Two updates: the first of a project of three folders, and one after an edit of its header. And an update by a program that
# isn't there runs nothing. Words: the program, which allocation is the first (none: 1), and the step from one to the next (none:
# 20; 1 takes some minutes). It ends with 1 where something else came, and says so. It needs a C compiler, and is no part of
# the gate.
set -u
. "$(dirname "$0")/../lib.sh"
tup=$(realpath "$1")
first=${2:-1}
step=${3:-20}
here=$(cd "$(dirname "$0")" && pwd)
work=$(mktemp -d)
trap 'cd /; rm -rf "$work"' EXIT
trap 'exit 1' INT TERM
failures=0
all=0
refused=0
unsaid=0

if ! cc -shared -fPIC -O1 -o "$work/no-memory.so" "$here/no-memory.c" 2> /dev/null; then
    echo "passed over: there is no C compiler"
    exit 0
fi

# All files but the program's own, with their contents.
files() { find . -path ./.tup -prune -o -type f -print | sort | while read -r file; do printf '%s: ' "$file"; cat "$file"; done; }
sources() { cat Tuprules.tup Tupfile lib/Tupfile src/Tupfile inc/a.h lib/a.c src/m.c src/n.c; }

# An update in a copy of the project, of which the allocation of this number is refused; 0 refuses none.
update() {
    rm -rf "$work/now" && cp -a "$work/project" "$work/now" && cd "$work/now" || exit 1
    rm -f "$work/was_refused"
    TOLD="$work/was_refused" REFUSED=$1 LD_PRELOAD="$work/no-memory.so" "$tup" upd -j 1 > "$work/told" 2> "$work/said"
    exit=$?
}

# Each allocation of the next update of the project.
try() {
    wanted_sources=$(cd "$work/project" && sources)
    update 0
    [ "$exit" = 0 ] || wrong "exit $exit: $(tail -1 "$work/told")"
    wanted_files=$(files)
    number=$first
    while :; do
        what="$1, allocation $number"
        update "$number"
        [ -e "$work/was_refused" ] || break
        all=$((all + 1))
        case "$exit $(tail -1 "$work/told") $(cat "$work/said")" in
            '0 done: '*) ;;
            '12 fault: no memory '*) refused=$((refused + 1)) ;;
            '12  ') refused=$((refused + 1)) unsaid=$((unsaid + 1)) ;;
            '7 fault: the file tree or the store failed '*'Cannot allocate memory'* | '7 fault: the file tree or the store failed '*': out of memory') refused=$((refused + 1)) ;;
            *) wrong "exit $exit: $(tail -1 "$work/told") $(cat "$work/said")" ;;
        esac
        [ "$(sources)" = "$wanted_sources" ] || wrong "a source changed"
        next=$("$tup" upd -j 1 2>&1)
        case "$? $next" in
            '0 '*'done: '*) ;;
            *) wrong "the next update: $next" ;;
        esac
        [ "$(files)" = "$wanted_files" ] || wrong "the next update's files aren't those of a clean build"
        number=$((number + step))
    done
    echo "$1: fewer than $number allocations"
}

what='the project'
mkdir -p "$work/project/lib" "$work/project/src" "$work/project/inc" && cd "$work/project" || exit 1
printf '%s\n' '!cc = |> ^ CC %b^ incl %f %o |> %B.o' > Tuprules.tup
printf '%s\n' 'include_rules' ': foreach *.c |> !cc |> ../<objs>' > lib/Tupfile
cp lib/Tupfile src/Tupfile
printf '%s\n' ': <objs> |> cat %<objs> > %o |> app' > Tupfile
printf '%s\n' '#define A' > inc/a.h
printf '%s\n' '#include "../inc/a.h"' 'int a;' > lib/a.c
printf '%s\n' '#include "../inc/a.h"' 'int m;' > src/m.c
printf '%s\n' 'int n;' > src/n.c
"$tup" init > /dev/null || exit 1
try 'the first update'
cd "$work/project" && "$tup" upd > /dev/null && printf '%s\n' '#define B' > inc/a.h || exit 1
try 'an edited header'

# Each of the first hundred allocations of an update by a program that isn't there, in a project whose commands are built-in ones.
rm -rf "$work/project" && mkdir "$work/project" && cd "$work/project" || exit 1
echo hi > a
echo ': a |> cp a b |> b' > Tupfile
"$tup" init > /dev/null || exit 1
for number in $(seq 100); do
    what="a program that isn't there, allocation $number"
    REFUSED=$number TOLD="$work/was_refused" LD_PRELOAD="$work/no-memory.so" "$tup" upd -j 1 --proc ./none > "$work/told" 2> "$work/said"
    exit=$?
    all=$((all + 1))
    case $exit in 7 | 8 | 12) ;; *) wrong "exit $exit: $(tail -1 "$work/told")" ;; esac
    [ ! -e b ] || wrong 'its command was run'
    rm -f b
done

if [ "$failures" -gt 0 ]; then
    echo "$failures of $all updates went wrong"
    exit 1
fi
[ "$all" -gt 0 ] || echo 'passed over: the program asks another for its memory'
echo "$all allocations were refused, $refused updates ended by that, $unsaid without a word; no source changed, and each next update was done"
