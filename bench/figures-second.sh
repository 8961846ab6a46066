#!/bin/sh
# What each call of `tup large N` costs in seconds of a processor, the least of three runs in gdb, which stops the program where a
# call begins. The second call has nothing to do: behind it stands what it does, step by step. Beside it a program that lists and
# digests the same files in memory and does nothing else (lists.c). Words: the program, and N (none: 1000). It is no part of the
# gate.
set -eu
tup=$(realpath "$1")
tests=$(realpath "$(dirname "$0")")
export FOLDERS="${2:-1000}"
if ! gdb --version > /dev/null 2>&1; then
    echo "passed over: there is no gdb"
    exit 0
fi
work=$(mktemp -d "${WORK:-/tmp}/figures.XXXXXX")
trap 'rm -rf "$work"' EXIT
cc -O2 -o "$work/lists" "$tests/lists.c"
nm -C "$tup" > "$work/names"
if ! grep -q ' tup_top::call::tup::' "$work/names"; then
    echo "$tup: the program has no names of functions" >&2
    exit 1
fi

for run in 1 2 3; do
    NAMES="$work/names" OUT="$work/run$run" gdb -q -batch -x "$tests/calls.py" "$tup" > "$work/gdb" 2>&1 \
        || { cat "$work/gdb"; exit 1; }
done
python3 -c 'if 1:
    import sys
    runs = [[line.split(" ", 1) for line in open(name)] for name in sys.argv[2:]]
    least = [(name[0][1].strip(), min(float(at[0]) for at in name)) for name in zip(*runs)]
    listing = float(sys.argv[1].split()[2])
    print("| Call, or step of the second one | Seconds of a processor |\n|---|--:|")
    for name, seconds in least: print("| %s | %.3f |" % (name, seconds))
    print("| lists.c: %s files, %s bytes | %.3f |" % (*sys.argv[1].split()[:2], listing))
    second = [seconds for name, seconds in least if name.startswith("2 ")]
    print("the second call is %.1f times lists.c" % (second[0] / listing))' "$("$work/lists" "$FOLDERS")" "$work"/run?
