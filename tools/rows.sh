#!/bin/sh
# Tries one data file of a program of rows: tells each row whose answer differs, and how many do. Word: the file, as
# crates/tup_store_rows/data/kept.rows. The program is that which `rt run` built of the texts as they are; where there is none it is
# tried unproved, in a minute or two. It ends with 1 where a row differs, and where it has none.
set -eu
file=$(realpath "$1")
cd "$(dirname "$file")/.."
name=$(basename "$PWD")
program=$PWD/out/$name
work=$(mktemp -d)
trap 'rm -rf "$work"' EXIT
# The other files are empty.
for other in data/*.rows; do
    : > "$work/$(basename "$other")"
done
cp "$file" "$work"
changed() { find .. ../../crates.txt -name out -prune -o '(' -name '*.rt' -o -name '*.antt' -o -name crates.txt ')' -newer "$program" -print | head -n 1; }
if [ -x "$program" ] && [ -z "$(changed)" ]; then
    (cd "$work" && "$program") > "$work/said"
else
    for other in "$work"/*.rows; do
        set -- "$@" --data "$(basename "$other")=$other"
    done
    shift
    rt try "$@" > "$work/said"
fi
tried=$(basename "$file")
sed "/^$tried:/!{/: no rows$/d}" "$work/said"
grep -qx "$tried: 0 differ" "$work/said"
