#!/bin/sh
# Workers side by side, each in a thread of its own: what no contract says of them. At a board in memory: two runners that wait for
# each other; a gate that holds seat 0 where it has asked until seat 1 has asked; eight workers at 300 rules; and seven that wait ten
# seconds and use next to no processor. In a scan: two digests that wait for each other. The program (tests/seats/*.rt.txt) is tried
# unproved on a copy of this checkout, in some minutes. It ends with 1 where something else came.
set -eu
cd "$(dirname "$0")/../.."
work=$(mktemp -d)
trap 'rm -rf "$work"' EXIT
git ls-files -z -- crates crates.txt HANDLES | xargs -0 cp --parents -t "$work"
program=$work/crates/tup_seats
mkdir -p "$program/src" "$program/specs" "$program/proofs"
for file in tests/seats/*.rt.txt; do cp "$file" "$program/src/$(basename "$file" .txt)"; done
touch "$program/specs/Lib.antt" "$program/proofs/Lib.antt"
echo 'tup_seats: tup_path tup_rule tup_site tup_scan tup_scan_crew tup_runner tup_mini tup_record tup_table tup_stored_graph' \
    'tup_commit tup_core tup_board tup_apart tup_lock tup_workers tup_rows tup_given' >> "$work/crates.txt"
cd "$program"
# The interpreter that looks for faults besides knows no threads.
rt try --steps 1 --seconds 600
