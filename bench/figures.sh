#!/bin/sh
# What opening a graph, taking note of a scan and ending a run cost, in microseconds of a processor, over graphs of so
# many rules as the words say; none: 1000, 10000 and 65536. The program that tells it isn't one of the crates, since the gate
# would prove it each time: its text stands in bench/figures, and here it is proved and built in a copy of the checkout, as a
# crate of its own, with what checks kept of those below it. That takes some minutes.
set -eu
cd "$(dirname "$0")/.."
work=$(mktemp -d)
trap 'rm -rf "$work"' EXIT
git ls-files -z -- crates crates.txt HANDLES | xargs -0 cp --parents -t "$work"
for out in crates/*/out; do
    if [ -d "$out" ]; then cp -al "$out" "$work/$out" 2>/dev/null || cp -a "$out" "$work/$out"; fi
done
mkdir -p "$work/crates/tup_figures/src" "$work/crates/tup_figures/specs" "$work/crates/tup_figures/proofs/figures/note"
touch "$work/crates/tup_figures/specs/Lib.antt" "$work/crates/tup_figures/proofs/Lib.antt"
for part in main figures store; do
    cp "bench/figures/$part.txt" "$work/crates/tup_figures/src/$part.rt"
done
cp bench/figures/note.txt "$work/crates/tup_figures/proofs/figures/note/Invariants.antt"
echo '200 rules' > "$work/crates/tup_figures/stdout"
echo 'tup_figures: tup_path tup_stamp tup_site tup_rule tup_scan tup_record tup_table tup_graph tup_stored_graph tup_commit' >> "$work/crates.txt"
cd "$work/crates/tup_figures"
rt run > "$work/log" 2>&1 || { tail -20 "$work/log" >&2; exit 1; }
if [ $# -eq 0 ]; then set -- 1000 10000 65536; fi
for rules; do ./out/tup_figures "$rules"; done
