#!/bin/sh
# Tries the edits that the gate doesn't: edits/CRATE/*.edit, written as those of a crate's must-fail/. They are tried on a copy
# of this checkout, and the prover has to refuse each; this ends with 1 where one isn't refused.
# Words: the crates whose edits are tried; none: all. Libraries that were built here aren't proved again.
set -eu
cd "$(dirname "$0")/.."
[ $# -gt 0 ] || set -- $(cd edits && ls -d */ 2>/dev/null | tr -d /)
[ $# -gt 0 ] || { echo 'edits/ has no edits'; exit 0; }
work=$(mktemp -d)
trap 'rm -rf "$work"' EXIT
git ls-files -z -- crates crates.txt HANDLES | xargs -0 cp --parents -t "$work"
for crate; do
    ls "edits/$crate"/*.edit > /dev/null
    rm -rf "$work/crates/$crate/must-fail"
    cp -r "edits/$crate" "$work/crates/$crate/must-fail"
done
for built in crates/*/out/rlib; do
    [ -d "$built" ] || continue
    mkdir -p "$work/$(dirname "$built")"
    cp -al "$built" "$work/$built" 2>/dev/null || cp -a "$built" "$work/$built"
done
cd "$work"
git init -q .
rt must-fail "$@"
