#!/bin/sh
# The crates that a change of some crates reaches, from the lowest storey up, by crates.txt. Words: the crates.
cd "$(dirname "$0")/.." || exit 1
[ $# -gt 0 ] || { echo 'above.sh CRATE ..' >&2; exit 1; }
for crate; do
    [ -d "crates/$crate" ] || { echo "there is no crate $crate" >&2; exit 1; }
done
# A crate is listed behind those that it stands on.
awk -v changed="$*" '
    BEGIN { split(changed, names, " "); for (at in names) reached[names[at]] }
    /^ *(#|$)/ { next }
    {
        split($0, half, ":")
        split(half[1], words, " ")
        count = split(half[2], needs, " ")
        for (at = 1; at <= count; at++)
            if (needs[at] in reached && !(words[1] in reached)) {
                reached[words[1]]
                print words[1]
            }
    }' crates.txt
