#!/bin/sh
# crates.txt names the crates from the lowest storey up. A crate may stand on those above its own line alone: this names
# each dependency that points the other way, and each crate that the file or the folder lacks, and ends with 1 if there is one.
cd "$(dirname "$0")/../.." || exit 1
ls crates | awk '
    FNR == NR { folder[$1]; next }
    /^ *(#|$)/ { next }
    {
        split($0, half, ":")
        split(half[1], words, " ")
        name = words[1]
        if (!(name in folder)) { print "crates.txt: no folder crates/" name; wrong = 1 }
        count = split(half[2], needs, " ")
        for (i = 1; i <= count; i++)
            if (needs[i] in folder && !(needs[i] in listed)) {
                print "crates.txt: " name " stands on " needs[i] ", which is listed below it"
                wrong = 1
            }
        listed[name]
    }
    END {
        for (name in folder) if (!(name in listed)) { print "crates.txt: " name " is missing"; wrong = 1 }
        exit wrong
    }' - crates.txt
