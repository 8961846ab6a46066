#!/bin/sh
# Each must-fail edit, in crates/CRATE/must-fail/ and in edits/CRATE/, has to find its text: each `old:` stands just once in the
# file that the `file:` above it names, as the pairs before it left that. This names each edit that doesn't, or that changes
# nothing, and ends with 1 if there is one: a change of the code that leaves an edit behind is seen at once, without a proof.
cd "$(dirname "$0")/../.." || exit 1
find crates/*/must-fail edits -name '*.edit' | LC_ALL=C sort | awk '
    # The edit, line by line.
    {
        edit = $0
        split(edit, part, "/")
        crate = part[2]
        file = old = ""
        pairs = 0
        split("", texts)
        while ((getline line < edit) > 0) {
            if (line ~ /^file: /) file = "crates/" crate "/" substr(line, 7)
            else if (line ~ /^old: /) old = substr(line, 6)
            else if (line ~ /^new:/) { pairs++; change(substr(line, 6)) }
        }
        close(edit)
        if (!pairs) refuse("has no pair of old: and new:")
        tried++
    }
    END {
        if (!tried) { print "there are no edits"; wrong = 1 }
        exit wrong
    }

    # Takes the text `new` in the place of `old`.
    function change(new,   at, behind) {
        if (!(file in texts)) texts[file] = read(file)
        at = old == "" ? 0 : index(texts[file], old)
        behind = substr(texts[file], at + length(old))
        if (!at) refuse("finds no text in " file)
        else if (index(substr(texts[file], at + 1), old)) refuse("finds its text twice in " file)
        else if (new == old) refuse("changes nothing")
        else texts[file] = substr(texts[file], 1, at - 1) new behind
    }
    function read(file,   text, line) {
        text = ""
        while ((getline line < file) > 0) text = text line "\n"
        close(file)
        return text
    }
    function refuse(why) { print edit ": " why; wrong = 1 }'
