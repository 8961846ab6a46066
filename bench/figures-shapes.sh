#!/bin/sh
# What updates cost in projects of several shapes, each with ten sources a folder: a Tupfile in each folder, and a top Tupfile that
# takes what they make, by name or by a group; a Tupfile in each folder alone; one Tupfile at the top for all, with what it makes in one
# folder of its own or beside the sources. For each shape the seconds of a processor of an update by which nothing is to be done, of one
# after an edit of a source, and of the program that lists, reads and digests the same files and does nothing else (reads.c): the best
# of five by turns. Words: the program, and numbers of folders (none: 100 1000). It is no part of the gate.
set -eu
tup=$(realpath "$1")
here=$(realpath "$(dirname "$0")")
shift
if [ $# -eq 0 ]; then set -- 100 1000; fi
work=$(mktemp -d "${WORK:-/dev/shm}/figures.XXXXXX")
trap 'cd /; rm -rf "$work"' EXIT
cc -O2 -o "$work/reads" "$here/reads.c"

# sources FOLDERS: so many folders with ten sources each, in a new project.
sources() {
    rm -rf "$work/project" && mkdir "$work/project" && cd "$work/project"
    awk -v n="$1" 'BEGIN { for (k = 0; k < n; k++) printf "d%04d\n", k }' > "$work/folders"
    xargs mkdir < "$work/folders"
    awk '{ for (i = 0; i < 10; i++) { print $1, i > ($1 "/f" i ".c"); close($1 "/f" i ".c") } }' "$work/folders"
    "$tup" init --no-sync > /dev/null
}

# each TEXT..: a Tupfile of these lines in each folder.
each() {
    printf '%s\n' "$@" > "$work/lines"
    while read -r folder; do cp "$work/lines" "$folder/Tupfile"; done < "$work/folders"
}

# all FORM: the form for each folder, with its name for #, in one line.
all() {
    awk -v form="$1" '{ text = form; gsub("#", $1, text); printf "%s ", text }' "$work/folders"
}

# The shapes.
named() {
    each ': foreach *.c |> cp %f %o |> %B.o' ': *.o |> cat %f > %o |> lib'
    printf ': %s|> cat d0000/lib > %%o |> all\n' "$(all '#/lib')" > Tupfile
}
grouped() {
    each ': foreach *.c |> cp %f %o |> %B.o' ': *.o |> cat %f > %o |> lib ../<libs>'
    echo ': <libs> |> cat d0000/lib > %o |> all' > Tupfile
}
alone() {
    each ': foreach *.c |> cp %f %o |> %B.o' ': *.o |> cat %f > %o |> lib'
}
one_for_all() {
    awk '{ printf ": foreach %s/*.c |> cp %%f %%o |> obj/%s_%%B.o\n", $1, $1 }' "$work/folders" > Tupfile
}
one_beside() {
    awk '{ printf ": foreach %s/*.c |> cp %%f %%o |> %s/%%B.o\n: %s/*.o |> cat %%f > %%o |> %s/lib\n", $1, $1, $1, $1 }' "$work/folders" > Tupfile
}

# seconds WORDS..: those of a processor that these words take.
seconds() {
    python3 -c 'if 1:
        import os, subprocess, sys
        run = subprocess.Popen(sys.argv[1:], stdout=subprocess.DEVNULL)
        _, status, used = os.wait4(run.pid, 0)
        if status != 0: sys.exit(1)
        print("%.4f" % (used.ru_utime + used.ru_stime))' "$@"
}

best() { sort -n "$work/$1" | head -1; }

# shape WHAT FUNCTION FOLDERS: a row of the table.
shape() {
    sources "$3"
    if ! { $2 && "$tup" -j 1 --quiet > "$work/said"; }; then
        echo "| $1 | $3 | $(head -1 "$work/said") |"
        return
    fi
    : > "$work/nothing"; : > "$work/edit"; : > "$work/read"
    for time in 1 2 3 4 5; do
        seconds "$work/reads" . >> "$work/read"
        seconds "$tup" -j 1 --quiet >> "$work/nothing"
        echo "$time" > d0000/f0.c
        seconds "$tup" -j 1 --quiet >> "$work/edit"
    done
    awk -v what="$1" -v n="$3" -v read="$(best read)" -v nothing="$(best nothing)" -v edit="$(best edit)" 'BEGIN {
        printf "| %s | %d | %s | %s | %.2f | %s | %.2f |\n", what, n, read, nothing, nothing / read, edit, edit / read
    }'
}

echo '| Shape | Folders | `reads.c` | Nothing to do | times that | After an edit of a source | times that |'
echo '|---|--:|--:|--:|--:|--:|--:|'
for number; do
    shape 'a Tupfile in each folder, the top takes what they make by name' named "$number"
    shape 'the same by a group' grouped "$number"
    shape 'a Tupfile in each folder' alone "$number"
    shape 'one Tupfile, what it makes in a folder of its own' one_for_all "$number"
    shape 'one Tupfile, what it makes beside the sources' one_beside "$number"
done
