#!/bin/sh
# What grows with the product of two numbers in a project, or did: patterns of one Tupfile, each after as many rules; files that are
# named out of a folder of as many rules; inputs that a command declares and asks for, all of them made by rules; rules that wait for
# others over one that isn't run. Each once: seconds of a processor, and the most memory it had (13 MB or so are those of the process
# that begins it). Words: the program, and numbers (none: 1000 2000 4000). It is no part of the gate.
set -eu
tup=$(realpath "$1")
shift
if [ $# -eq 0 ]; then set -- 1000 2000 4000; fi
work=$(mktemp -d "${WORK:-/dev/shm}/figures.XXXXXX")
trap 'cd /; rm -rf "$work"' EXIT

# begin FOLDER..: an empty project with these folders.
begin() {
    rm -rf "$work/project" && mkdir "$work/project" && cd "$work/project"
    for folder; do mkdir "$folder"; done
    "$tup" init --no-sync > /dev/null
}

# rules N FORM: a rule for each number below N, in which # stands for it.
rules() {
    awk -v n="$1" -v form="$2" 'BEGIN { for (i = 0; i < n; i++) { line = form; gsub("#", i, line); print line } }'
}

# sources FOLDER NAME N TEXT: so many files with this text.
sources() {
    awk -v f="$1/$2" -v n="$3" -v text="$4" 'BEGIN { for (i = 0; i < n; i++) { print text > (f i); close(f i) } }'
}

# cost WHAT NUMBER WORDS..: a row of the table.
cost() {
    python3 -c 'if 1:
        import os, subprocess, sys
        run = subprocess.Popen(sys.argv[3:], stdout=subprocess.DEVNULL)
        _, status, used = os.wait4(run.pid, 0)
        if status != 0: sys.exit(1)
        print("| %s | %s | %.2f | %d |" % (sys.argv[1], sys.argv[2], used.ru_utime + used.ru_stime, used.ru_maxrss / 1024))' "$@"
}

echo "| What | Number | Seconds of a processor | MB at most |"
echo "|---|--:|--:|--:|"
for number; do
    begin
    echo a > a.c
    rules "$number" ': *.c |> cp a.c o# |> o#' > Tupfile
    cost "reading patterns, each after as many rules" "$number" "$tup" todo
done
for number; do
    begin a b
    rules "$number" ': |> echo x > o# |> o#' > a/Tupfile
    rules "$number" ': ../a/o# |> cp %f x# |> x#' > b/Tupfile
    cost "reading names of files that as many rules of another folder make" "$number" "$tup" todo
done
for number; do
    begin a b
    rules "$number" ': |> echo x > g# |> g#' > a/Tupfile
    echo ': ../a/g* |> cat h %f > all |> all' > b/Tupfile
    echo 1 > b/h
    "$tup" -j 1 --quiet > /dev/null
    cost "nothing to do" "$number" "$tup" -j 1 --quiet
    echo 12 > b/h
    cost "one command, which asks for as many declared inputs" "$number" "$tup" -j 1 --quiet
done
for number; do
    begin a b c
    rules "$number" ': s# |> cp s# p# |> p#' > a/Tupfile
    echo ': ../a/p* |> echo done > stamp |> stamp' > b/Tupfile
    rules "$((number / 2))" ': t# ../b/stamp |> cp t# r# |> r#' > c/Tupfile
    sources a s "$number" 1
    sources c t "$((number / 2))" 1
    cost "as many rules, one that declares their outputs, and half as many that declare its output" "$number" "$tup" -j 1 --quiet
    sources a s "$number" 12
    sources c t "$((number / 2))" 12
    cost "the same once more, without the one between" "$number" "$tup" -j 1 --quiet
done
