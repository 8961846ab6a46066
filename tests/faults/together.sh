#!/bin/sh
# Two updates of one project at the same time, again and again. One may come after the other; else the second is told so
# and ends with 7 before it reads anything. Either way the files are those of a clean build, and no source is lost. Words:
# the program, and how often (none: fifty times). It ends with 1 where something else came. It is no part of the gate.
set -u
tup=$(realpath "$1")
times=${2:-50}
work=$(mktemp -d)
trap 'cd /; rm -rf "$work"' EXIT
trap 'exit 1' INT TERM
failures=0
refused=0

wrong() {
    failures=$((failures + 1))
    printf 'wrong: turn %s: %s\n' "$turn" "$1"
}

# What an update that was carried out says at its end, or what one says that was told of another.
ended() {
    case "$2 $(tail -1 "$work/$1") $(cat "$work/$1.said")" in
        '0 done: 1 read, 200 run, 0 removed ' | '0 done: 0 read, 0 run, 0 removed ') ;;
        '7 fault: the file tree or the store failed tup: lock .: another tup is at work here')
            refused=$((refused + 1))
            [ "$(wc -l < "$work/$1")" = 1 ] || wrong "the one that was told of another has done something"
            ;;
        *) wrong "exit $2: $(tail -1 "$work/$1"): $(cat "$work/$1.said")" ;;
    esac
}

turn=0
while [ "$turn" -lt "$times" ]; do
    turn=$((turn + 1))
    before=$refused
    mkdir "$work/$turn" && cd "$work/$turn" || exit 1
    printf 'hi\n' > a
    awk 'BEGIN { p = "a"; for (i = 1; i <= 200; i++) { printf ": %s |> cp %s f%d |> f%d\n", p, p, i, i; p = "f" i } }' > Tupfile
    "$tup" init > /dev/null || exit 1
    "$tup" > "$work/one" 2> "$work/one.said" &
    one=$!
    "$tup" > "$work/two" 2> "$work/two.said" &
    two=$!
    wait "$one"
    ended one $?
    wait "$two"
    ended two $?
    [ $((refused - before)) -lt 2 ] || wrong "both were told of another"
    [ "$(cat a)" = hi ] || wrong "the source is lost"
    [ "$(cat f* | sort | uniq -c | tr -s ' ')" = ' 200 hi' ] || wrong "the files aren't those of a clean build"
    [ "$(ls .tup)" = db ] || wrong "more than the store is left in .tup"
    cd "$work" && rm -rf "${work:?}/$turn"
done

[ "$refused" -gt 0 ] || wrong "none ever came while another was at work"
if [ "$failures" -gt 0 ]; then
    echo "$failures things went wrong in $times times"
    exit 1
fi
echo "$times times two at once: $refused ended because of the other, all else was done"
