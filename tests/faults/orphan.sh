#!/bin/sh
# A command that outlives its `tup`: `tup` is killed while the program that runs a command goes on, a source changes, and the next
# `tup` runs the command anew. Then the old program ends, and leaves what it wrote, and its log, by the path that it was told. What
# stands after a success has to be of the new source; and so if another command runs behind it at the same seat, or the old program
# keeps the folder of its stage as its working folder. Last, what a killed program left is removed, folders that let nobody in too.
# Words: the program. It ends with 1 where something else came, and says so.
set -u
. "$(dirname "$0")/../lib.sh"
tup=$(realpath "$1")
work=$(mktemp -d)
trap 'cd /; chmod -R u+rwx "$work"; rm -rf "$work"' EXIT
trap 'exit 1' INT TERM
failures=0
all=0

# Waits for a file.
await() {
    for _ in $(seq 400); do [ -e "$1" ] && return; sleep 0.05; done
    wrong "no $1 after 20 seconds"
}

# The program of a command. Each run reads the source at its beginning, and ends once it may. The first leaves all at its end, the
# others what they wrote at their beginning. It prints nothing, as that would kill it: who reads its pipe is dead. Word: where it
# writes, in terms of its own words.
program() {
    cat > ../program <<END
#!/bin/sh
exec > /dev/null 2>&1
here=\$PWD
read -r turn < "$work/turn"
source=\$(echo "\$4" | cut -d ' ' -f 2)
output=\$(echo "\$4" | cut -d ' ' -f 3)
cp "\$source" "$work/mine.\$turn.\$output"
stamp=\$(sha256sum < "\$source" | cut -c1-64)
stage=\$3
$1
[ \$turn = 1 ] || cp "\$here/\$source" "\$stage/w0"
: > "$work/begun.\$turn.\$output"
while [ ! -e "$work/go.\$turn.\$output" ]; do [ -d "$work" ] || exit; sleep 0.05; done
[ \$turn != 1 ] || cp "$work/mine.\$turn.\$output" "\$stage/w0"
printf 'R %s %s\nW 0 %s\nE 0\n' "\$stamp" "\$source" "\$output" > "\$stage/log"
: > "$work/ended.\$turn.\$output"
END
    chmod +x ../program
}

# A project of these rules, in a folder of its own.
begin() {
    all=$((all + 1))
    what=$1
    shift
    rm -rf "$work/p" "$work"/go.* "$work"/begun.* "$work"/ended.* && mkdir "$work/p" && cd "$work/p" || exit 1
    echo old > a
    echo other > d
    printf '%s\n' "$@" > Tupfile
    "$tup" init --proc "$work/program" > /dev/null
}

# Kills an update while the command of `b` runs, and begins the next one over a new source.
kill_and_begin_again() {
    echo 1 > ../turn
    "$tup" > ../one 2>&1 &
    one=$!
    await ../begun.1.b
    kill -9 $one
    wait $one 2> /dev/null
    echo new > a
    echo 2 > ../turn
    "$tup" > ../two 2>&1 &
    two=$!
    await ../begun.2.b
}

# The next update has ended well, and what stands is of the sources.
ends_well() {
    wait $two
    exit=$?
    [ $exit = 0 ] || wrong "exit $exit: $(cat ../two)"
    [ "$(cat b)" = new ] || wrong "b holds $(cat b) after: $(tail -1 ../two)"
    [ "$("$tup" | tail -1)" = 'done: 0 read, 0 run, 0 removed' ] || wrong 'the update behind it has something to do'
}

for way in 'by the path that it was told|' 'in the folder that it has as its working folder|cd "$3" || exit 1; stage=.'; do
    begin "a command that outlives its tup, and writes ${way%%|*}" ': a |> slow a b |> b'
    program "${way#*|}"
    kill_and_begin_again
    : > ../go.1.b
    await ../ended.1.b
    : > ../go.2.b
    ends_well
done

begin 'a command that outlives its tup, and ends while a later one runs' ': a |> slow a b |> b' ': d |> slow d c |> c'
program ''
kill_and_begin_again
: > ../go.2.b
await ../begun.2.c
: > ../go.1.b
await ../ended.1.b
: > ../go.2.c
ends_well
[ "$(cat c)" = other ] || wrong "c holds $(cat c)"

begin 'what older commands left' ': a |> slow a b |> b'
program ''
: > ../go.1.b
: > ../go.2.b
mkdir -p .tup/stage/up/closed .tup/stage/0/up
: > .tup/stage/up/closed/file
: > .tup/stage/own
: > .tup/stage/log
ln -s ../../a .tup/stage/link
chmod 0 .tup/stage/up/closed .tup/stage/up
echo 2 > ../turn
cp a ../before
echo new > a
"$tup" > ../two 2>&1 &
two=$!
ends_well
[ "$(ls .tup/stage | wc -l)" = 1 ] || wrong "in .tup/stage stands $(ls .tup/stage | tr '\n' ' ')"
[ "$(cat a)" = new ] || wrong 'a source went through a link'

if [ $failures -gt 0 ]; then
    echo "$failures of $all went wrong"
    exit 1
fi
echo "$all commands outlived their update, or left something: what stands is of the sources"
