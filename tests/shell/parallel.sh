#!/bin/sh
# Several commands at a time, which nothing else can show: that commands overlap, as many as were asked for and no more; that an
# update with several runners leaves the files of one with one, and tells the same lines in any order; that what waits burns no
# processor; that each command has a stage of its own; what happens when one fails or the program can't be started. Words: the
# program, and tup_sh (none: what needs it is passed over). And that what each command prints stands in one piece. It ends with 1
# where something else came, and says so.
set -u
. "$(dirname "$0")/../lib.sh"
tup=$(realpath "$1")
work=$(mktemp -d)
trap 'cd /; rm -rf "$work"' EXIT
trap 'exit 1' INT TERM
failures=0
all=0

# A project of these rules in a folder of its own, whose file `a` holds `hi`. Its commands are run by the program beside it.
begin() {
    all=$((all + 1))
    what=$1
    shift
    rm -rf "$work/p" "$work/seen" && mkdir "$work/p" "$work/seen" && cd "$work/p" || exit 1
    echo hi > a
    printf '%s\n' "$@" > Tupfile
    "$tup" init --proc "$work/program" > /dev/null
}

# The program of a command `COMMAND INPUT.. OUTPUT`: these lines, and then it writes all inputs to the output.
program() {
    printf '%s\n' '#!/bin/sh' 'root=$PWD stage=$3' "seen='$work/seen'" 'set -- $4; shift' 'inputs= ; while [ $# -gt 1 ]; do inputs="$inputs $1"; shift; done' \
        'output=$1' "$@" \
        'for input in $inputs; do printf "R %s %s\n" "$(sha256sum < "$input" | cut -c1-64)" "$input"; done > "$stage/log"' \
        'cat $inputs > "$stage/w0"; printf "W 0 %s\nE 0\n" "$output" >> "$stage/log"' > "$work/program"
    chmod +x "$work/program"
}

# Calls it with these words; it has to end with this number within so many seconds.
call() {
    status=$1 seconds=$2
    shift 2
    timeout "$seconds" "$tup" "$@" > ../told 2> ../said
    exit=$?
    [ $exit = "$status" ] || wrong "exit $exit: $(tail -1 ../told): $(cat ../said)"
}

last() { [ "$(tail -1 ../told)" = "$1" ] || wrong "it ends with $(tail -1 ../told): $(cat ../said)"; }

# Waits for a file, up to ten seconds.
wait_for='await() { for _ in $(seq 200); do [ -e "$1" ] && return; sleep 0.05; done; exit 1; }'

begin 'two commands that wait for each other' ': a |> x a b |> b' ': a |> x a c |> c'
program "$wait_for" ': > "$seen/$output"; await "$seen/b"; await "$seen/c"'
call 0 20 -j 2
last 'done: 1 read, 2 run, 0 removed'
[ "$(cat b c)" = "$(printf 'hi\nhi')" ] || wrong "b and c hold $(cat b c)"
call 0 20 -j 2
last 'done: 0 read, 0 run, 0 removed'
rm -r ../seen && mkdir ../seen && echo ho > a
call 8 60 -j 1
last 'fault: the runner failed'

# the first one ends after the second: the log has both begins before the ends
begin 'the log of two commands that wait for each other' ': a |> x a b |> b' ': a |> x a c |> c'
program "$wait_for" ': > "$seen/$output"; await "$seen/b"; await "$seen/c"; [ "$output" = c ] || await "$root/c"'
call 0 20 --log -j 2
log='read .;started .: x a b;started .: x a c;ended .: x a c: good;ended .: x a b: good;'
[ "$(tr '\n' ';' < ../said)" = "$log" ] || wrong "it logs $(tr '\n' ';' < ../said)"

# how many run at a time: each makes a file while it runs, and counts those of all, until one has counted so many
counting() {
    program 'mkdir "$seen/$output.now"' \
        "for _ in \$(seq 200); do ls \"\$seen\" | grep -c now\$ >> \"\$seen/count\"; grep -qx $1 \"\$seen/count\" && break; sleep 0.05; done" \
        'sleep 0.1; rmdir "$seen/$output.now"'
}
# So many ran at once, and never more.
counted() {
    most=$(sort -n ../seen/count | tail -1)
    [ "$most" = "$1" ] || wrong "$most ran at once"
}
twenty() {
    begin "$1" $(for i in $(seq 20); do printf ':_a_|>_x_a_b%s_|>_b%s\n' $i $i; done)
    sed -i 's/_/ /g' Tupfile
}
for jobs in 1 2 3 8 16; do
    twenty "$jobs at a time"
    counting $jobs
    call 0 60 -j $jobs
    last 'done: 1 read, 20 run, 0 removed'
    counted $jobs
    [ "$(grep -c '^run ' ../told)" = 20 ] || wrong "it tells $(grep -c '^run ' ../told) commands"
done
twenty 'four at a time where nothing is said'
counting 4
call 0 60
counted 4
for words in '-j 2' '-j2'; do
    twenty "two at a time where the options say $words"
    counting 2
    echo "$words" >> .tup/options
    call 0 60
    counted 2
    rm ../seen/count && echo ho > a
    counting 5
    call 0 60 -j 5
    counted 5
done

begin 'a stage for each' $(for i in $(seq 8); do printf ':_a_|>_x_a_b%s_|>_b%s\n' $i $i; done)
sed -i 's/_/ /g' Tupfile
program "$wait_for" 'echo "$stage" >> "$seen/stages"; ls "$stage" >> "$seen/left"; : > "$seen/$output"; for i in 1 2 3 4 5 6 7 8; do await "$seen/b$i"; done'
call 0 20 -j 8
[ "$(sort -u ../seen/stages | wc -l)" = 8 ] || wrong "the stages are $(sort -u ../seen/stages | tr '\n' ' ')"
[ "$(sort -u ../seen/left)" = own ] || wrong "a stage held $(sort -u ../seen/left | tr '\n' ' ')"
[ "$(cat b1 b2 b3 b4 b5 b6 b7 b8 | sort -u)" = hi ] || wrong 'an output holds something else'

# the producers of a rule have ended before it begins
begin 'a rule behind its producers' ': a |> x a b |> b' ': a |> x a c |> c' ': b c |> x b c d |> d' ': d |> x d e |> e' ': a |> x a f |> f'
program 'sleep 0.1; for input in $inputs; do [ "$input" = a ] || [ -e "$seen/$input" ] || : > "$seen/wrong"; done; : > "$seen/$output"'
call 0 20 -j 8
last 'done: 1 read, 5 run, 0 removed'
[ ! -e ../seen/wrong ] || wrong 'a rule ran before its producer had ended'
[ "$(cat e)" = "$(printf 'hi\nhi')" ] || wrong "e holds $(cat e)"

# a bad command: what runs beside it ends, and is kept; nothing more begins
begin 'a bad command' ': a |> x a b |> b' ': a |> x a c |> c' ': c |> x c d |> d' ': a |> x a e |> e'
program "$wait_for" ': > "$seen/$output"; [ $output != b ] || { await "$seen/c"; echo "E 3" > "$stage/log"; : > "$seen/bad"; exit; }; await "$seen/bad"; sleep 0.3'
call 1 20 -j 2
last 'fault: .: x a b: status 3'
[ "$(cat c)" = hi ] || wrong 'what ran beside it is not kept'
[ ! -e d ] && [ ! -e e ] || wrong 'something was begun behind it'
sed -i 1d Tupfile
call 0 20 -j 2
last 'done: 1 read, 2 run, 0 removed'

begin 'a program that is not there' ': a |> x a b |> b' ': a |> x a c |> c'
rm -f "$work/program"
call 8 20 -j 2
last 'fault: the runner failed'
[ "$(cat ../said)" = "tup: $work/program: the program couldn't be started" ] || wrong "it says $(cat ../said)"

begin 'a killed update' $(for i in $(seq 8); do printf ':_a_|>_x_a_b%s_|>_b%s\n' $i $i; done)
sed -i 's/_/ /g' Tupfile
program ': > "$seen/$output"; sleep 0.3'
"$tup" -j 4 > ../told 2>&1 &
one=$!
for _ in $(seq 200); do [ "$(ls ../seen | wc -l)" -ge 6 ] && break; sleep 0.02; done
kill -9 $one
wait $one 2> /dev/null
echo ho > a
call 0 20 -j 4
[ "$(cat b1 b2 b3 b4 b5 b6 b7 b8 | sort -u)" = ho ] || wrong 'an output holds something else'
call 0 20
last 'done: 0 read, 0 run, 0 removed'
[ "$(ls .tup/stage | wc -l)" -le 4 ] || wrong "in .tup/stage stands $(ls .tup/stage | tr '\n' ' ')"

# what commands print: of two that print half lines by turns, to both streams, each stands in one piece and in its order
said() { [ "$(cat ../said)" = "$1" ] || wrong "it says $(cat ../said)"; }
begin 'two commands that print by turns' ': a |> x a b |> b' ': a |> x a c |> c'
program "$wait_for" 'turn() { : > "$seen/$output.$1"; await "$seen/b.$1"; await "$seen/c.$1"; }' \
    'for n in 1 2 3; do printf "$output$n "; turn $n.1; printf "and " >&2; turn $n.2; done; printf "the end of $output"'
call 0 20 -j 2
[ "$(sort ../said)" = "$(printf '%s1 and %s2 and %s3 and the end of %s\n' b b b b c c c c)" ] || wrong "it says $(cat ../said)"
grep -q 'the end' ../told && wrong "it tells $(cat ../told)"
begin 'one after another' ': a |> x a b |> b'
program 'echo out; echo error >&2'
call 0 20 -j 1
said error
[ "$(head -n 1 ../told)" = out ] || wrong "it tells $(cat ../told)"
begin 'a stream that is opened anew' ': a |> x a b |> b'
program 'echo one; echo two > /dev/stderr; echo three > /dev/stdout; echo four >&2'
call 0 20
said "$(printf 'one\ntwo\nthree\nfour')"
begin 'a command that prints and fails' ': a |> x a b |> b'
program 'printf why; echo "E 3" > "$stage/log"; exit'
call 1 20 --verbose
said "$(printf '[1/1] .: x a b\n[1/1] .: x a b\nwhy\n.: x a b: status 3')"
begin 'a command that fails and prints nothing' ': a |> x a b |> b'
program 'echo "E 3" > "$stage/log"; exit'
call 1 20 --verbose
said "$(printf '[1/1] .: x a b\n.: x a b: status 3')"
begin 'a command that leaves something running' ': a |> x a b |> b'
program 'echo now; (sleep 30; echo late) &'
call 0 20
said now
# what goes on printing is cut off, and all that the command itself printed is kept
printing() {
    begin "a command that leaves running what prints $1" ': a |> x a b |> b'
    program "$2" 'echo $! > "$seen/left"; head -c 60000 /dev/zero | tr "\\0" b; echo; echo last'
    call 0 20
    kill "$(cat ../seen/left)" 2> /dev/null
    [ "$(tr -cd b < ../said | wc -c)" = 60000 ] || wrong "of what the command printed it says $(tr -cd b < ../said | wc -c) bytes"
    grep -q 'last$' ../said || wrong "it says none of the command's last words"
    [ "$(wc -c < ../said)" -lt "$3" ] || wrong "it says $(wc -c < ../said) bytes"
}
printing 'at times' '(while :; do echo x; sleep 0.05; done) &' 60200
printing 'without a pause' '(while :; do echo x; done) &' 50000000
begin 'commands that print 100 MB each' ': a |> x a b |> b' ': a |> x a c |> c'
program 'head -c 100000000 /dev/zero | tr "\\0" "$output"'
"$tup" -j 2 > ../told 2> ../said &
one=$!
most=0
while size=$(awk '/^VmHWM/ { print $2 }' /proc/$one/status 2> /dev/null) && [ -n "$size" ]; do most=$size; sleep 0.1; done
wait $one || wrong "exit $?: $(tail -1 ../told)"
[ "$most" -gt 0 ] && [ "$most" -lt 50000 ] || wrong "it took $most KB of memory"
[ "$(fold -w 10000 ../said | uniq -c | awk '{ print $1, length($2), substr($2, 1, 1) }' | sort -k 3 | paste -sd,)" = '10000 10000 b,10000 10000 c' ] || wrong "its $(wc -c < ../said) bytes aren't two pieces"

# what was printed so far is shown where an update is stopped, as Ctrl-C stops it, or is killed alone
so_far=$(printf 'tup was stopped. A command that ran had printed:\nso far')
stopped() {
    for _ in $(seq 100); do [ "$(cat ../said)" = "$so_far" ] && [ -z "$(find .tup/stage -name '*.printed')" ] && return; sleep 0.05; done
    wrong "it says $(cat ../said), and there is $(ls .tup/stage)"
}
begin 'an update that is stopped' ': a |> x a b |> b'
program 'echo so far; sleep 20'
timeout -s INT 3 "$tup" > ../told 2> ../said
stopped
begin 'an update that is killed alone' ': a |> x a b |> b'
program 'echo so far; : > "$seen/printed"; sleep 3'
"$tup" > ../told 2> ../said &
one=$!
for _ in $(seq 200); do [ -e ../seen/printed ] && break; sleep 0.02; done
sleep 0.3
kill -9 $one
wait $one 2> /dev/null
stopped

# what waits for a long command burns no processor: in hundredths of a second, of tup and all that it waited for. One worker that
# looked again and again would use 400.
begin 'workers that wait' ': a |> x a b |> b' ': b |> x b c |> c'
program 'sleep 2'
before=$(cut -d ' ' -f 14-17 /proc/$$/stat)
call 0 20 -j 8
after=$(cut -d ' ' -f 14-17 /proc/$$/stat)
used=$(echo "$before $after" | awk '{ print $7 + $8 - $3 - $4 }')
[ "$used" -le 100 ] || wrong "it used $used hundredths of a second of the processor"

# the small commands: 200 rules in layers, by one and by many
begin 'a wide project of small commands' ''
rm .tup/options
awk 'BEGIN { for (l = 1; l <= 10; l++) for (i = 1; i <= 20; i++) { p = (l == 1) ? "a" : "f" (l - 1) "_" i; printf ": %s |> cp %s f%d_%d |> f%d_%d\n", p, p, l, i, l, i } }' > Tupfile
call 0 120 -j 1
cp ../told ../one
find . -name 'f*' | sort | xargs cat > ../files
for jobs in 2 4 16; do
    find . -name 'f*' | xargs rm
    rm -r .tup && "$tup" init > /dev/null
    call 0 120 -j $jobs
    [ "$(sort ../told)" = "$(sort ../one)" ] || wrong "-j $jobs tells other lines than -j 1"
    find . -name 'f*' | sort | xargs cat | cmp -s - ../files || wrong "-j $jobs leaves other files than -j 1"
    call 0 120 verify
done

if [ $# -gt 1 ] && strace -o /dev/null true 2> /dev/null; then
    begin 'four commands that sleep a second' ': a |> sleep 1; cat a > b |> b' ': a |> sleep 1; cat a > c |> c' ': a |> sleep 1; cat a > d |> d' ': a |> sleep 1; cat a > e |> e'
    rm .tup/options
    before=$(date +%s%N)
    call 0 20 --proc "$(realpath "$2")" -j 4
    took=$((($(date +%s%N) - before) / 1000000))
    [ $took -lt 1600 ] || wrong "it took $took milliseconds"
    [ "$(cat b c d e | sort -u)" = hi ] || wrong 'an output holds something else'
else
    echo 'passed over: what needs tup_sh'
fi

if [ $failures -gt 0 ]; then
    echo "$failures things of $all were wrong"
    exit 1
fi
echo "$all things were tried with several commands at a time: all is as it has to be"
