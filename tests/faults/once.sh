#!/bin/sh
# A project that syncs once an update, at its edges: the words that ask for it, what it prints and when, its exit numbers, and what
# it says of an epoch's file that no kill and no cut of power leaves. Cuts of power are played by power.py. Where calls are traced
# the update has one runner. Word: the program. It ends with 1 where something else came. It is no part of the gate.
set -u
tup=$(realpath "$1")
if ! strace -o /dev/null true 2> /dev/null; then
    echo "passed over: there is no strace, or it may not trace"
    exit 0
fi
work=$(mktemp -d)
trap 'cd /; rm -rf "$work"' EXIT
failures=0
count=0

project() {
    count=$((count + 1))
    mkdir "$work/$count" && cd "$work/$count" || exit 1
    printf 'hi\n' > a
    printf '%s\n' ': a |> cp a b |> b' ': b |> cp b c |> c' > Tupfile
    "$tup" init --sync-once > /dev/null || exit 1
}

same() {
    if [ "$2" = "$3" ]; then return; fi
    failures=$((failures + 1))
    printf 'differs: %s\n  wanted: %s\n  found:  %s\n' "$1" "$3" "$2"
}

# What an update prints, in one line, with its exit number before.
update() {
    "$tup" -j 1 > "$work/told" 2> "$work/said"
    printf '%s %s' "$?" "$(tr '\n' ';' < "$work/told")$(tr '\n' ';' < "$work/said")"
}
good='0 read .;run .: cp a b;run .: cp b c;done: 1 read, 2 run, 0 removed;'
nothing='0 done: 0 read, 0 run, 0 removed;'
own() { ls .tup | grep -v '^stamps$' | tr '\n' ' '; }

# An update that is killed when the epoch is to end.
stopped() {
    strace -o /dev/null -P ./.tup/epoch -e trace=unlink -e inject=unlink:error=EIO:signal=KILL "$tup" -j 1 > "$work/told" 2> "$work/said"
    same "a stopped update" "$? $(cat "$work/told") $(own)" '137  db epoch options '
}

# The words.
project
same "its options" "$(cat .tup/options)" --sync-once
mkdir "$work/words" && cd "$work/words" || exit 1
same "the word twice" "$("$tup" init --sync-once --sync-once 2> /dev/null)" 'fault: usage, word 3'
same "both words" "$("$tup" init --no-sync --sync-once 2> /dev/null)" 'fault: usage, word 3'
cd "$work/1" || exit 1
printf '%s\n' --sync-once --no-sync > .tup/options
same "both in a file" "$(update)" '2 tup: .tup/options: --no-sync and --sync-once;'
printf '%s\n' --sync-once --sync-once > .tup/options
same "twice in a file" "$(update)" '2 tup: .tup/options: a second --sync-once;'

# It prints once all is durable, and asks for no sync between the beginning of the epoch and its end.
project
strace -y -o "$work/trace" "$tup" -j 1 > "$work/told"
same "an update" "$? $(tr '\n' ';' < "$work/told")" "$good"
same "the order of its calls" "$(awk '
    /^rename\("\.\/\.tup\/epoch\.new"/ { print "begins" }
    /^openat\(.*"\.\/[bc]", .*O_CREAT/ { print "puts" }
    /^f(data)?sync\(/ { if (!/\.tup|\/[0-9]+>/) print "syncs" }
    /^unlink\("\.\/\.tup\/epoch"/ { print "ends" }
    /^write\(1</ { print "prints" }' "$work/trace" | tr '\n' ' ')" 'begins puts puts syncs syncs ends prints '
same "nothing to do" "$(update) $(own)" "$nothing db options "

# Its exit numbers: a bad command, an output that can't be written, a sync that fails at the end.
project
printf '%s\n' ': a |> cp a b |> b' ': b |> fail 3 |> c' > Tupfile
same "a bad command" "$(update | sed 's/;fault.*//') $(own)" '1 read .;run .: cp a b;bad .: fail 3 db options '
project
"$tup" -j 1 > /dev/full 2> "$work/said"
same "an output that is full" "$? $(own)" '9 db options '
same "and what comes next" "$(update)" "$nothing"
project
strace -y -o "$work/trace" -e trace=fsync "$tup" -j 1 > /dev/null
number=$(grep -n '/b>)' "$work/trace" | head -1 | cut -d: -f1)
project
strace -o /dev/null -e trace=fsync -e inject=fsync:error=EIO:when="$number" "$tup" -j 1 > "$work/told" 2> "$work/said"
same "a sync that fails at the end" "$? $(tr '\n' ';' < "$work/told")$(cat "$work/said") $(own)" \
    '7 read .;run .: cp a b;run .: cp b c;fault: the file tree or the store failed;tup: sync ./b: Input/output error (os error 5) db epoch options '
same "and what comes next" "$(update) $(own)" "$nothing db options "

# An epoch that is found: by an update, a list, a comparison, a beginning; with the option taken out; of another store.
project && stopped
same "an update finds it" "$(update) $(own)" "$nothing db options "
for word in todo verify; do
    project && stopped
    "$tup" $word > "$work/told" 2>&1
    same "$word finds it" "$? $(own)" '0 db options '
done
project && stopped
: > .tup/options
same "the option is taken out" "$(update) $(own)" "$nothing db options "
project && stopped
rm .tup/db b c
same "the store is removed" "$("$tup" init) $(own)" 'initialized db options '
project && stopped
cp .tup/epoch "$work/epoch"
project
"$tup" > /dev/null
cp "$work/epoch" .tup/epoch
printf 'ho\n' > a
"$tup" > /dev/null
cp "$work/epoch" .tup/epoch
same "of the same store before it went on" "$(update | cut -c1-2) $(cat b c | tr '\n' ' ')$(own)" '0  ho ho db options '
project
printf '%s\n' ': a |> cat a > b |> b' > Tupfile
"$tup" > /dev/null
cp "$work/epoch" .tup/epoch
same "of another store" "$(update) $(own)" "$nothing db options "

# Files that no cut leaves.
project && stopped
printf 'x' | dd of=.tup/epoch bs=1 seek=9 conv=notrunc 2> /dev/null
same "a broken head" "$(update | tail -c 120)" "7 fault: the file tree or the store failed;tup: read ./.tup/epoch: it isn't whole;"
: > .tup/epoch
same "an empty one" "$(update | tail -c 120)" "7 fault: the file tree or the store failed;tup: read ./.tup/epoch: it isn't whole;"
rm .tup/epoch && ln -s ../a .tup/epoch
same "a link" "$(update)" '7 fault: the file tree or the store failed;tup: look at ./.tup/epoch: a link or a special file stands here;'
same "what it leads to" "$(cat a)" hi

# A file system without locks: each rule is synced, and an epoch that is found is a failure.
project
strace -f -y -o "$work/trace" -e trace=flock,fsync,fdatasync,rename -e inject=flock:error=ENOSYS "$tup" -j 1 > "$work/told" 2>&1
same "without locks" "$? $(tr '\n' ';' < "$work/told") $(grep -c 'epoch' "$work/trace")" "$good 0"
project && stopped
strace -o /dev/null -e trace=flock -e inject=flock:error=ENOSYS "$tup" -j 1 > "$work/told" 2>&1
same "an epoch without locks" "$? $(tr '\n' ';' < "$work/told")" \
    '7 fault: the file tree or the store failed;tup: lock ./.tup/epoch: an epoch is open where the file system knows no locks;'

if [ "$failures" -gt 0 ]; then
    exit 1
fi
echo "$count projects that sync once an update"
