#!/bin/sh
# Real programs through tup, its commands under tup_sh: the library and the program in C of examples/c, as they are, with headers
# that are edited, deleted and found elsewhere, and with rules that don't say what they read and write; then commands that
# would harm the sources, fail, are killed or leave something running. Words: tup and tup_sh. It ends with 1 where something
# else came than what has to, and says so.
set -u
tup=$(realpath "$1")
sh=$(realpath "$2")
example=$(realpath "$(dirname "$0")/../../examples/c")
if ! strace -o /dev/null true 2> /dev/null; then
    echo "passed over: there is no strace, or it may not trace"
    exit 0
fi
if ! command -v cc > /dev/null || ! command -v ar > /dev/null; then
    echo "passed over: there is no C compiler"
    exit 0
fi
export LC_ALL=C
work=$(mktemp -d ${WORK:-/tmp}/c-example.XXXXXX)
trap 'cd /; rm -rf "$work"' EXIT
trap 'exit 1' INT TERM
failures=0
updates=0

wrong() {
    failures=$((failures + 1))
    printf 'wrong: %s: %s\n' "$step" "$1"
}

# What stands in the project, hidden names too, but for what was made and what tup keeps: kinds, modes, names, contents.
sources() {
    find . \( -name .tup -prune \) -o \( -name obj -o -name '*.o' -o -name '*.a' -o -name greet -o -name version.h -o -name size.h -o -name made \) -prune \
        -o -printf '%y %m %p %l\n' -type f -exec sha256sum {} + | sort
}

# update STEP STATUS LINE: an update, its exit number and its last line, or `done` where its numbers are free. No source may
# change.
update() {
    step=$1
    updates=$((updates + 1))
    before=$(sources)
    ${user:-} timeout 100 "$tup" upd --proc "$sh" > "$work/out" 2> "$work/err"
    status=$?
    [ $status = "$2" ] || wrong "exit number $status, wanted $2: $(cat "$work/err")"
    last=$(tail -n 1 "$work/out")
    [ "$last" = "$3" ] || [ "${last%%:*} $3" = 'done done' ] || wrong "its last line is '$last', wanted '$3'"
    [ "$(sources)" = "$before" ] || wrong "a source changed"
}

# greets TEXT: what the program that was built prints first.
greets() {
    said=$(src/greet | head -n 1)
    [ "$said" = "$1" ] || wrong "it prints '$said', wanted '$1'"
}

# told TEXT: what a command said on standard error.
told() {
    grep -q "$1" "$work/err" || wrong "it didn't say: $1"
}

compile='cc -Wall -I../lib -c main.c -o obj/main.o'
cp -r "$example" "$work/project" && cd "$work/project" && "$tup" init > /dev/null || exit 1
update 'as it is' 0 'done: 2 read, 6 run, 0 removed'
greets 'Hello from version 1.2'

# -- headers that no rule names
sed -i 's/Hello/Good day/' lib/words.h
update 'a header is edited' 0 'done: 0 read, 2 run, 0 removed'
greets 'Good day from version 1.2'
echo '#define GREETING "Good morning"' > src/words.h
update 'another of its name is found earlier on the include path' 0 'done: 1 read, 2 run, 0 removed'
greets 'Good morning from version 1.2'
rm lib/words.h
update 'the one behind it is deleted' 0 'done: 1 read, 0 run, 0 removed'
greets 'Good morning from version 1.2'
rm src/words.h
update 'a header is deleted' 1 "fault: src: $compile: status 1"
told 'words.h: No such file'
mkdir src/more && cp "$example/lib/words.h" src/more
sed -i 's/-I/-Imore -I/' src/Tupfile
update 'one of its name is found elsewhere' 0 'done: 1 read, 2 run, 0 removed'
greets 'Hello from version 1.2'
rm -r src/more && cp "$example/src/Tupfile" src && cp "$example/lib/words.h" lib
update 'it is put back' 0 'done: 2 read, 2 run, 0 removed'

# -- a header that a rule makes has to be named
sed -i 's/ | version.h//' src/Tupfile
update 'a made header is read and not named' 1 "fault: src: $compile: reads version.h"
cp "$example/src/Tupfile" src
echo ': |> echo "#define SIZE 3" > %o |> size.h' >> lib/Tupfile
sed -i '1i #include "size.h"' src/main.c
update 'one of another folder' 1 "fault: src: $compile: reads ../lib/size.h"
sed -i 's/ | version.h/& ..\/lib\/size.h/' src/Tupfile
update 'it is named' 0 'done: 1 read, 2 run, 0 removed'
cp "$example/src/Tupfile" "$example/src/main.c" src && cp "$example/lib/Tupfile" lib
update 'its rule vanishes' 0 'done: 2 read, 2 run, 1 removed'

# -- what a command writes has to be named
sed -i 's/-c %f -o %o/& \&\& echo x > extra/' src/Tupfile
update 'a file is written and not named' 1 "fault: src: $compile && echo x > extra: writes extra"
[ -e src/extra ] && wrong 'extra is there'
sed -i 's/ && echo x > extra/; echo x >> ..\/lib\/hello.c/' src/Tupfile
update 'a source is written' 1 "fault: src: $compile; echo x >> ../lib/hello.c: writes ../lib/hello.c"
cp "$example/src/Tupfile" src
update 'at the end' 0 'done: 1 read, 2 run, 0 removed'
update 'once more' 0 'done: 0 read, 0 run, 0 removed'
greets 'Hello from version 1.2'
cmp -s lib/hello.c "$example/lib/hello.c" || wrong 'hello.c was changed'

# one_rule TEXT: a project of a few sources whose one rule has this command and the output `made`.
one_rule() {
    rm -rf "$work/commands" && mkdir -p "$work/commands/src/sub" && cd "$work/commands" && "$tup" init > /dev/null || exit 1
    echo a > src/a && echo b > src/b && echo s > src/sub/s && echo o > source && echo h > .hidden && chmod 600 src/b && ln -s a src/ln
    printf 'int main(void) { return 0 }\n' > src/wrong.c
    printf ': a |> %s |> made\n' "$1" > src/Tupfile
}

# command STEP STATUS LAST TEXT: the update of such a project.
command() {
    one_rule "$4"
    update "$1" "$2" "$3"
}

# -- commands that would harm the sources, fail, are killed or leave something running
bad() { command "$1" 1 "fault: src: $2: $3" "$2"; [ -e src/made ] && wrong 'made is there'; }
bad 'all files are removed' 'rm -rf *' 'writes Tupfile'
bad 'all files of the project are removed' 'rm -rf ../* ../.h*' 'writes ../source'
bad 'a source above is written' 'echo x > ../source' 'writes ../source'
bad 'a source is moved' 'mv a made' 'writes a'
bad 'a source is edited in place' 'sed -i s/b/B/ b && cp b made' 'writes b'
bad 'a syntax error' 'gcc -c wrong.c -o made' 'status 1'
told 'error: expected'
bad 'a signal that nothing keeps off' 'echo x > made; kill -9 $$' 'status 137'
bad 'another signal' 'kill -TERM $$' 'status 143'
bad 'a program that is killed' 'sh -c '\''kill -SEGV $$'\' 'status 139'
bad 'a program that is not there' './none > made' 'status 127'
command 'a daemon that outlives its command' 0 'done: 1 read, 1 run, 0 removed' \
    '(setsid sh -c "sleep 2; echo late > late; echo late > made; echo late > a" &) ; echo now > made'
sleep 3
[ "$(cat src/made)" = now ] || wrong 'made holds something else'
[ -e src/late ] && wrong 'late is there'
[ "$(cat src/a)" = a ] || wrong 'a was changed'
command 'one that holds its streams open' 0 'done: 1 read, 1 run, 0 removed' 'sleep 1000 & echo now > made'
command 'permissions are changed' 0 'done: 1 read, 1 run, 0 removed' 'chmod 777 a b ../source && cp a made'

# -- updates that are stopped, as Ctrl-C stops one: to all that they started the signal comes. The next one is done
# How long a command sleeps: so long as no other process of the machine does.
nap=$((100000 + $$))
# stopped SIGNAL TEXT: this update is stopped after a second, and its command then mended.
stopped() {
    one_rule "$2"
    if [ -n "$user" ]; then chown -R 65534:65534 .; fi
    step="stopped by $1${user:+ and not by root}: $2"
    before=$(sources)
    $user timeout -s "$1" 1 "$tup" upd --proc "$sh" > "$work/out" 2> "$work/err"
    [ "$(sources)" = "$before" ] || wrong 'a source changed'
    [ -e src/made ] && wrong 'made is there'
    sleep 1
    pgrep -f "sleep $nap" > /dev/null && wrong 'its command is still at work'
    printf ': a |> cp a made |> made\n' > src/Tupfile
    update "behind one that was $step" 0 'done: 1 read, 1 run, 0 removed'
    [ "$(ls .tup)" = "$(printf 'db\nmark\nstage')" ] || wrong "more is left in .tup: $(ls .tup)"
}
# at_moments SIGNAL: the program in C, its update stopped at ten moments.
at_moments() {
    rm -rf "$work/project" && cp -r "$example" "$work/project" && cd "$work/project" && "$tup" init > /dev/null || exit 1
    if [ -n "$user" ]; then chown -R 65534:65534 .; fi
    for moment in 0.02 0.05 0.1 0.15 0.2 0.25 0.3 0.35 0.4 0.5; do
        echo "// $moment" >> lib/bye.c
        $user timeout -s "$1" $moment "$tup" upd --proc "$sh" > "$work/out" 2> "$work/err"
        flock . true # until it has let go of the project
        update "behind one that was stopped by $1 at $moment${user:+ and not by root}" 0 done
        greets 'Hello from version 1.2'
    done
}
all_stopped() {
    for signal in INT TERM KILL; do
        stopped $signal "echo x > made; echo x > a; rm b; mv sub other; sleep $nap"
    done
    stopped INT "mkdir dir && echo x > dir/x && chmod 555 dir && sleep $nap"
    stopped KILL "mkdir dir && echo x > dir/x && chmod 555 dir && sleep $nap"
    at_moments INT
    at_moments KILL
}
user=
all_stopped
if [ "$(id -u)" = 0 ]; then
    chmod 755 "$work" && cp "$tup" "$work/tup" && cp "$sh" "$work/tup_sh" && chmod 755 "$work/tup" "$work/tup_sh"
    tup=$work/tup sh=$work/tup_sh user='setpriv --reuid 65534 --regid 65534 --clear-groups'
    all_stopped
fi

printf '%s updates, %s wrong\n' "$updates" "$failures"
[ "$failures" = 0 ]
