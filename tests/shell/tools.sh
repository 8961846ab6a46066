#!/bin/sh
# Other tools beside tup, over the program in C of examples/clangd: compile_commands.json as python3 and clangd read it, and
# distcc, which has a daemon of this machine compile. Words: tup and tup_sh. It ends with 1 where something else came than
# what has to, and says so.
set -u
tup=$(realpath "$1")
sh=$(realpath "$2")
example=$(realpath "$(dirname "$0")/../../examples/clangd")
has() { command -v "$1" > /dev/null; }
if ! strace -o /dev/null true 2> /dev/null; then
    echo "passed over: there is no strace, or it may not trace"
    exit 0
fi
if ! has cc; then
    echo "passed over: there is no C compiler"
    exit 0
fi
export LC_ALL=C
work=$(mktemp -d ${WORK:-/tmp}/tools.XXXXXX)
daemon=
trap 'cd /; [ -z "$daemon" ] || kill "$daemon"; rm -rf "$work"' EXIT
trap 'exit 1' INT TERM
failures=0
updates=0

wrong() {
    failures=$((failures + 1))
    printf 'wrong: %s: %s\n' "$step" "$1"
}

# update STEP STATUS LINES: an update by one runner, so that its lines have one order; its exit number, and its lines with commas
# between them.
update() {
    step=$1
    updates=$((updates + 1))
    timeout 300 "$tup" upd --proc "$sh" -j 1 > "$work/out" 2> "$work/err"
    status=$?
    [ $status = "$2" ] || wrong "exit number $status, wanted $2: $(cat "$work/err")"
    lines=$(sed 's/^done: \([0-9]*\) read, \([0-9]*\) run, \([0-9]*\) removed$/done \1 \2 \3/' "$work/out" | paste -sd,)
    [ "$lines" = "$3" ] || wrong "its lines are $lines, wanted $3"
}

# told TEXT: what was said on standard error.
told() {
    grep -q -- "$1" "$work/err" || wrong "it didn't say: $1: $(cat "$work/err")"
}

# greets TEXT: what the program that was built prints first.
greets() {
    said=$(./greet | head -n 1)
    [ "$said" = "$1" ] || wrong "it prints '$said', wanted '$1'"
}

# project: a new one.
project() {
    rm -rf "$work/project" && cp -r "$example" "$work/project" && cd "$work/project" && "$tup" init > /dev/null || exit 1
}

# -- compile_commands.json
# entries PATHS: the sources that it names, with commas between them. Each is compiled with the words that it gives, in the
# folder that it gives.
entries() {
    has python3 || return
    said=$(python3 -c '
import json, os, subprocess
paths = []
for entry in json.load(open("compile_commands.json")):
    assert os.path.isabs(entry["directory"])
    subprocess.run(entry["arguments"] + ["-fsyntax-only"], cwd=entry["directory"], check=True)
    paths.append(os.path.relpath(os.path.join(entry["directory"], entry["file"])))
print(",".join(paths))' 2>&1)
    [ "$said" = "$1" ] || wrong "compile_commands.json names $said, wanted $1"
}

# checked FILE: clangd reads this file without errors, and as compile_commands.json says.
checked() {
    has clangd || return
    clangd --check="$1" > "$work/said" 2>&1 || wrong "clangd: $(cat "$work/said")"
    grep -q 'Compile command from CDB is: .*-I../inc' "$work/said" || wrong "clangd doesn't find how $1 is compiled"
}

has python3 || echo "passed over: there is no python3, so nothing reads compile_commands.json as JSON"
has clangd || echo "passed over: there is no clangd"
built='run lib: CC bye.c,run lib: CC hello.c,run lib: ENTRIES,run src: CC main.c,run .: LINK greet,run src: ENTRIES,run .: JOIN compile_commands.json'
project
update 'as it is' 0 "read .,read lib,read src,$built,done 3 7 0"
greets 'Hello from version 1.2'
entries lib/bye.c,lib/hello.c,src/main.c
checked src/main.c
checked inc/words.h
sed -i 's/Hello/Good day/' inc/words.h
update 'a header is edited' 0 'run src: CC main.c,run .: LINK greet,done 0 2 0'
greets 'Good day from version 1.2'
echo 'const char *more = TEXT;' > lib/more.c
cat > "$work/flag" << 'END'
CFLAGS += '-DTEXT="a, \"b\" \\ $c"'
END
sed -i "/^CFLAGS/r $work/flag" Tuprules.tup
update 'a source is added, and a flag with quotes' 0 "read .,read lib,read src,$(echo "$built" | sed 's/run lib: ENTRIES/run lib: CC more.c,&/'),done 3 8 0"
entries lib/bye.c,lib/hello.c,lib/more.c,src/main.c
rm lib/more.c
update 'it is removed' 0 'read lib,remove lib/more.o,run .: LINK greet,run lib: ENTRIES,run .: JOIN compile_commands.json,done 1 3 1'
entries lib/bye.c,lib/hello.c,src/main.c
mv "$work/project" "$work/moved" && cd "$work/moved" || exit 1
update 'the project is moved' 0 'done 0 0 0'
rm lib/entries.json src/entries.json
update 'and what names its folder is taken away' 0 'run lib: ENTRIES,run src: ENTRIES,run .: JOIN compile_commands.json,done 0 3 0'
entries lib/bye.c,lib/hello.c,src/main.c

# -- distcc
# summary: ends the script.
summary() {
    printf '%s updates, %s wrong\n' "$updates" "$failures"
    [ "$failures" = 0 ]
    exit
}

if ! has distcc || ! has distccd; then
    echo "passed over: there is no distcc"
    summary
fi
# Its client: no host but that daemon, no compile here where that fails, and a second without a host that failed. (With a
# period of 0 it tries a host that isn't there for ever.)
export DISTCC_DIR="$work/client" DISTCC_HOSTS="127.0.0.1:$((20000 + $$ % 12000))" DISTCC_FALLBACK=0 DISTCC_BACKOFF_PERIOD=1
mkdir "$DISTCC_DIR"
# A session of its own, since it sends the signal that ends it to all of its group.
setsid distccd --no-detach --daemon --user nobody --listen 127.0.0.1 --allow 127.0.0.1 --port "${DISTCC_HOSTS#*:}" --log-stderr \
    --log-level info > "$work/daemon" 2>&1 &
daemon=$!
echo 'int probe;' > "$work/probe.c"
step='a compile without tup'
for moment in 1 2 3 4 5 6 7 8 9 10; do
    sleep 0.5
    distcc cc -c "$work/probe.c" -o "$work/probe.o" 2> "$work/err" && break
done
if [ ! -e "$work/probe.o" ]; then
    echo "passed over: distcc compiles nothing here: $(cat "$work/err" "$work/daemon")"
    summary
fi

# compiled SOURCES: what the daemon compiled since this was asked the last time, with commas between them.
compiled() {
    said=$(sed -n 's/.* COMPILE_OK .* //p' "$work/daemon" | tail -n "+$((counted + 1))" | sort | paste -sd,)
    counted=$(grep -c ' COMPILE_OK ' "$work/daemon")
    [ "$said" = "$1" ] || wrong "the daemon compiled $said, wanted $1"
}
counted=1

project
update 'compiled here' 0 "read .,read lib,read src,$built,done 3 7 0"
objects=$(sha256sum lib/*.o src/*.o)
compiled ''
echo 'CONFIG_CC=distcc cc' > tup.config
update 'compiled there' 0 "read .,read lib,read src,$built,done 3 7 0"
compiled bye.c,hello.c,main.c
[ "$(sha256sum lib/*.o src/*.o)" = "$objects" ] || wrong 'the objects differ'
greets 'Hello from version 1.2'
entries_named=$(python3 -c 'import json; print(*json.load(open("compile_commands.json"))[0]["arguments"][:2])' 2> /dev/null)
[ "$entries_named" = 'distcc cc' ] || ! has python3 || wrong "compile_commands.json has $entries_named"
checked src/main.c
sed -i 's/Hello/Good day/' inc/words.h
update 'a header is edited that no rule names' 0 'run src: CC main.c,run .: LINK greet,done 0 2 0'
compiled main.c
greets 'Good day from version 1.2'
DISTCC_HOSTS="$DISTCC_HOSTS/2" update 'other hosts in the environment' 0 'done 0 0 0'

compile="distcc cc -Wall -I../inc -DVERSION='\"1.2\"' -c main.c -o main.o"
sed -i '1i #include "made.h"' src/main.c
sed -i '1a : |> echo "#define MADE 1" > %o |> made.h' src/Tupfile
update 'a made header is read and not named' 1 "read src,run src: echo \"#define MADE 1\" > made.h,bad src: CC main.c,fault: src: $compile: reads made.h"
sed -i 's/foreach \*.c/& | made.h/' src/Tupfile
update 'it is named' 0 'read src,run src: CC main.c,run .: LINK greet,done 1 2 0'
sed -i 's/return 0;/return 0/' src/main.c
update 'an error of the compiler' 1 "bad src: CC main.c,fault: src: $compile: status 1"
told 'error: expected'
sleep 2
sed -i 's/return 0/return 0;/' src/main.c
update 'its repair' 0 'run src: CC main.c,run .: LINK greet,done 0 2 0'

# Several compiles in one rule.
mkdir "$work/several" && cd "$work/several" && "$tup" init > /dev/null || exit 1
for name in a b c; do echo "int $name;" > $name.c; done
cat > Tupfile << 'END'
: a.c b.c c.c |> ^ CC^ printf '%%s\n' %B | xargs -P 3 -I{} distcc cc -c {}.c -o {}.o |> a.o b.o c.o
END
several="printf '%s\\n' a b c | xargs -P 3 -I{} distcc cc -c {}.c -o {}.o"
compiled main.c,main.c,main.c
update 'three compiles in one rule' 0 "read .,run .: CC,done 1 1 0"
compiled a.c,b.c,c.c

# Without the daemon.
kill "$daemon"
wait "$daemon" 2> /dev/null
daemon=
echo 'int a2;' > a.c
objects=$(sha256sum ?.o)
update 'no daemon' 1 "bad .: CC,fault: .: $several: status 123"
told 'failed to distribute and fallbacks are disabled'
[ "$(sha256sum ?.o)" = "$objects" ] || wrong 'the objects are others'
DISTCC_FALLBACK=1 update 'no daemon, but it may be compiled here' 0 "run .: CC,done 0 1 0"
[ "$(sha256sum ?.o)" = "$objects" ] && wrong 'the objects are the old ones'
summary
