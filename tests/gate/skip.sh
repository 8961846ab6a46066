#!/bin/sh
# What an update skips, as a user meets it: runs the program given as the first word over small projects, each in a new
# folder, edits them, and compares the lines of each next update, its exit number and the files with what they have to be. After
# each row the update is tried once more: it reads and runs nothing, and writes nothing. It ends with 1 where something differs.
# What needs strace is passed over where that isn't there or may not trace.
set -u
. "$(dirname "$0")/../lib.sh"
tup=$(realpath "$1")
work=$(mktemp -d)
trap 'cd /; rm -rf "$work"' EXIT
# Where there is a C compiler the program's clock is an hour slow. So each file is too young to be noted in `.tup/stamps`, and that an
# update with nothing to do writes nothing holds also where a minute passes between two rows.
if cc -shared -fPIC -O1 -o "$work/clock.so" "$(dirname "$0")/../faults/clock.c" 2> /dev/null; then
    export LD_PRELOAD="$work/clock.so" CLOCK_AHEAD=-3600
fi
failures=0
count=0

# Begins a project in a new folder, whose file `a` holds `hi`, with a Tupfile of the lines that are given.
project() {
    count=$((count + 1))
    mkdir "$work/$count" && cd "$work/$count" || exit 1
    printf 'hi\n' > a
    rules "$@"
    "$tup" init > /dev/null || exit 1
}

# The Tupfile has these lines from now on.
rules() { if [ $# -gt 0 ]; then printf '%s\n' "$@" > Tupfile; fi; }

# What the next row's standard error says: of a fault of a Tupfile, the file and the line that it is about.
says=

# Runs the program with words: the row's name, its exit number, its lines with a semicolon behind each, the words.
row() {
    name=$1 status=$2 lines=$3
    shift 3
    # One command after another: else the lines of rules that don't need each other come in any order.
    case "$status ${1-upd}" in
        '2 '* | *' --help' | *' --version') ;;
        *' upd' | *' -'*) set -- "$@" -j 1 ;;
    esac
    found=$("$tup" "$@" 2> "$work/said"; printf 'exit %s' "$?")
    same "$name" "$(printf '%s' "$found" | tr '\n' ';')" "${lines}exit $status"
    same "$name, standard error" "$(cat "$work/said")" "$says"
    says=
}

# Each file and folder with its place on the disk, its times of change and its length.
standing() { find . -printf '%p %i %T@ %C@ %s\n' | sort; }

# An update after one of which all is done, with no edit between.
idle() {
    standing > "$work/before"
    row "$1: nothing is left to do" 0 'done: 0 read, 0 run, 0 removed;' upd
    same "$1: nothing is written" "$(standing | diff "$work/before" -)" ''
}

# An edit by which nothing is to be done.
needless() {
    row "$1" 0 'done: 0 read, 0 run, 0 removed;' upd
    idle "$1"
}

# An update of which all is done, with its lines but for the last; then nothing is left to do, and the files are those of a
# clean build.
done_row() {
    row "$1" 0 "$2$3;" upd
    idle "$1"
    row "$1: a clean build" 0 'same;' verify
}

copy=': a |> cp a b |> b'
first='read .;run .: cp a b;'
one='done: 1 read, 1 run, 0 removed'

project
done_row "no rules" '' 'done: 0 read, 0 run, 0 removed'

project "$copy"
done_row "one rule" "$first" "$one"
touch a
idle "a source of the same content"
echo more > k
needless "a new file that nobody asks for"
echo ho > a
done_row "a source that was edited" 'run .: cp a b;' 'done: 0 read, 1 run, 0 removed'
file "what it makes of it" b ho
rm b
done_row "an output that was deleted" 'run .: cp a b;' 'done: 0 read, 1 run, 0 removed'
rules ': a |> cat a > b |> b'
done_row "another command" 'read .;run .: cat a > b;' "$one"
echo '# x' >> Tupfile
done_row "a Tupfile of the same rules" 'read .;' 'done: 1 read, 0 run, 0 removed'
rules ': a |> cat a > b |> c'
row "another output" 1 'read .;remove b;bad .: cat a > b;fault: .: cat a > b: writes b;' upd
rules ': a |> cat a > c |> c'
done_row "another command too" 'read .;run .: cat a > c;' "$one"
file "what it makes" c ho
project "$copy" ': a |> cp a d |> d'
done_row "two rules" 'read .;run .: cp a b;run .: cp a d;' 'done: 1 read, 2 run, 0 removed'
rules ': a |> cp a d |> d' "$copy"
done_row "the same rules, the other one first" 'read .;' 'done: 1 read, 0 run, 0 removed'
echo ho > a
done_row "a source of both" 'run .: cp a d;run .: cp a b;' 'done: 0 read, 2 run, 0 removed'
rules ': a |> cp a d |> d' ': a |> ^ COPY %f^ cp a b |> b'
done_row "another text to be shown" 'read .;run .: COPY a;' "$one"

# What an update would do: its lines without those of what it reads, these, and how many they are. The second time it reads
# nothing, and it writes nothing.
would() {
    row "$1: what would be done" 0 "$3${2}done: $4 read, 0 run, 0 removed;" todo
    standing > "$work/before"
    row "$1: listed twice" 0 "${2}done: 0 read, 0 run, 0 removed;" todo
    same "$1: nothing is written by that" "$(standing | diff "$work/before" -)" ''
}
project "$copy" ': b |> cp b c |> c'
would "two new rules" 'todo run .: cp a b;todo run .: cp b c;' 'read .;' 1
done_row "two new rules" 'run .: cp a b;run .: cp b c;' 'done: 0 read, 2 run, 0 removed'
would "nothing to do" '' '' 0
echo mine > c
would "an output that was edited by hand" 'todo run .: cp b c;' '' 0
file "it stays as it is" c mine
done_row "an output that was edited by hand" 'run .: cp b c;' 'done: 0 read, 1 run, 0 removed'
echo ho > a
would "a source that was edited" 'todo run .: cp a b;todo run .: cp b c;' '' 0
echo hi > a
would "a source that was put back" 'todo run .: cp a b;todo run .: cp b c;' '' 0
done_row "a source that was put back" 'run .: cp a b;run .: cp b c;' 'done: 0 read, 2 run, 0 removed'
rules "$copy"
would "a rule that vanished" 'todo remove c;' 'read .;' 1
file "its file stands" c hi
rules "$copy" ': b |> cp b c |> c'
would "it is there again" 'todo run .: cp b c;' 'read .;' 1
done_row "it is there again" 'run .: cp b c;' 'done: 0 read, 1 run, 0 removed'

# Three folders, a header that two of three sources include, and a group over them.
folders() {
    project
    printf '!cc = |> ^ CC %%b^ incl %%f %%o |> %%B.o\n' > Tuprules.tup
    mkdir lib src inc
    printf 'include_rules\n: foreach *.c |> !cc |> ../<objs>\n' | tee lib/Tupfile > src/Tupfile
    rules ': <objs> |> cat %<objs> > %o |> app'
    echo '#define A' > inc/a.h
    printf '#include "../inc/a.h"\nint a;\n' > lib/a.c
    printf '#include "../inc/a.h"\nint m;\n' > src/m.c
    echo 'int n;' > src/n.c
    rm a
    done_row "three folders" 'read .;read lib;read src;run lib: CC a.c;run src: CC m.c;run src: CC n.c;run .: cat lib/a.o src/m.o src/n.o > app;' 'done: 3 read, 4 run, 0 removed'
}
folders
echo '#define B' > inc/a.h
explained='run lib: CC a.c;  because changed inc/a.h > lib: CC a.c;run src: CC m.c;  because changed inc/a.h > src: CC m.c;'
explained="${explained}run .: cat lib/a.o src/m.o src/n.o > app;  because changed inc/a.h > lib: CC a.c > lib/a.o > .: cat lib/a.o src/m.o src/n.o > app;"
row "why rules are run after a header was edited" 0 "${explained}done: 0 read, 3 run, 0 removed;" upd --explain
idle "why rules are run after a header was edited"
echo '#define C' > inc/a.h
done_row "a header that was edited" 'run lib: CC a.c;run src: CC m.c;run .: cat lib/a.o src/m.o src/n.o > app;' 'done: 0 read, 3 run, 0 removed'
file "what lies above it" app "$(printf '#define C\nint a;\n#define C\nint m;\nint n;')"
printf '!cc = |> ^ C %%b^ incl %%f %%o |> %%B.o\n' > Tuprules.tup
done_row "a file that two folders include" 'read lib;read src;run lib: C a.c;run src: C m.c;run src: C n.c;run .: cat lib/a.o src/m.o src/n.o > app;' 'done: 2 read, 4 run, 0 removed'
printf '!cc = |> ^ CC %%b^ incl %%f %%o |> %%B.o\n' > Tuprules.tup
done_row "as it was" 'read lib;read src;run lib: CC a.c;run src: CC m.c;run src: CC n.c;run .: cat lib/a.o src/m.o src/n.o > app;' 'done: 2 read, 4 run, 0 removed'
echo 'int b;' > lib/b.c
done_row "a new member of a group" 'read lib;run lib: CC b.c;run .: cat lib/a.o lib/b.o src/m.o src/n.o > app;' 'done: 1 read, 2 run, 0 removed'
rm src/Tupfile
done_row "a folder without its Tupfile" 'remove src/m.o;remove src/n.o;run .: cat lib/a.o lib/b.o > app;' 'done: 0 read, 1 run, 2 removed'

project ': foreach *.c |> cp %f %o |> %B.o'
echo A > a.c
done_row "a glob" 'read .;run .: cp a.c a.o;' "$one"
echo B > b.c
done_row "a new file that a glob matches" 'read .;run .: cp b.c b.o;' "$one"
rm a.c
done_row "a file less" 'read .;remove a.o;' 'done: 1 read, 0 run, 1 removed'

project ': a |> fail 3 |> c' "$copy" ': a |> cp a d |> d'
row "a bad rule, and the rules behind it" 1 'read .;bad .: fail 3;run .: cp a b;run .: cp a d;fault: .: fail 3: status 3;' upd -k
row "the bad rule alone is left" 1 'bad .: fail 3;fault: .: fail 3: status 3;' upd -k
echo ho > a
row "a source of all" 1 'bad .: fail 3;run .: cp a b;run .: cp a d;fault: .: fail 3: status 3;' upd -k
rules "$copy" ': a |> cp a d |> d'
done_row "without the bad rule" 'read .;' 'done: 1 read, 0 run, 0 removed'

project ': a |> cat a k > b |> b'
echo ho > k
done_row "a source that isn't declared" 'read .;run .: cat a k > b;' "$one"
echo hu > k
done_row "it was edited" 'run .: cat a k > b;' 'done: 0 read, 1 run, 0 removed'
file "what was made of it" b "$(printf 'hi\nhu')"
rm k
row "it is deleted" 1 'bad .: cat a k > b;fault: .: cat a k > b: status 1;' upd
file "what was made stands" b "$(printf 'hi\nhu')"
echo hu > k
row "it is put back" 0 'run .: cat a k > b;done: 0 read, 1 run, 0 removed;' upd
idle "it is put back"
project ': a k |> cp a b |> b'
echo ho > k
done_row "an input that isn't read" "$first" "$one"
echo hu > k
needless "an edit of an input that isn't read"

project ': a |> ifexists cfg.h a o |> o'
done_row "a header that is missing" 'read .;run .: ifexists cfg.h a o;' "$one"
file "without it the output is empty" o ''
: > cfg.h
done_row "a header that comes" 'run .: ifexists cfg.h a o;' 'done: 0 read, 1 run, 0 removed'
file "with it the output is made" o hi
rm cfg.h
done_row "a header that goes" 'run .: ifexists cfg.h a o;' 'done: 0 read, 1 run, 0 removed'
file "without it the output is empty again" o ''
echo ': a |> cp a cfg.h |> cfg.h' >> Tupfile
row "a header that another rule makes" 1 'read .;bad .: ifexists cfg.h a o;fault: .: ifexists cfg.h a o: reads cfg.h;' upd
gone "it isn't made" cfg.h

project
echo CONFIG_MODE=fast > tup.config
mkdir x y
echo ': |> echo @(MODE) > o |> o' > x/Tupfile
echo ': |> echo y > o |> o' > y/Tupfile
done_row "a setting" 'read x;read y;run x: echo fast > o;run y: echo y > o;' 'done: 2 read, 2 run, 0 removed'
echo CONFIG_MODE=slow > tup.config
done_row "another setting" 'read x;run x: echo slow > o;' "$one"
echo CONFIG_OTHER=1 >> tup.config
needless "a setting that nobody asks for"
echo MODE=none > tup.config
says='tup.config:1: bad config line: MODE=none'
row "a tup.config with a fault" 5 'fault: tup.config:1: bad config line, read for .;' upd
says='tup.config:1: bad config line: MODE=none'
row "it has it still" 5 'fault: tup.config:1: bad config line, read for .;' upd
file "what was made stands" x/o slow
echo CONFIG_MODE=new > tup.config
done_row "its repair" 'read x;run x: echo new > o;' "$one"
rm tup.config
done_row "a tup.config that goes" 'read x;run x: echo  > o;' "$one"
project 'ifdef T' ': foreach *_text.txt |> cp %f %o |> %g.bin' else 'error no T' endif
echo CONFIG_T=y > tup.config
echo 1 > a_text.txt
echo 2 > b_text.txt
done_row "rules under a condition" 'read .;run .: cp a_text.txt a.bin;run .: cp b_text.txt b.bin;' 'done: 1 read, 2 run, 0 removed'
rm tup.config
says='Tupfile:4: error: no T'
row "a fault of the user's own" 5 'fault: Tupfile:4: error: no T, read for .;' upd
same "what was made stands" "$(cat a.bin b.bin | tr '\n' ' ')" '1 2 '
echo CONFIG_T=y > tup.config
row "as it was" 0 'read .;done: 1 read, 0 run, 0 removed;' upd
idle "as it was"

# Rules that vanish.
project "$copy" ': b |> cp b c |> c'
done_row "a chain" 'read .;run .: cp a b;run .: cp b c;' 'done: 1 read, 2 run, 0 removed'
rules "$copy"
done_row "its end goes" 'read .;remove c;' 'done: 1 read, 0 run, 1 removed'
gone "its output is gone" c
rules "$copy" ': b |> cp b c |> c'
done_row "its end is put back" 'read .;run .: cp b c;' "$one"
rules ': b |> cp b c |> c'
says='Tupfile:1: b: no source, and no rule above makes it'
row "its begin goes" 5 'fault: Tupfile:1: missing input, read for .;' upd
same "what was made stands" "$(cat b c | tr '\n' ' ')" 'hi hi '
: > Tupfile
done_row "all of it goes" 'read .;remove b;remove c;' 'done: 1 read, 0 run, 2 removed'

# What a user does with outputs.
project "$copy"
done_row "one rule" "$first" "$one"
echo mine > b
done_row "an output that was edited" 'run .: cp a b;' 'done: 0 read, 1 run, 0 removed'
file "it is made anew" b hi
echo mine > b
: > Tupfile
row "an edited output whose rule has vanished" 6 'read .;fault: b was changed by hand and no rule makes it;' upd
file "it is left" b mine
row "it is named as long as it stands" 6 'fault: b was changed by hand and no rule makes it;' upd
file "it is left still" b mine
rm b
needless "it is deleted"
project ': a |> fail 3 |> c' ': c |> cp c d |> d'
row "an output that is never made" 1 'read .;bad .: fail 3;fault: .: fail 3: status 3;' upd
echo mine > d
row "a user's file at its place" 1 'bad .: fail 3;fault: .: fail 3: status 3;' upd
file "it is left" d mine
: > Tupfile
row "its rule vanishes" 6 'read .;fault: d was changed by hand and no rule makes it;' upd
file "it is left" d mine
mv d mine
needless "it gets a name of its own"
file "it is a source" mine mine

# Rules that fail.
project "$copy" ': a |> fail 3 |> c' ': a |> cp a d |> d'
row "a rule that fails" 1 'read .;run .: cp a b;bad .: fail 3;fault: .: fail 3: status 3;' upd
row "it is run again, and what is good isn't" 1 'bad .: fail 3;fault: .: fail 3: status 3;' upd
rules "$copy" ': a |> cp a c |> c' ': a |> cp a d |> d'
done_row "its repair" 'read .;run .: cp a c;run .: cp a d;' 'done: 1 read, 2 run, 0 removed'
project ': a |> cp a g |> g' ': a |> cat a g > h |> h'
row "a rule that reads what it may not" 1 'read .;run .: cp a g;bad .: cat a g > h;fault: .: cat a g > h: reads g;' upd
rules ': a |> cp a g |> g' ': a g |> cat a g > h |> h'
done_row "its repair" 'read .;run .: cat a g > h;' "$one"

# Folders that wait for each other.
project
mkdir x y
echo ': ../y/*.o |> cat %f > q.o |> q.o' > x/Tupfile
echo ': |> echo 1 > p.o |> p.o' > y/Tupfile
done_row "a folder that asks for what another makes" 'read x;read y;run y: echo 1 > p.o;run x: cat ../y/p.o > q.o;' 'done: 2 read, 2 run, 0 removed'
echo ': ../x/*.o |> cat %f > p.o |> p.o' > y/Tupfile
circle='fault: directories wait for each other: x -> y -> x;'
row "they wait for each other, one by its old reading" 5 "$circle" upd
row "they do so still" 5 "$circle" upd
same "what was made stands" "$(cat x/q.o y/p.o | tr '\n' ' ')" '1 1 '
echo ': |> echo 1 > p.o |> p.o' > y/Tupfile
row "they don't any more" 0 'read y;done: 1 read, 0 run, 0 removed;' upd
idle "they don't any more"
project
mkdir x y
echo ': ../y/*.o |> cat %f > q.o |> q.o' > x/Tupfile
echo ': ../x/*.o |> cat %f > p.o |> p.o' > y/Tupfile
row "both are new" 5 "$circle" upd
project ': <g> |> cat %<g> > a.o |> a.o <h>' ': <h> |> cat %<h> > b.o |> b.o <g>'
row "rules that wait for each other" 5 'fault: commands wait for each other: .: cat b.o > a.o -> .: cat a.o > b.o -> .: cat b.o > a.o;' upd
rules ': <none> |> cat %<none> > a.o |> a.o'
row "a group that nobody gives to" 5 'fault: no rule gives to <none>;' upd
rules "$copy"
done_row "their repair" "$first" "$one"

# More files than a site in memory may have.
project "$copy"
done_row "one rule" "$first" "$one"
mkdir many && (cd many && seq 65533 | xargs touch)
needless "65,536 files"
touch k
row "65,537 files" 0 'done: 0 read, 0 run, 0 removed;' upd
rm -r many
row "without them" 0 'done: 0 read, 0 run, 0 removed;' upd
row "a store of which little is needed" 0 'done: 0 read, 0 run, 0 removed;' upd
same "it is compacted" "$(($(wc -c < .tup/db) < 1024))" 1
idle "a compacted store"

# A store of the program that ran every rule: it owns `b`, and knows no rule.
project "$copy"
cp a b
printf 'tup-db2\001\000\000\000\000\000\000\000\000\000\001\000\000\000\015\001\000\004\005\001\001b\000\000\000\002\000\001\000' > .tup/db
done_row "a store of the program before" "$first" "$one"
project
cp a b
printf 'tup-db2\001\000\000\000\000\000\000\000\000\000\001\000\000\000\015\001\000\004\005\001\001b\000\000\000\002\000\001\000' > .tup/db
done_row "its rule has gone since" 'remove b;' 'done: 0 read, 0 run, 1 removed'

# Kills an update before a call. Words: the row's name, the name of the call, and what the call looks like in a trace that names
# what is open.
killed() {
    rm -rf "$work/traced" && cp -a . "$work/traced"
    (cd "$work/traced" && strace -y -o "$work/trace" -e trace="$2" "$tup" upd -j 1 > /dev/null)
    number=$(awk -v found="$3" '/^[a-z]/ { n++ } $0 ~ found { print n; exit }' "$work/trace")
    strace -o /dev/null -e trace="$2" -e inject="$2:error=EIO:signal=KILL:when=${number:-1000}" "$tup" upd -j 1 > /dev/null 2>&1
    same "$1: call ${number:-none} is found, and the update killed" "$?" 137
}

if strace -o /dev/null true 2> /dev/null; then
    project "$copy"
    killed "between a put and its settle" fsync '^fsync\\(.*/b>'
    file "the file is there" b hi
    echo zz > b
    done_row "after a kill between a put and its settle" 'run .: cp a b;' 'done: 0 read, 1 run, 0 removed'
    file "it is made anew" b hi
    : > Tupfile
    killed "between the doom and the removal" unlink '"\\./b"'
    file "the file is there still" b hi
    done_row "after a kill between the doom and the removal" 'remove b;' 'done: 0 read, 0 run, 1 removed'
    gone "it is removed" b
    rules "$copy"
    killed "before anything is written" pwrite64 '/\\.tup/db>'
    done_row "after a kill before anything is written" "$first" "$one"
else
    echo "passed over: updates that are killed"
fi

if [ "$failures" -gt 0 ]; then
    echo "$failures differ"
    exit 1
fi
echo "all rows are as they have to be"
