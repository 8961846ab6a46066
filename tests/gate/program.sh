#!/bin/sh
# The program as a user meets it: runs the one given as the first word over small projects, each in a new folder, and
# compares lines, exit numbers and files with what they have to be. It ends with 1 where something differs. What needs the
# superuser (a full disk, files without permission) is passed over for others, and what needs tup_shim where that isn't
# built in the folder beside.
set -u
. "$(dirname "$0")/../lib.sh"
tup=$(realpath "$1")
script=$(realpath "$0")
version=$(sed -n 's/^const VERSION: &str = "\(.*\)";/\1/p' "$(dirname "$0")/../../crates/tup/src/main.rt")
shim=$(realpath -m "$(dirname "$tup")/../../tup_shim/out/tup_shim")
work=$(mktemp -d)
trap 'cd /; umount "$work/small" 2>/dev/null; rm -rf "$work"' EXIT
failures=0
count=0

# Makes a folder whose file `a` holds `hi`, with a Tupfile of the lines that are given.
folder() {
    count=$((count + 1))
    mkdir "$work/$count" && cd "$work/$count" || exit 1
    printf 'hi\n' > a
    if [ $# -gt 0 ]; then printf '%s\n' "$@" > Tupfile; fi
}

# Begins a project in such a folder.
project() {
    folder "$@"
    "$tup" init > /dev/null || exit 1
}

# Runs the program with words: the row's name, its exit number, its lines with a semicolon behind each, the words. Only
# where a call of the system, or what runs the commands, failed, no project was begun, or a command isn't known, it says something
# on standard error.
row() {
    name=$1 status=$2 lines=$3
    shift 3
    # One command after another: else the lines of rules that don't need each other come in any order.
    case "$status ${1-upd}" in
        '2 '* | *' --help' | *' --version') ;;
        *' upd' | *' -'*) set -- "$@" -j 1 ;;
    esac
    found=$("$tup" "$@" 2> "$work/said"; printf 'exit %s' "$?")
    same "$name" "$(printf '%s' "$found" | tr '\n' ';')" "${lines}exit $status"
    case "$status $lines" in
        7* | 8* | '2 ' | *': status 127;' | '0 options:'*) ;;
        '2 fault: usage,'*) same "$name, standard error" "$(sed 's/^tup: .*/tup: what was wrong/' "$work/said")" 'tup: what was wrong' ;;
        # The files that are too large.
        *'fault: limit FileSize,'*) same "$name, standard error" "$(sed 's/^tup: .* has [0-9]* bytes, and a file has [0-9]* at most$/a file/' "$work/said")" 'a file' ;;
        # The file and the line, as editors read them, and what is wrong there.
        '5 '*fault:*:[0-9]*:*) place=${lines##*fault: }; place=$(printf '%s' "$place" | grep -o '^[^:]*:[0-9]*:')
            same "$name, standard error" "$(cut -d: -f1,2 "$work/said" | sed 's/$/:/' | head -1)" "$place" ;;
        *'bad .: cp pipe c;'*) said './pipe: a pipe, a socket or a device stands here, and counts as no file' ;;
        *'no tup project here;') said '`tup init` begins a project here' ;;
        *'damaged at byte 0;') said_of_store ;;
        *) same "$name, standard error" "$(cat "$work/said")" "" ;;
    esac
}

# What the last row said on standard error: the place, and the system's words.
said() { same "$name, standard error" "$(cat "$work/said")" "tup: $1"; }

# What it said of a store that doesn't begin as one: what is to be done where an early version or another program made it.
said_of_store() {
    case "$(head -c 8 .tup/db | od -An -c | tr -d ' ')" in
        'tup-db\n001') said '.tup/db is of an early version: remove it and the files that were made, then `tup init` begins anew' ;;
        SQLitef) said '.tup/db is of another tup (SQLite): move .tup away' ;;
        *) same "$name, standard error" "$(cat "$work/said")" "" ;;
    esac
}

copy=': a |> cp a b |> b'
done_copy='read .;run .: cp a b;done: 1 read, 1 run, 0 removed;'
again='run .: cp a b;done: 0 read, 1 run, 0 removed;'
nothing='done: 0 read, 0 run, 0 removed;'

folder "$copy"
row "a folder without a project" 3 'fault: no tup project here;' upd
row "no words" 3 'fault: no tup project here;'
row "nor is there anything to compare" 3 'fault: no tup project here;' verify
same "nothing was made" "$(ls -A | tr '\n' ' ')" 'Tupfile a '
row "a project begins" 0 'initialized;' init
same "its store" "$(od -An -v -tx1 -w18 .tup/db)" ' 74 75 70 2d 64 62 32 01 00 00 00 00 00 00 00 00 00 00'
same "nothing else was made" "$(ls -A . .tup | tr '\n' ' ')" '.: .tup Tupfile a  .tup: .gitignore db '
row "it begins once" 3 'fault: already a tup project;' init
row "its first update" 0 "$done_copy" upd
row "it has begun" 3 'fault: already a tup project;' init
row "nothing of it is lost" 0 'same;' verify
: > Tupfile
row "it knows what it made" 0 'read .;remove b;done: 1 read, 0 run, 1 removed;' upd
row "a word behind init" 2 'fault: usage, word 2;' init now

# A project that makes nothing durable.
folder "$copy"
row "a word behind --no-sync" 2 'fault: usage, word 3;' init --no-sync now
row "--no-sync without init" 2 'fault: usage, word 1;' --no-sync
row "--no-sync behind another order" 2 'fault: usage, word 2;' upd --no-sync
same "nothing was made" "$(ls -A | tr '\n' ' ')" 'Tupfile a '
row "a project without syncs" 0 'initialized;' init --no-sync
file "its options" .tup/options --no-sync
row "it begins once" 3 'fault: already a tup project;' init
row "it may have other options" 0 'options: --no-sync -k;' init --no-sync -k
said 'the options of .tup/options were: --no-sync'
row "the same once more" 0 'options: --no-sync -k;' init --no-sync -k
same "nothing is said of them" "$(cat "$work/said")" ""
file "they are written" .tup/options "$(printf -- '--no-sync\n-k')"
row "as they were" 0 'options: --no-sync;' init --no-sync
row "its first update" 0 "$done_copy" upd
row "it is compared" 0 'same;' verify
echo --fast >> .tup/options
row "an unknown option" 2 '' upd
said '.tup/options: unknown word --fast'
row "an unknown option, compared" 2 '' verify
row "an unknown option, without an order" 2 ''
row "an unknown option, and one asks for the version" 0 "tup $version;" --version
printf '\377' > .tup/options
row "options that are no text" 2 '' upd
said ".tup/options: unknown word that isn't UTF-8"
# How many commands are run at a time.
for words in '-j 17' '-j 0' '-j 04' '-j' '-j -k' '-j x'; do
    echo "$words" > .tup/options
    row "the options $words" 2 '' upd
    said '.tup/options: no number from 1 to 16 after -j'
done
for word in -j17 -j0 -j04 -jx -j=4; do
    echo "$word" > .tup/options
    row "the option $word" 2 '' upd
    said ".tup/options: unknown word $word"
done
for words in '-j 2 -j 2' '-j2 -j'; do
    echo "$words" > .tup/options
    row "the options $words" 2 '' upd
    said '.tup/options: a second -j'
done
echo '-j 3 -j3' > .tup/options
row "the number twice" 2 '' upd
said '.tup/options: a second -j3'
for words in '-j 1' -j16 '-k -j 9' "$(printf '%s\n' -j 4)"; do
    echo "$words" > .tup/options
    row "the options $words" 0 "$nothing" upd
done
row "a word that isn't a number from 1 to 16" 2 'fault: usage, word 3;' upd -j 0
row "another" 2 'fault: usage, word 2;' upd -j17
row "no word where one has to be" 2 'fault: usage, word 3;' upd -j
row "the number twice in a call" 2 'fault: usage, word 3;' -j 2 -j 2
row "a list of what is to be done takes none" 2 'fault: usage, word 2;' todo -j 2
row "a number for a project that has begun" 0 'options: -j 2;' init -j 2
# What stands in the place of a file of the program's own is looked at before it is opened, and no link is followed.
failed='fault: the file tree or the store failed;'
in_the_way() {
    for words in upd todo verify 'init -k'; do
        found=$(timeout 20 "$tup" $words 2> "$work/said"; printf 'exit %s' "$?")
        same "$1, $words" "$(printf '%s' "$found" | tr '\n' ';') $(cat "$work/said")" "${failed}exit 7 tup: look at $2: a link or a special file stands here"
    done
}
rm .tup/options && mkdir .tup/options
in_the_way "a folder in the place of the options" .tup/options
rmdir .tup/options && mkfifo .tup/options
in_the_way "a pipe in the place of the options" .tup/options
rm .tup/options && echo --no-sync > options && ln -s ../options .tup/options
in_the_way "a link in the place of the options" .tup/options
file "what it leads to" options --no-sync
rm .tup/options && : > .tup/options
row "no options" 0 "$nothing" upd
mv .tup/options options && mkfifo .tup/options.new && ln -s ../a .tup/db.new
row "new options behind a pipe" 0 'options: -k;' init -k
row "a link in the place of a new store" 0 "$nothing" upd
same "both are gone, and what the link led to isn't" "$(ls .tup) $(cat a)" "$(printf 'db\noptions') hi"
project "$copy"
row "a project that has begun with syncs" 0 'options: --no-sync;' init --no-sync
same "it has none now" "$(ls .tup | tr '\n' ' ')" 'db options '
folder "$copy"
mkdir -p .tup/options
row "options that can't be written" 7 "$failed" init --no-sync
said 'look at .tup/options: a link or a special file stands here'
same "no project has begun" "$(ls .tup)" options
rmdir .tup/options
row "it begins, with syncs" 0 'initialized;' init
row "its first update" 0 "$done_copy" upd
# The options are there before the store: so none are lost where the words can't be printed, or the program is killed.
folder "$copy"
"$tup" init -k > /dev/full 2>&1
same "a beginning whose line can't be printed" "$? $(cat .tup/options)" '9 -k'
row "it has begun" 3 'fault: already a tup project;' init
folder "$copy"
strace -o /dev/null -e trace=rename -e inject=rename:signal=KILL:when=2 "$tup" init -k > /dev/null 2>&1
same "a beginning that is killed" "$? $(cat .tup/options)" '137 -k'
rm -rf .tup/db
row "it begins" 0 'initialized;' init
file "with its options" .tup/options -k
strace -o /dev/null -e trace=rename -e inject=rename:error=EIO "$tup" init --no-sync > /dev/null 2>&1
same "options that can't come to their place" "$? $(cat .tup/options)" '7 -k'

project "$copy"
row "one rule" 0 "$done_copy" upd
file "one rule, its file" b hi
row "no words are an update" 0 "$nothing"
echo mine > b
row "an output that was edited" 0 "$again" upd
file "it is made anew" b hi
rm b
row "an output that was deleted" 0 "$again" upd
file "it is made anew" b hi
: > Tupfile
row "a rule that vanished" 0 'read .;remove b;done: 1 read, 0 run, 1 removed;' upd
gone "its file is gone" b
row "nothing is left to do" 0 "$nothing" upd

project
row "no Tupfile" 0 'done: 0 read, 0 run, 0 removed;' upd
project "$copy"
row "a word too many" 2 'fault: usage, word 2;' upd now
row "an unknown word" 2 'fault: usage, word 1;' make
row "a word that isn't UTF-8" 2 'fault: usage, word 2;' upd "$(printf 'n\377')"
row "the demo" 0 "$done_copy" demo
gone "nothing was done" b
row "a large project of one folder" 0 'done: 2 read, 12 run, 0 removed;done: 0 read, 0 run, 0 removed;done: 0 read, 3 run, 0 removed;done: 0 read, 3 run, 0 removed;done: 1 read, 3 run, 0 removed;done: 1 read, 2 run, 1 removed;same;' large 1
row "one of three folders" 0 'done: 4 read, 34 run, 0 removed;done: 0 read, 0 run, 0 removed;done: 0 read, 7 run, 0 removed;done: 0 read, 3 run, 0 removed;done: 1 read, 3 run, 0 removed;done: 1 read, 2 run, 1 removed;same;' large 3
gone "nothing was done" b
for words in large 'large 0' 'large 1001' 'large 03' 'large +3' 'large x' 'large 10000' 'large 3a' 'large -k'; do row "the words '$words'" 2 'fault: usage, word 2;' $words; done
row "a word after the number" 2 'fault: usage, word 3;' large 3 3
row "a large project is no option" 2 'fault: usage, word 2;' upd large 3
same "help" "$("$tup" --help > /dev/null; echo $?)" 0
same "version" "$("$tup" --version > /dev/null; echo $?)" 0

# Each kind of fault that a folder can have, in a later line: the line, the kind, the lines of the Tupfile.
at() {
    line=$1 kind=$2
    shift 2
    project "$@"
    row "$kind" 5 "fault: Tupfile:$line: $kind, read for .;" upd
    file "$kind, the source" a hi
    gone "$kind, nothing was made" b
}
at 2 'not UTF-8' '# x' "$(printf '# \377')"
at 3 'line too long' '' '' "X = $(printf '%65532s' '' | tr ' ' x)"
at 2 'unknown line' '# x' 'b: a'
at 2 'a rule has two arrows' "$copy" ': a |> cp a c'
at 3 'bad word' "$copy" '# x' ': {a |> cp a c |> c'
at 2 'bad caret part' "$copy" ': a |> ^x^ cp a c |> c'
at 4 'unclosed bracket' 'X = 1' '# a line in two \' "$copy" ': $(X |> cp a c |> c'
at 2 'bad name' 'X = 1' 'X Y = 1'
at 4 'else without if' 'ifdef A' 'else' 'endif' 'else'
at 3 'endif without if' 'ifdef A' 'endif' 'endif'
at 2 'if without endif' '# x' 'ifdef A' "$copy"
at 2 'open bracket in glob' "$copy" ': x[a-c |> cp %f c |> c'
at 2 'unknown percent flag' "$copy" ': a |> cp %f %q |> c'
at 2 'percent flag not allowed here' "$copy" ': a |> cp %f c |> %o'
at 3 'no such macro' '!cp = |> cp %f %o |> %f.o' ': a |> !cp |>' ': a |> !cc |> c'
at 2 'no such bin' ': a |> cp a b |> b {x}' ': {y} |> cp %f c |> c'
at 2 'macro defined twice' '!cp = |> cp %f %o |> %f.o' '!cp = |> cp %f %o |> c'
at 2 'missing input' "$copy" ': c |> cp c d |> d'
at 2 'output named twice' "$copy" ': a |> cat a > b |> b'
at 2 'output is a source file' "$copy" ': b |> cp b a |> a'
at 2 'output stands elsewhere' "$copy" ': a |> cp a ../c |> ../c'
at 2 'command given twice' "$copy" ': a |> cp a b |> c'
at 5 'error: not fast' 'MODE = fast' 'ifeq ($(MODE),slow)' "$copy" else 'error not $(MODE)' endif
at 2 'include file missing' "$copy" 'include none'
at 2 'nested too deep' '# x' 'include Tupfile'
project "$copy" ': a |> cp a d |> d'
mkdir d && echo mine > d/mine
row "output is a directory" 5 'fault: Tupfile:2: output is a directory, read for .;' upd
file "what it holds" d/mine mine
project "$copy"
printf 'CONFIG_X=1\nX=1\n' > tup.config
row "bad config line" 5 'fault: tup.config:2: bad config line, read for .;' upd

# One Tupfile with variables, a condition, a macro with a caret and an order-only input, `foreach`, globs over what is made, a bin.
project 'ifndef MODE' 'error no mode' endif 'NAMES = one.txt' 'NAMES += two.txt' '!part = | head |> ^ PART %b^ cat head %f > %o |> %B.part' \
    ': |> echo @(MODE) > %o |> head' ': foreach $(NAMES) |> !part |> {parts}' ': foreach *.part |> cp %f %o |> %g.copy' \
    ': {parts} *.copy |> cat %f > %o |> app'
echo 1 > one.txt
echo 2 > two.txt
row "a Tupfile with its setting unset" 5 'fault: Tupfile:2: error: no mode, read for .;' upd
echo CONFIG_MODE=fast > tup.config
row "a Tupfile with each form" 0 'read .;run .: echo fast > head;run .: PART one.txt;run .: PART two.txt;run .: cp one.part one.copy;run .: cp two.part two.copy;run .: cat one.part two.part one.copy two.copy > app;done: 1 read, 6 run, 0 removed;' upd
file "what its last rule makes" app "$(printf 'fast\n1\nfast\n2\nfast\n1\nfast\n2')"
row "it is a clean build" 0 'same;' verify

project "$copy"
mkdir sub && echo "$copy" > sub/Tupfile
row "a Tupfile below, its source missing" 5 'fault: sub/Tupfile:1: missing input, read for sub;' upd
echo ho > sub/a
row "a Tupfile below" 0 'read .;read sub;run .: cp a b;run sub: cp a b;done: 2 read, 2 run, 0 removed;' upd
file "what it makes" sub/b ho
rm -r sub
row "it goes with its folder" 0 "$nothing" upd

project ': a |> cp a b |> b' ': b a |> cat b a > c |> c' ': |> cat > d |> d' ': a |> fail 3 |> e' ': a |> cp a f |> f'
row "a rule that fails" 1 'read .;run .: cp a b;run .: cat b a > c;run .: cat > d;bad .: fail 3;fault: .: fail 3: status 3;' upd
file "what ran before stands" c "$(printf 'hi\nhi')"
gone "what comes behind didn't run" f
sed -i 's/fail 3 |> e/cp a e |> e/' Tupfile
row "its repair" 0 'read .;run .: cp a e;run .: cp a f;done: 1 read, 2 run, 0 removed;' upd

# A rule whose command isn't good: the row's name, the command, and what is said of it.
bad() {
    project ": a |> $2 |> b"
    row "$1" 1 "read .;bad .: $2;fault: .: $2: $3;" upd
    gone "$1, nothing was made" b
    file "$1, the source" a hi
}
bad "another output than the rule's" 'cp a c' 'writes c'
gone "nor the other output" c
bad "another output beside the rule's" 'cp a b && cp a c' 'writes c'
bad "a source as the output" 'cp a a' 'writes a'
bad "an output above the project" 'echo x > ../b' 'writes ../b'
gone "nor anything above" ../b
bad "a line in place of the output" 'echo x > c' 'writes c'
bad "a file above the project" 'cp ../a b' 'reads ../a'
bad "a hidden file" 'cp .a b' 'reads .a'
bad "a file that is missing" 'cp c b' 'status 1'
bad "a program of the system" 'gcc a -o b' 'status 127'
bad "an arrow without a blank behind it" 'cat a >b' 'status 2'
bad "status 0, which is none" 'fail 0' 'status 2'
bad "status 256, which is none" 'fail 256' 'status 2'
bad "the largest status" 'fail 255' 'status 255'
bad "a status behind a file" 'cp a b && fail 7' 'status 7'

project ': a |> cat a k > b |> b'
echo ho > k
row "a source that isn't declared" 0 'read .;run .: cat a k > b;done: 1 read, 1 run, 0 removed;' upd
file "its content" b "$(printf 'hi\nho')"
project ': a |> cp a b |> b' ': a |> fail 3 |> c' ': c |> cp c e |> e' ': a |> cp a d |> d'
row "going on behind a rule that fails" 1 'read .;run .: cp a b;bad .: fail 3;run .: cp a d;fault: .: fail 3: status 3;' upd -k
file "the rule behind it was run" d hi
gone "the one that needs it wasn't" e
row "that rule is left" 1 'bad .: fail 3;fault: .: fail 3: status 3;' -k
sed -i 's/fail 3 |> c/cp a c |> c/' Tupfile
row "it is put right" 0 'read .;run .: cp a c;run .: cp c e;done: 1 read, 2 run, 0 removed;' -k
row "nothing is left to do" 0 "$nothing" upd -k
row "the option twice" 2 'fault: usage, word 3;' upd -k -k
row "the option behind another order" 2 'fault: usage, word 2;' verify -k

project "$copy"
row "what an update would do" 0 'read .;todo run .: cp a b;done: 1 read, 0 run, 0 removed;' todo
gone "it did none of it" b
row "the same again" 0 'todo run .: cp a b;done: 0 read, 0 run, 0 removed;' todo
row "the update" 0 'run .: cp a b;done: 0 read, 1 run, 0 removed;' upd
row "nothing would be done" 0 "$nothing" todo
echo mine > b
row "an output that was edited by hand" 0 'todo run .: cp a b;done: 0 read, 0 run, 0 removed;' todo
file "it stays as it is" b mine
: > Tupfile
row "a rule that vanished" 0 'read .;todo remove b;done: 1 read, 0 run, 0 removed;' todo
file "its file stands" b mine
row "it is the user's now" 6 'fault: b was changed by hand and no rule makes it;' upd
row "it is listed all the same" 0 'todo remove b;done: 0 read, 0 run, 0 removed;' todo
rm b
row "it has gone" 0 "$nothing" todo
echo 'b: a' > Tupfile
row "a fault of the Tupfile" 5 'fault: Tupfile:1: unknown line, read for .;' todo
row "a word behind it" 2 'fault: usage, word 2;' todo now
row "an option of an update" 2 'fault: usage, word 2;' todo -k
row "it is no option" 2 'fault: usage, word 1;' --todo
printf 'no store' > .tup/db
row "a store that doesn't read" 4 'fault: the store is damaged at byte 0;' todo
folder "$copy"
row "without a project" 3 'fault: no tup project here;' todo
same "nothing was made" "$(ls -A | tr '\n' ' ')" 'Tupfile a '

project "$copy" ': b |> ^ COPY %f^ cp b c |> c'
row "why new rules are run" 0 'read .;run .: cp a b;  because new .: cp a b;run .: COPY b;  because new .: cp b c;done: 1 read, 2 run, 0 removed;' --explain
row "nothing is run" 0 "$nothing" upd --explain
echo ho > a
row "an edited source" 0 'run .: cp a b;  because changed a > .: cp a b;run .: COPY b;  because changed a > .: cp a b > b > .: COPY b;done: 0 read, 2 run, 0 removed;' upd --explain
rm c
row "an output that vanished" 0 'run .: COPY b;  because changed c > .: COPY b;done: 0 read, 1 run, 0 removed;' --explain -k
echo hi > a
row "nobody asks why" 0 'run .: cp a b;run .: COPY b;done: 0 read, 2 run, 0 removed;' upd
printf '%s\n' ': a |> cat a > b |> b' > Tupfile
row "another command, and a rule that vanished" 0 'read .;remove c;run .: cat a > b;  because new .: cat a > b;done: 1 read, 1 run, 1 removed;' --explain
row "the word twice" 2 'fault: usage, word 3;' upd --explain --explain
row "the word behind another order" 2 'fault: usage, word 2;' todo --explain
row "the word without its dashes" 2 'fault: usage, word 1;' explain
project ': a |> incl a b |> b'
row "a rule that is good" 0 'read .;run .: incl a b;done: 1 read, 1 run, 0 removed;' upd
echo '#include "none"' > a
row "it is bad" 1 'bad .: incl a b;  because changed a > .: incl a b;fault: .: incl a b: status 1;' --explain
echo hi > a
row "it was left unfinished" 0 'run .: incl a b;  because unfinished .: incl a b;done: 0 read, 1 run, 0 removed;' --explain
project ': a |> fail 3 |> b'
row "a rule that never was good" 1 'read .;bad .: fail 3;  because new .: fail 3;fault: .: fail 3: status 3;' upd --explain
row "it is as new as before" 1 'bad .: fail 3;  because new .: fail 3;fault: .: fail 3: status 3;' upd --explain

project ': a |> cp a g |> g' ': a |> cat a g > h |> h'
row "a generated file that isn't declared" 1 'read .;run .: cp a g;bad .: cat a g > h;fault: .: cat a g > h: reads g;' upd
file "what ran before stands" g hi
gone "what read it isn't made" h
project ': a |> cat a g > h |> h' ': a |> cp a g |> g'
row "one that isn't made yet" 1 'read .;bad .: cat a g > h;fault: .: cat a g > h: reads g;' upd
gone "and it isn't made" g
project ': a |> ifexists cfg.h a o |> o'
row "a header that is missing" 0 'read .;run .: ifexists cfg.h a o;done: 1 read, 1 run, 0 removed;' upd
file "without it the output is empty" o ''
: > cfg.h
row "a header that comes later" 0 'run .: ifexists cfg.h a o;done: 0 read, 1 run, 0 removed;' upd
file "with it the output is made" o hi
rm cfg.h
echo ': a |> cp a cfg.h |> cfg.h' >> Tupfile
row "a header that another rule makes" 1 'read .;bad .: ifexists cfg.h a o;fault: .: ifexists cfg.h a o: reads cfg.h;' upd
gone "it isn't made" cfg.h
project ': a |> incl a b |> b' ': |> echo one  two > c |> c' ': b |> echo y > d && cat b d > d |> d'
printf '#include "inc/h"\nint a;\n' > a
mkdir inc && printf '#include "k"\nint h;\n' > inc/h && echo 'int k;' > inc/k
row "includes, a line, an own write" 0 'read .;run .: incl a b;run .: echo one  two > c;run .: echo y > d && cat b d > d;done: 1 read, 3 run, 0 removed;' upd
file "what was included" b "$(printf 'int k;\nint h;\nint a;')"
file "the line" c 'one two'
file "the own write, read back" d "$(printf 'int k;\nint h;\nint a;\ny')"
echo '#include "h"' > inc/k
row "files that include each other" 1 'bad .: incl a b;fault: .: incl a b: status 1;' upd

# The small commands line by line, each in a new folder: a holds `hi`, k `ho`, p nothing, `>` an arrow; in inc, `main` includes
# `part`, that one k of the folder above, and `near` has lines that are almost such a line. The rule's output is b.
small() {
    project ": a |> $1 |> b"
    echo ho > k && : > p && echo arrow > '>' && mkdir inc
    printf '#include "part"\nend\n' > inc/main
    printf '#include "../k"' > inc/part
    printf ' #include "k"\n#include "k" \n#include  "k"\n#include ""\n#include "k"k"\n#include "k\n' > inc/near
    printf '#include "none"\n' > inc/lost
}
# Its command and what its output holds, as `printf` writes it.
good() {
    small "$1"
    row "$1" 0 "read .;run .: $1;done: 1 read, 1 run, 0 removed;" upd
    same "$1, the output" "$(od -c b)" "$(printf "$2" | od -c)"
}
# Its status, a blank, and the command.
ends() {
    small "${1#* }"
    row "${1#* }" 1 "read .;bad .: ${1#* };fault: .: ${1#* }: status ${1%% *};" upd
    gone "${1#* }, nothing was made" b
}
# A write that its rule doesn't name, a blank, and the command.
writes() {
    small "${1#* }"
    row "${1#* }" 1 "read .;bad .: ${1#* };fault: .: ${1#* }: writes ${1%% *};" upd
    same "${1#* }, nothing was made" "$(ls | tr '\n' ' ')" "> Tupfile a inc k p "
}
good 'cp a b' 'hi\n'
good 'cp   a  b' 'hi\n'
good 'cp > b' 'arrow\n'
good 'cat > b' ''
good 'cat a > b' 'hi\n'
good 'cat a k p a > b' 'hi\nho\nhi\n'
good 'echo > b' '\n'
good 'echo one  two   three > b' 'one two three\n'
good 'incl a b' 'hi\n'
good 'incl inc/main b' 'ho\nend\n'
good 'incl inc/near b' ' #include "k"\n#include "k" \n#include  "k"\n#include ""\n#include "k"k"\n#include "k\n'
good 'ifexists p a b' 'hi\n'
good 'ifexists none a b' ''
good 'ifexists none no b' ''
good 'cp a b && cp k b' 'ho\n'
good 'echo x > b && cat b k ./b > b' 'x\nho\nx\n'
good 'echo x > b && ifexists b k b' 'ho\n'
for text in 'cp none b' 'cat a none > b' 'incl none b' 'incl inc/lost b' 'ifexists p none b' 'fail 1' 'cp a b && cp none b'; do ends "1 $text"; done
for text in cp 'cp a' 'cp a b b' cat 'cat a b' echo 'echo x' 'incl a' 'incl a b b' 'ifexists p a' 'ifexists p a b b' fail 'fail 3 4'; do ends "2 $text"; done
for text in 'fail 0' 'fail 01' 'fail +1' 'fail 3x' 'fail 256' 'fail 99999999999999999999'; do ends "2 $text"; done
for text in 'cp a > b' 'cat > a b' 'cat a > b > b' 'echo x >' 'nope > a b' '> > b'; do ends "2 $text"; done
for text in '&&' '&& cp a b' 'cp a b &&' 'cp a b && && cp k b' 'cp a b&& fail 3'; do ends "2 $text"; done
for text in nope 'CP a b' 'cpa b' '> b' 'b c'; do ends "127 $text"; done
ends '7 cp a b && fail 7 && nope'
ends '127 cp a b && nope && fail 3'
writes 'c echo x > c'
writes 'd cp a b && cp a d && cp a c && cp k d'
writes 'c cp a c && cp c b'
writes '../src/b cp a ../src/b'
writes '.. echo x > ..'
# Files i0 to i33, each including the next: the one at depth 32 may be there, the one at depth 33 may not.
nested() {
    project ": a |> incl $1 b |> b"
    for i in $(seq 0 32); do printf '#include "i%s"\n' $((i + 1)) > "i$i"; done
    echo end > i33
}
nested i1
row "files 32 deep" 0 'read .;run .: incl i1 b;done: 1 read, 1 run, 0 removed;' upd
file "what is included" b end
nested i0
row "files 33 deep" 1 'read .;bad .: incl i0 b;fault: .: incl i0 b: status 1;' upd

# So many times a word.
repeated() { awk -v n="$1" -v word="$2" 'BEGIN { for (i = 0; i < n; i++) printf "%s ", word }'; }
project ": a |> cat $(repeated 4095 a)> b |> b"
same "4,095 reads" "$("$tup" upd | tail -1)" 'done: 1 read, 1 run, 0 removed'
same "all of them" "$(wc -l < b)" 4095
project ": a |> cat $(repeated 4096 a)> b |> b"
same "4,096 reads" "$("$tup" upd | tail -1 | sed 's/cat .* > b/../')" 'fault: .: ..: reads too often'
gone "nothing was made" b
project ": a |> cp a b && cat $(repeated 4095 b)> b |> b"
same "4,095 reads of an own write" "$("$tup" upd | tail -1)" 'done: 1 read, 1 run, 0 removed'
project ": a |> cp a b && cat $(repeated 4096 b)> b |> b"
same "4,096 reads of an own write" "$("$tup" upd | tail -1 | sed 's/cp .* > b/../')" 'fault: .: ..: status 4'
project ": half |> cat half half > b |> b" ': half |> cat half half a > c |> c'
truncate -s 8388608 half
row "a write of more than a file may hold" 1 'read .;run .: cat half half > b;bad .: cat half half a > c;fault: .: cat half half a > c: status 5;' upd
same "one of just so much" "$(wc -c < b)" 16777216

# Several folders.
example() { count=$((count + 1)); cp -r "$(dirname "$script")/../../examples/$1" "$work/$count" && cd "$work/$count" && "$tup" init > /dev/null || exit 1; }
example tree
row "three folders" 0 'read .;read lib;read src;run lib: CC list.c;run lib: CC text.c;run src: CC main.c;run .: cat lib/list.o lib/text.o src/main.o > app;run .: echo app release > app.stamp;done: 3 read, 5 run, 0 removed;' upd
file "what they give together" app "$(printf '#define SIZE 3\nint list[SIZE];\nint text;\n#define SIZE 3\nint main;')"
file "a setting" app.stamp 'app release'
row "they are a clean build" 0 'same;' verify
echo '#define SIZE 4' > inc/size.h
row "a header that was edited" 13 'differs: app;' verify
row "its update" 0 'run lib: CC list.c;run src: CC main.c;run .: cat lib/list.o lib/text.o src/main.o > app;done: 0 read, 3 run, 0 removed;' upd
same "what it gives" "$(head -1 app)" '#define SIZE 4'
rm tup.config
row "a setting that is gone" 0 'read .;remove app.stamp;done: 1 read, 0 run, 1 removed;' upd
echo SIZE > tup.config
row "settings with a fault" 5 'fault: tup.config:1: bad config line, read for .;' upd
rm tup.config src/Tupfile
row "a folder whose Tupfile goes" 0 'read .;remove src/main.o;run .: cat lib/list.o lib/text.o > app;done: 1 read, 1 run, 1 removed;' upd
file "its source stays" src/main.c "$(printf '#include "../inc/size.h"\nint main;')"
project
mkdir x y
echo ': ../y/*.o |> cat %f > q.o |> q.o' > x/Tupfile
echo ': |> echo 1 > p.o |> p.o' > y/Tupfile
row "a folder that asks for what another makes" 0 'read x;read y;run y: echo 1 > p.o;run x: cat ../y/p.o > q.o;done: 2 read, 2 run, 0 removed;' upd
echo ': ../x/*.o |> cat %f > p.o |> p.o' > y/Tupfile
row "folders that wait for each other" 5 'fault: directories wait for each other: x -> y -> x;' upd
file "what was made stands" x/q.o 1
project
mkdir a.d b c
echo ': ../c/*.o |> cat %f > x |> x' > a.d/Tupfile
echo ': ../c/*.o |> cat %f > x.o |> x.o' > b/Tupfile
echo ': ../b/*.o |> cat %f > x.o |> x.o' > c/Tupfile
row "a circle from its first folder on" 5 'fault: directories wait for each other: b -> c -> b;' upd
project
mkdir lib src inc
echo '!cc = |> ^ CC %b^ incl %f %o |> %B.o' > Tuprules.tup
printf 'include_rules\n: foreach *.c |> !cc |> ../<objs>\n' | tee lib/Tupfile > src/Tupfile
echo ': <objs> |> cat %<objs> > %o |> app' > Tupfile
echo '#define A' > inc/a.h
printf '#include "../inc/a.h"\nint a;\n' > lib/a.c
printf '#include "../inc/a.h"\nint m;\n' > src/m.c
echo 'int n;' > src/n.c
row "a group of two folders" 0 'read .;read lib;read src;run lib: CC a.c;run src: CC m.c;run src: CC n.c;run .: cat lib/a.o src/m.o src/n.o > app;done: 3 read, 4 run, 0 removed;' upd
file "all that was given to it" app "$(printf '#define A\nint a;\n#define A\nint m;\nint n;')"
row "it is a clean build" 0 'same;' verify
project
mkdir x y
echo 'CONFIG_MODE=fast' > tup.config
echo ': |> echo @(MODE) > o |> o' > x/Tupfile
echo ': |> echo y > o |> o' > y/Tupfile
row "a setting that one of two folders takes" 0 'read x;read y;run x: echo fast > o;run y: echo y > o;done: 2 read, 2 run, 0 removed;' upd
file "the setting" x/o fast
echo 'CONFIG_MODE=slow' > tup.config
row "a setting that was edited" 13 'differs: x/o;' verify
project 'ifdef T' ': foreach *_text.txt |> cp %f %o |> %g.bin' else 'error no T' endif
echo 1 > a_text.txt
echo 2 > b_text.txt
echo CONFIG_T=y > tup.config
row "lines where a setting is" 0 'read .;run .: cp a_text.txt a.bin;run .: cp b_text.txt b.bin;done: 1 read, 2 run, 0 removed;' upd
echo 3 > c_text.txt
row "verify of a file more, of which one is made" 13 'differs: c.bin;' verify
rm tup.config
row "lines where it is gone" 5 'fault: Tupfile:4: error: no T, read for .;' upd
file "what was made stands" a.bin 1
file "all of it" b.bin 2
project ': <g> |> cat %<g> > a.o |> a.o <h>' ': <h> |> cat %<h> > b |> b <g>'
row "commands that wait for each other" 5 'fault: commands wait for each other: .: cat b > a.o -> .: cat a.o > b -> .: cat b > a.o;' upd
project ': <none> |> cat %<none> > b |> b'
row "a group that no rule gives to" 5 'fault: no rule gives to <none>;' upd
project "$copy"
row "verify before an update" 13 'differs: b;' verify
gone "it makes nothing" b
row "one rule" 0 "$done_copy" upd
row "verify behind it" 0 'same;' verify
echo mine > b
row "verify of an output that was edited" 13 'differs: b;' verify
file "it changes nothing" b mine
rm b
row "verify of one that was deleted" 13 'differs: b;' verify
echo new > foreign
row "an update with a file more" 0 "$again" upd
row "verify of a file more, which is a source" 0 'same;' verify
: > Tupfile
row "verify of what no rule makes any more" 13 'differs: b;' verify
row "verify with a word more" 2 'fault: usage, word 2;' verify now
project ': a |> fail 3 |> b'
row "verify of a rule that fails" 1 'fault: .: fail 3: status 3;' verify

# Commands that are run through another program.
project "$copy"
row "a program that isn't there" 8 'read .;fault: the runner failed;' upd --proc ./none
said "./none: the program couldn't be started"
gone "nothing was made" b
row "the next update goes on" 0 "$again" upd
echo ho > a
row "a program that leaves no log" 8 'fault: the runner failed;' upd --proc true
said "true: the program's log is bad"
file "what was made before stands" b hi
rm -r .tup/stage && echo mine > .tup/stage
no_stage='look at ./.tup/stage: a folder has to stand here, and no link to one'
row "no place for its files" 7 'fault: the file tree or the store failed;' --proc true
said "$no_stage"
file "what stands there stays" .tup/stage mine
# Nothing is removed through a link, or from a file system that is mounted there.
mkdir "$work/victim" && echo precious > "$work/victim/keep"
kept_victim() { same "$name, what it leads to" "$(cd "$work/victim" && ls -A | tr '\n' ' ')$(cat "$work/victim/keep")" 'keep precious'; }
rm .tup/stage && ln -s "$work/victim" .tup/stage
row "a link to a folder in its place" 7 'fault: the file tree or the store failed;' --proc true
said "$no_stage"
kept_victim
rm .tup/stage && mkfifo .tup/stage
row "a pipe in its place" 7 'fault: the file tree or the store failed;' --proc true
said "$no_stage"
rm .tup/stage && mkdir -p .tup/stage/old/up && ln -s "$work/victim" .tup/stage/link && ln -s "$work/victim" .tup/stage/old/up/link
ln -s "$work/victim/keep" .tup/stage/file && mkfifo .tup/stage/pipe && echo x > .tup/stage/x
row "links, a pipe and a file among older stages" 8 'fault: the runner failed;' --proc true
said "true: the program's log is bad"
kept_victim
gone "they went" .tup/stage/old
gone "and the links" .tup/stage/link
if [ "$(id -u)" = 0 ] && mount --bind "$work/victim" .tup/stage 2> /dev/null; then
    no_stage='look at ./.tup/stage: a file system is mounted here or below: tup would remove what is in it'
    row "a folder that is mounted in its place" 7 'fault: the file tree or the store failed;' --proc true
    said "$no_stage"
    umount .tup/stage && mkdir '.tup/stage/a b' && mount --bind "$work/victim" '.tup/stage/a b'
    row "one that is mounted in it" 7 'fault: the file tree or the store failed;' --proc true
    said "$no_stage"
    umount '.tup/stage/a b'
    kept_victim
    chown 65534 .tup/stage
    row "another user's folder in its place" 7 'fault: the file tree or the store failed;' --proc true
    said 'look at ./.tup/stage: it belongs to another user'
    chown 0 .tup/stage
else
    echo "passed over: what is mounted where stages are"
fi
# A program that says itself why it leaves no log.
printf '#!/bin/sh\necho why >&2\n: > "$3/said"\n' > "$work/says" && chmod +x "$work/says"
row "a program that says why it leaves no log" 8 'fault: the runner failed;' --proc "$work/says"
same "$name, standard error" "$(cat "$work/said")" why
row "an option without its word" 2 'fault: usage, word 3;' upd --proc
row "an option twice" 2 'fault: usage, word 4;' upd --proc true --proc true
# A program that leaves a log of its own: a script of these lines, in the stage.
logging() {
    project "$copy"
    printf '#!/bin/sh\ncd "$3" || exit 1\n' > "$work/logs"
    printf '%s\n' "$@" >> "$work/logs"
    chmod +x "$work/logs"
}
# Its log holds these lines, as `printf` writes them, and is bad; or a file that is named isn't as it says.
bad_log() {
    logging "printf '$2' > log"
    row "a log $1" 8 'read .;fault: the runner failed;' upd --proc "$work/logs"
    said "$work/logs: ${3+./$3: $differs}the program's log is bad"
    gone "a log $1, nothing was made" b
}
differs="it isn't as the program found it: it was changed while tup ran, or "
hi=$(echo hi | sha256sum | cut -c1-64)
ho=$(echo ho | sha256sum | cut -c1-64)
bad_log 'that is empty' ''
bad_log 'without its end' "R $hi a\nA none\n"
bad_log 'that goes on behind its end' 'E 0\nA none\n'
bad_log 'with another stamp' "R $ho a\nE 0\n" a
bad_log 'with another stamp behind one that fits' "A none\nR $hi a\nR $ho ./a\nA a\nE 0\n" a
bad_log 'that read what is not there' "R $hi none\nE 0\n" none
bad_log 'that found nothing where a file is' 'A a\nE 0\n' a
bad_log 'of a write without its file' 'W 0 b\nE 0\n'
logging 'cp ../../../a w7' "printf 'R $hi a\nA none\nA b\nA ../b\nW 7 b\nE 0\n' > log"
row "a log with a name above the project" 1 'read .;bad .: cp a b;fault: .: cp a b: reads ../b;' upd --proc "$work/logs"
logging 'cp ../../../a w7' "printf 'R $hi a\nA none\nA b\nW 7 b\nE 0\n' > log"
row "a log that fits" 0 "$done_copy" upd --proc "$work/logs"
file "what it wrote" b hi
printf '#!/bin/sh\ncd "$3" && printf "R %s b\\nE 0\\n" > log\n' "$hi" > "$work/logs"
echo ho > a
row "a log that read its own output" 8 'fault: the runner failed;' upd --proc "$work/logs"
said "$work/logs: ./b: ${differs}the program's log is bad"
logging "printf '%s\n' \"\$1\" \"\$2\" \"\${3%/*}\" \"\$4\" > w0" 'cat own >> w0' "printf 'W 0 b\nE 0\n' > log"
row "the words of a program" 0 "$done_copy" upd --proc "$work/logs"
file "they are these, and own lists the outputs" b "$(printf '%s\n' . . .tup/stage 'cp a b' b)"
logging "printf 'E 137\n' > log"
row "a status" 1 'read .;bad .: cp a b;fault: .: cp a b: status 137;' upd --proc "$work/logs"
logging "printf 'E 0\n' > log"
row "an end alone" 1 "read .;bad .: cp a b;fault: .: cp a b: doesn't write b;" upd --proc "$work/logs"
logging 'echo x > w0' "printf 'W 0 b\nW 0 c\nE 0\n' > log"
row "a write more" 1 'read .;bad .: cp a b;fault: .: cp a b: writes c;' upd --proc "$work/logs"
logging 'head -c 16777217 /dev/zero > w0' "printf 'W 0 b\nE 0\n' > log"
row "a write of more than a built-in command writes" 0 "$done_copy" upd --proc "$work/logs"
same "all of it" "$(wc -c < b)" 16777217
logging 'rm -rf ../../../.tup'
row "what tup keeps goes in the middle" 8 'read .;fault: the runner failed;' upd --proc "$work/logs"
row "it has gone" 3 'fault: no tup project here;' upd
file "the source stays" a hi
project "X = $(head -c 65000 /dev/zero | tr '\0' x)" ': a |> echo $(X) $(X) $(X) > b |> b'
row "a text that is too long for a program" 8 'read .;fault: the runner failed;' upd --proc true
said "true: the program couldn't be started"
# What was asked counts in its order: the second rule may not read g.
for text in "R $ho g\nA a=1 read .;run .: cp a g;bad .: cp a h;fault: .: cp a h: reads g;" "A a\nR $ho g=8 read .;run .: cp a g;fault: the runner failed;"; do
    logging 'echo hi > w0' "case \$4 in *g) printf 'W 0 g\nE 0\n' ;; *) printf '${text%%=*}\nW 0 h\nE 0\n' ;; esac > log"
    printf '%s\n' ': a |> cp a g |> g' ': a |> cp a h |> h' > Tupfile
    rest=${text#*=}
    row "asks in their order" "${rest%% *}" "${rest#* }" upd --proc "$work/logs"
    gone "nothing was made" h
done
if [ -x "$shim" ]; then
    project "$copy" ': b |> cat b a > c |> c'
    row "commands through tup_shim" 0 'read .;run .: cp a b;run .: cat b a > c;done: 1 read, 2 run, 0 removed;' upd --proc "$shim"
    file "what they made" c "$(printf 'hi\nhi')"
    row "an order that is left out" 0 "$nothing" --proc "$shim"
    project ': a |> cp a g |> g' ': a |> cat a g > h |> h'
    row "one that reads what it may not" 1 'read .;run .: cp a g;bad .: cat a g > h;fault: .: cat a g > h: reads g;' upd --proc "$shim"
    gone "nothing was made of it" h
    project ': a |> cp a b && cp a c |> b'
    row "one that writes what it may not" 1 'read .;bad .: cp a b && cp a c;fault: .: cp a b && cp a c: writes c;' upd --proc "$shim"
    gone "nor of this one" b
    project ': a |> fail 3 |> b'
    row "one that fails" 1 'read .;bad .: fail 3;fault: .: fail 3: status 3;' upd --proc "$shim"
else
    echo "passed over: commands through tup_shim"
fi

damaged() {
    folder "$copy"
    mkdir .tup && printf "$3" > .tup/db
    row "$1" 4 "fault: the store is damaged at byte $2;" upd
    gone "$1, nothing was made" b
    row "$1, no project begins" 4 "fault: the store is damaged at byte $2;" init
    same "$1, the store" "$(cat .tup/db | od -c)" "$(printf "$3" | od -c)"
}
damaged "the list of an old version" 0 'b\nc\n'
damaged "a store of an early version" 0 'tup-db\n\001\000'
damaged "another version of the store" 0 'tup-db2\002\000\000\000\000\000\000\000\000\000\000'
damaged "the store of another program of this name" 0 'SQLite format 3\000\020\000\001\001\000'
damaged "half a head" 0 'tup-d'
damaged "a commit that is cut off" 17 'tup-db2\001\000\000\000\000\000\000\000\000\000\001\000\000'
damaged "a record of no kind" 17 'tup-db2\001\000\000\000\000\000\000\000\000\000\001\000\000\000\011\001\000\001\153\000\000\000\001\166\000'
damaged "a start in the head" 9 'tup-db2\001\001\000\000\000\000\000\000\000\000\000'

# What an update did, one event after another, on standard error.
logged() {
    found=$("$tup" "$@" -j 1 2> "$work/said"; printf 'exit %s' "$?")
    printf '%s' "$found" | tr '\n' ';'
}
project "$copy"
same "a log" "$(logged --log)" "${done_copy}exit 0"
same "a log, standard error" "$(tr '\n' ';' < "$work/said")" 'read .;started .: cp a b;ended .: cp a b: good;'
same "a log of nothing" "$(logged upd --log)" "${nothing}exit 0"
same "a log of nothing, standard error" "$(cat "$work/said")" ""
row "--log twice" 2 'fault: usage, word 2;' --log --log
row "todo --log" 2 'fault: usage, word 2;' todo --log
echo ho > a
found=$("$tup" --log -j 1 2>&-; printf 'exit %s' "$?")
same "a log that can't be written" "$(printf '%s' "$found" | tr '\n' ';')" 'run .: cp a b;fault: a reporter failed;exit 10'
file "the update is done" b ho
echo hu > a
found=$("$tup" --log -j 1 2> /dev/full; printf 'exit %s' "$?")
same "a full log" "$(printf '%s' "$found" | tr '\n' ';')" 'run .: cp a b;fault: a reporter failed;exit 10'
file "the update is done, too" b hu
echo 'b: a' > Tupfile
same "a log, and a fault of the Tupfiles" "$(logged --log)" 'fault: Tupfile:1: unknown line, read for .;exit 5'
same "nothing was logged but the fault" "$(cat "$work/said")" 'Tupfile:1: it is neither a rule, nor does it set, define or ask anything: b: a'

project "$copy"
"$tup" upd >&-
same "a closed output" "$?" 9
file "the update is done" b hi
project "$copy"
"$tup" upd > /dev/full
same "a full output" "$?" 9
file "the update is done" b hi
project "$copy"
echo mine > target && ln -s target b
row "a link at the output" 5 'fault: Tupfile:1: output is a source file, read for .;' upd
file "its target" target mine
rm b
row "an update without it" 0 "$done_copy" upd
rm b && ln -s target b
row "a link in the place of an output" 7 'fault: the file tree or the store failed;' upd
said 'look at ./b: a link or a special file stands here'
file "its target, once more" target mine
rm b
row "it is taken away" 0 "$again" upd
file "the output is a file again" b hi
# A link is a file that holds where it leads.
project ': ln |> cp ln b |> b' ': foreach *.t |> cp %f %o |> %B.o'
ln -s a ln && ln -s a one.t && ln -s none two.t
row "links" 0 'read .;run .: cp ln b;run .: cp one.t one.o;run .: cp two.t two.o;done: 1 read, 3 run, 0 removed;' upd
file "where the first leads" b a
row "the same links" 0 "$nothing" upd
echo ho > a
row "what they lead to is another" 0 "$nothing" upd
ln -sfn elsewhere ln && ln -sfn /etc/passwd two.t
row "they lead elsewhere" 0 'run .: cp ln b;run .: cp two.t two.o;done: 0 read, 2 run, 0 removed;' upd
file "where the first leads now" b elsewhere
rm one.t && echo file > one.t
row "a file in the place of a link" 0 'run .: cp one.t one.o;done: 0 read, 1 run, 0 removed;' upd
rm ln
row "a link that is gone" 5 'fault: Tupfile:1: missing input, read for .;' upd
ln -s "$(printf 'n\377')" ln
row "a link that leads to no text" 5 'fault: Tupfile:1: missing input, read for .;' upd
ln -sfn ln ln
row "a link to itself" 0 'read .;run .: cp ln b;done: 1 read, 1 run, 0 removed;' upd
row "they are compared" 0 'same;' verify
project "$copy"
mkdir b
row "an empty folder at the output" 0 "$done_copy" upd
file "an empty folder at the output, its file" b hi
project "$copy"
mkdir b && echo mine > b/.mine
row "a folder with a hidden file at the output" 7 'read .;fault: the file tree or the store failed;' upd
said 'remove ./b: Directory not empty (os error 39)'
file "it stays" b/.mine mine
project
echo "$copy" > elsewhere && ln -s elsewhere Tupfile
row "a link named Tupfile" 7 'fault: the file tree or the store failed;' upd
said 'look at ./Tupfile: a link or a special file stands here'
gone "nothing was made" b
folder "$copy"
echo mine > .tup
row "a file named .tup" 7 'fault: the file tree or the store failed;' upd
said 'look at .tup: a link or a special file stands here'
file "it stays" .tup mine
folder "$copy"
mkdir -p .tup/db
row "a folder at the store" 7 'fault: the file tree or the store failed;' upd
said 'look at ./.tup/db: a link or a special file stands here'
gone "nothing was made" b

# Names.
project "$copy"
touch -- 'a b' "$(printf 'n\377')" "$(printf 'tab\t')" '-n' '~' '*'
row "files with names that tup doesn't see" 0 "$done_copy" upd
same "they stay" "$(ls | wc -l)" 9
wide=$(repeated 255 n | tr -d ' ')
project ": $wide |> cp $wide b |> b" ": b |> cp b ${wide%n}o |> ${wide%n}o"
echo long > "$wide"
row "names of 255 bytes" 0 "read .;run .: cp $wide b;run .: cp b ${wide%n}o;done: 1 read, 2 run, 0 removed;" upd
file "the file of such a name" "${wide%n}o" long
project ": a |> cp a ${wide}n |> ${wide}n"
row "a name of 256 bytes" 5 'fault: Tupfile:1: output stands elsewhere, read for .;' upd
bad "a place that is too long for the system" "cp $(repeated 17 "$wide" | tr ' ' /)a b" 'status 1'
project "$copy"
mkdir "$wide"
for i in 1 2 3 4 5 6 7 8 9 10 11 12 13 14 15 16; do mkdir w && mv "$wide" w && mv w "$wide"; done
row "a file whose place is too long for the system" 7 'fault: the file tree or the store failed;' upd
same "it is named" "$(sed "s/$wide/N/g" "$work/said")" "tup: look at ./N/N/N/N/N/N/N/N/N/N/N/N/N/N/N/N: File name too long (os error 36)"
gone "nothing was made" b
folder "$copy"
mkdir gone && cd gone && rmdir ../gone
row "a folder that was removed" 7 'fault: the file tree or the store failed;' init
said 'make .tup: No such file or directory (os error 2)'

# What a hurried user does wrong.
line() {
    project "$2"
    row "$1" 5 "fault: Tupfile:1: $3, read for .;" upd
    gone "$1, nothing was made" b
}
line "a shell's arrow in place of the rule's" ': a > b' 'a rule has two arrows'
line "a rule of make" 'b: a' 'unknown line'
line "a byte order mark" "$(printf '\357\273\277: a |> cp a b |> b')" 'unknown line'
line "an output below a source" ': a |> cp a a/b |> a/b' 'output stands below a file'
line "an output above the project" ': a |> cp a ../b |> ../b' 'output stands elsewhere'
line "the Tupfile as an output" ': a |> cp a Tupfile |> Tupfile' 'output stands elsewhere'
line "a comment behind a rule" "$copy # a copy" 'output is a source file'
line "a word that isn't UTF-8" "$(printf ': a |> cp a b |> b\377')" 'not UTF-8'
project "$(printf ':\ta |> cp a b |>\tb\r')"
row "tabs, and line ends of another system" 0 "$done_copy" upd
project ': a |> cp a b |>'
row "no output" 1 'read .;bad .: cp a b;fault: .: cp a b: writes b;' upd
gone "nothing was made" b
project ': a |> echo x > b |> b c'
row "an output more than is made" 1 "read .;bad .: echo x > b;fault: .: echo x > b: doesn't write c;" upd
gone "nothing was made" b
project ': b |> cp b c |> c' "$copy"
row "a rule before the one that makes its input" 5 'fault: Tupfile:1: missing input, read for .;' upd
project ': b |> cp b b |> b'
row "a rule that reads its own output" 5 'fault: Tupfile:1: missing input, read for .;' upd
project "$copy" "$copy"
row "a rule twice" 5 'fault: Tupfile:2: output named twice, read for .;' upd
project
printf ' : a |>  cp  a  b  |> b' > Tupfile
row "blanks, and no last line feed" 0 'read .;run .: cp  a  b;done: 1 read, 1 run, 0 removed;' upd
project "$copy"
row "one update" 0 "$done_copy" upd
rm a
row "its source is deleted" 5 'fault: Tupfile:1: missing input, read for .;' upd
file "what was made stands" b hi
echo ho > a
mv b c
row "an output that was renamed is a source" 0 "$done_copy" upd
file "its content" c hi
file "the output" b ho
rm -r .tup
row "the store is deleted" 3 'fault: no tup project here;' upd
row "the project begins anew" 0 'initialized;' init
row "what was made is a source" 5 'fault: Tupfile:1: output is a source file, read for .;' upd
file "it stays" b ho
rm b
row "without it" 0 "$done_copy" upd
rm Tupfile
row "the Tupfile is deleted" 0 'remove b;done: 0 read, 0 run, 1 removed;' upd
file "the source stays" a ho
project "$copy"
row "one update" 0 "$done_copy" upd
rm a && mkdir a && echo x > a/x
row "a source that is a folder now" 5 'fault: Tupfile:1: missing input, read for .;' upd
file "what was made stands" b hi
rm -r a && echo ho > a
row "it is a file again" 0 "$done_copy" upd
rm b && mkdir b && echo mine > b/x
row "an output that is a folder now" 5 'fault: Tupfile:1: output is a directory, read for .;' upd
file "it stays" b/x mine
: > Tupfile
row "its rule goes" 0 'read .;done: 1 read, 0 run, 0 removed;' upd
file "it stays still" b/x mine
project "$copy"
row "one update" 0 "$done_copy" upd
rm b && ln a b && echo ho > a
row "an output that is its source by another name" 0 "$again" upd
same "each is a file of its own" "$(stat -c %h a) $(cat a b | tr '\n' ' ')" '1 ho ho '
echo mine > c && rm b && ln -s c b
: > Tupfile
row "a link where an output was, and its rule goes" 6 'read .;fault: b was changed by hand and no rule makes it;' upd
file "it stays" b mine
project "$copy"
row "one update" 0 "$done_copy" upd
echo mine > b
: > Tupfile
row "an output that was edited, and its rule goes" 6 'read .;fault: b was changed by hand and no rule makes it;' upd
file "it is left" b mine
rm b Tupfile && mkdir Tupfile
row "a folder named Tupfile" 0 'done: 0 read, 0 run, 0 removed;' upd
project ': a |> cp a b |> b' ': a |> cp pipe c |> c'
mkfifo pipe
row "a pipe is no file" 1 'read .;run .: cp a b;bad .: cp pipe c;fault: .: cp pipe c: status 1;' upd
project
printf ': a \\\r\n|> cp a b |> b\r\nifdef X\r\n: b |> echo @(X) > c |> c\r\nendif\r\n' > Tupfile
printf 'CONFIG_X=y\r\n' > tup.config
row "line ends of another system all through" 0 'read .;run .: cp a b;run .: echo y > c;done: 1 read, 2 run, 0 removed;' upd
file "a setting without its line end" c y
project ': foreach *.t |> cp %f %o |> %B.o'
touch -- '$(X).t' '&&.t' '*.t' '-n.t' '1%.t' '>.t' '\.t' "it's.t" 'x;y.t' '|>.t' "$(printf '\303\251.t')" "$(printf 'a\nb.t')"
row "names that a shell would take" 0 "read .;$(printf 'run .: cp %s.t %s.o;' '$(X)' '$(X)' '&&' '&&' '*' '*' -n -n 1% 1% '>' '>' '\' '\' "it's" "it's" 'x;y' 'x;y' '|>' '|>' "$(printf '\303\251')" "$(printf '\303\251')")done: 1 read, 11 run, 0 removed;" upd
project "$copy"
mkdir sub && cd sub || exit 1
row "a folder of a project" 0 "$done_copy" upd
same "nothing is made there" "$(ls -A)" ''
echo ho > a && echo "$copy" > Tupfile && "$tup" init > /dev/null
row "a project in a project" 0 "$done_copy" upd
cd .. || exit 1
row "the one around it" 5 'fault: sub/Tupfile:1: output is a source file, read for sub;' upd
file "what the inner one made stands" sub/b ho
project "$copy"
row "one update" 0 "$done_copy" upd
mv "$work/$count" "$work/moved" && cp -r "$work/moved" "$work/$count" && cd "$work/moved" || exit 1
row "a project that was moved" 0 'same;' verify
: > Tupfile
row "it knows what it made" 0 'read .;remove b;done: 1 read, 0 run, 1 removed;' upd
cd "$work/$count" || exit 1
row "one that was copied has its own" 0 "$nothing" upd
: > .tup/db
row "an empty store" 3 'fault: no tup project here;' upd
row "a project begins there" 0 'initialized;' init
row "what was made is a source" 5 'fault: Tupfile:1: output is a source file, read for .;' upd
file "it stays" b hi
for word in Upd '' --help=all; do row "the word '$word'" 2 'fault: usage, word 1;' "$word"; done
row "two orders" 2 'fault: usage, word 2;' upd demo
row "an option that isn't known" 2 'fault: usage, word 1;' -x
row "a word behind --version" 2 'fault: usage, word 1;' --version upd

project ': big |> cp big b |> b'
truncate -s 1073741825 big
row "a file that is too large" 11 'fault: limit FileSize, 1073741824;' upd
truncate -s 16777217 big
row "one that is more than a built-in command writes" 1 'read .;bad .: cp big b;fault: .: cp big b: status 5;' upd
project
truncate -s 1073741825 Tupfile
row "a Tupfile that is too large" 11 'fault: limit FileSize, 1073741824;' upd
project "$copy"
truncate -s 1073741825 big
row "a large file that nobody asks for" 11 'fault: limit FileSize, 1073741824;' upd

rules=$(awk 'BEGIN { p = "a"; for (i = 1; i <= 200; i++) { printf ": %s |> cp %s f%d |> f%d\n", p, p, i, i; p = "f" i } }')
project "$rules"
same "200 rules in a chain" "$(timeout 60 "$tup" upd | tail -1)" 'done: 1 read, 200 run, 0 removed'
file "the last of them" f200 hi
inputs=$(awk 'BEGIN { for (i = 1; i <= 200; i++) printf "i%d ", i }')
project ": $inputs|> cat $inputs> b |> b"
for i in $inputs; do echo "$i" > "$i"; done
same "a rule with 200 inputs" "$(timeout 60 "$tup" upd | tail -1)" 'done: 1 read, 1 run, 0 removed'
same "all of them in order" "$(tr '\n' ' ' < b)" "$inputs"

# A first update of 8,000 rules takes half a second of a processor. One that copied all rules for each of them took twenty; it
# would be killed here.
folder
"$tup" init --no-sync > /dev/null
for folder in 1 2 3 4 5 6 7 8; do
    mkdir "d$folder"
    awk 'BEGIN { for (i = 1; i <= 1000; i++) printf ": |> echo %d > o%d |> o%d\n", i, i, i }' > "d$folder/Tupfile"
done
same "8,000 rules" "$( (ulimit -t 5 && exec "$tup" --quiet -j 1) | tail -1)" 'done: 8 read, 8000 run, 0 removed'

if [ "$(id -u)" = 0 ] && mkdir "$work/small" && mount -t tmpfs -o size=64k none "$work/small" 2> /dev/null; then
    cd "$work/small" || exit 1
    head -c 24576 /dev/zero > a
    printf '%s\n' "$copy" ': b |> cp b c |> c' > Tupfile
    "$tup" init > /dev/null
    row "a full disk" 7 'read .;run .: cp a b;fault: the file tree or the store failed;' upd
    said 'write ./c: No space left on device (os error 28)'
    same "a full disk, the source" "$(wc -c < a)" 24576
    mount -o remount,size=1m "$work/small"
    row "room was made" 0 'run .: cp b c;done: 0 read, 1 run, 0 removed;' upd
    same "room was made, the last file" "$(wc -c < c)" 24576
    mount -o remount,ro "$work/small"
    row "a disk that may only be read, and nothing to do" 0 "$nothing" upd
    row "a list of what is to be done there" 0 "$nothing" todo
    same "what was made stands" "$(wc -c < c)" 24576
    folder "$copy"
    umount "$work/small"
    mkdir .tup && mount -t tmpfs -o size=64k none .tup
    "$tup" init > /dev/null
    row "the program's folder on another disk" 0 "$done_copy" upd
    file "what was made" b hi
    same "nothing else was" "$(ls -A | tr '\n' ' ')" '.tup Tupfile a b '
    cd "$work" && umount "$work/$count/.tup"
else
    echo "passed over: a full disk"
fi

if [ "$(id -u)" = 0 ] && command -v setpriv > /dev/null; then
    chmod 755 "$work"
    cp "$tup" "$work/tup" && chmod 755 "$work/tup" && tup=$work/tup
    as_nobody() { setpriv --reuid 65534 --regid 65534 --clear-groups "$tup" "$@"; }
    # Runs a row as nobody: its name, its lines, the words.
    nobody() {
        name=$1 lines=$2
        shift 2
        found=$(as_nobody "$@" 2> "$work/said"; printf 'exit %s' "$?")
        same "$name" "$(printf '%s' "$found" | tr '\n' ';')" "${lines}exit 7"
    }
    # Begins a project of nobody's in a folder that anybody may write into.
    open_project() {
        folder "$copy"
        chmod 777 . && as_nobody init > /dev/null || exit 1
    }
    folder "$copy"
    chmod 755 .
    nobody "a folder without permission" 'fault: the file tree or the store failed;' init
    said 'make .tup: Permission denied (os error 13)'
    file "its source" a hi
    open_project
    chmod 600 a
    nobody "a source without permission" 'fault: the file tree or the store failed;' upd
    said 'open ./a: Permission denied (os error 13)'
    open_project
    mkdir -m 700 sub
    nobody "a folder that nobody may look into" 'fault: the file tree or the store failed;' upd
    said 'list ./sub: Permission denied (os error 13)'
    project "$copy"
    chmod 777 . && "$tup" > /dev/null
    echo ho > a
    nobody "a store that the superuser made" 'fault: the file tree or the store failed;' upd
    said 'open ./.tup/db: Permission denied (os error 13)'
    file "what was made stands" b hi
    open_project
    chmod 600 Tupfile
    nobody "a Tupfile without permission" 'fault: the file tree or the store failed;' upd
    said 'open ./Tupfile: Permission denied (os error 13)'
else
    echo "passed over: files without permission"
fi

if [ "$failures" -gt 0 ]; then
    echo "$failures differ"
    exit 1
fi
echo "all rows are as they have to be"
