#!/bin/sh
# The program in real projects, as a hurried user meets it: which files may be run, calls in folders below the top, options of a
# project, projects that begin by themselves, and what standard error says where something is wrong. It runs the program that is
# given as the first word, each row in a new folder, and ends with 1 where something isn't as it has to be. What needs the
# superuser (files of another user) is passed over for others, and what needs tup_sh where that isn't built in the folder beside, or
# can't run commands here.
set -u
. "$(dirname "$0")/../lib.sh"
tup=$(realpath "$1")
version=$(sed -n 's/^const VERSION: &str = "\(.*\)";/\1/p' "$(dirname "$0")/../../crates/tup/src/main.rt")
sh=$(realpath -m "$(dirname "$tup")/../../tup_sh/out/tup_sh")
work=$(mktemp -d)
chmod 755 "$work"
trap 'cd /; rm -rf "$work"' EXIT
umask 022
failures=0
count=0

# Makes a folder whose file `a` holds `hi`, with a Tupfile of the lines that are given.
folder() {
    count=$((count + 1))
    top=$work/$count
    mkdir "$top" && cd "$top" || exit 1
    printf 'hi\n' > a
    if [ $# -gt 0 ]; then printf '%s\n' "$@" > Tupfile; fi
}

# Begins a project in such a folder.
project() {
    folder "$@"
    "$tup" init > /dev/null || exit 1
}

# Runs the program with words, in the working folder: the row's name, its exit number, its lines and what standard error says,
# each line with a semicolon behind it, the words.
row() {
    name=$1 status=$2 lines=$3 said=$4
    shift 4
    # One command after another: else the lines of rules that don't need each other come in any order.
    case "$status ${1-upd}" in
        '2 '* | *' --help' | *' --version') ;;
        *' upd' | *' -'*) set -- "$@" -j 1 ;;
    esac
    found=$("$tup" "$@" 2> "$work/said"; printf 'exit %s' "$?")
    same "$name" "$(printf '%s' "$found" | tr '\n' ';')" "${lines}exit $status"
    same "$name, standard error" "$(tr '\n' ';' < "$work/said")" "$said"
}

mode() { same "$1" "$(stat -c %a "$2" 2>&1)" "$3"; }

# What stands in folders, without `.` and `..`.
names() { ls -A "$@" | tr '\n' ' '; }

copy=': a |> cp a b |> b'
run='read .;run .: cp a b;'
made="${run}done: 1 read, 1 run, 0 removed;"
none='fault: no tup project here;'
failed='fault: the file tree or the store failed;'
init_here='tup: `tup init` begins a project here;'

# Which files may be run: a name of the row, the mode that a copy has, and the bytes, as `printf` writes them.
content() {
    project "$copy"
    printf "$3" > a
    row "$1, it is copied" 0 "$made" '' upd
    mode "$1" b "$2"
}
# The same with the bytes of an ELF header behind its first five: the order of its bytes, and from its kind on.
elf() { content "$1" "$2" "\\177ELF\\2\\$3\\1\\0\\0\\0\\0\\0\\0\\0\\0\\0$4"; }
content "a text" 644 'hi\n'
content "an empty file" 644 ''
content "a script" 755 '#!/bin/sh\nexit 3\n'
./b
same "the script runs" $? 3
content "a script of two bytes" 755 '#!'
content "a file of one byte" 644 '#'
content "a script behind a blank" 644 ' #!/bin/sh\n'
elf "an ELF program" 755 1 '\2\0\076\0'
elf "an ELF shared object" 755 1 '\3\0\076\0'
elf "an ELF object file" 644 1 '\1\0\076\0'
elf "a core file" 644 1 '\4\0\076\0'
elf "an ELF file of a kind of its own" 644 1 '\2\1\076\0'
elf "an ELF program whose bytes stand the other way round" 755 2 '\0\2\0\076'
elf "a kind whose bytes stand the wrong way round" 644 2 '\2\0\0\076'
elf "an unknown order of bytes" 644 3 '\2\0\076\0'
elf "no more than the kind" 755 1 '\3\0'
elf "a header that ends before" 644 1 '\3'
content "the first four bytes alone" 644 '\177ELF'
project "$copy"
cp "$(which true)" a
row "a program of the system" 0 "$made" '' upd
mode "it is one" b 755
same "it runs" "$(./b; echo $?)" 0
umask 077
content "a script of a user who keeps things private" 700 '#!/bin/sh\n'
umask 0111
content "a script, where the mask allows no file to be run" 666 '#!/bin/sh\n'
umask 022
# Of the same content, one whose bits aren't those of its content is made anew, and another stays.
project ': a c |> cat a c > b |> b'
printf '#!/bin/sh\nexit 4\n' > a
: > c
row "a script of two files" 0 'read .;run .: cat a c > b;done: 1 read, 1 run, 0 removed;' '' upd
chmod -x b
: > a && printf '#!/bin/sh\nexit 4\n' > c
row "it is made once more" 0 'run .: cat a c > b;done: 0 read, 1 run, 0 removed;' '' upd
mode "it may be run again" b 755
printf '#!/bin/sh\nexit 4\n' > a && : > c
touch -d @9 b
row "it is made a third time" 0 'run .: cat a c > b;done: 0 read, 1 run, 0 removed;' '' upd
same "it stays" "$(stat -c %Y b)" 9
printf 'text\n' > a
row "it is a text now" 0 'run .: cat a c > b;done: 0 read, 1 run, 0 removed;' '' upd
mode "it may not be run" b 644

# Calls below the top. The words of the lines are those from the top; paths on standard error are those from where the user is.
project "$copy"
mkdir -p sub/deep '.hidden/with blank' 'with blank'
cd sub || exit 1
row "in a folder below" 0 "$made" '' upd
file "it is made in the top" ../b hi
same "nothing was made there" "$(names .)" 'deep '
echo ho > ../a
cd deep || exit 1
row "two folders below" 0 'run .: cp a b;done: 0 read, 1 run, 0 removed;' ''
row "it is compared" 0 'same;' '' verify
row "what would be done" 0 'done: 0 read, 0 run, 0 removed;' '' todo
row "a word that is none" 2 'fault: usage, word 2;' 'tup: only options may follow there: now;' upd now
row "an option that is none" 2 'fault: usage, word 1;' 'tup: no such option of an update: --fast: `tup --help` lists what there is;' --fast
row "the version" 0 "tup $version;" '' --version
for there in '.hidden/with blank' 'with blank' .tup; do
    cd "$top/$there" || exit 1
    row "in the folder $there" 0 'done: 0 read, 0 run, 0 removed;' ''
done
ln -s "$top/sub" "$work/link" && cd "$work/link" || exit 1
row "in a folder that was reached by a link" 0 'done: 0 read, 0 run, 0 removed;' ''
cd "$top/sub" || exit 1
echo 'b: a' > Tupfile
row "a Tupfile that is wrong" 5 'fault: sub/Tupfile:1: unknown line, read for sub;' '../sub/Tupfile:1: it is neither a rule, nor does it set, define or ask anything: b: a;'
rm Tupfile && ln -s ../Tupfile Tupfile
row "a link named Tupfile" 7 "$failed" 'tup: look at ../sub/Tupfile: a link or a special file stands here;'
rm Tupfile
rm ../.tup/db && mkdir ../.tup/db
row "a folder at the store" 7 "$failed" 'tup: look at ../.tup/db: a link or a special file stands here;'
rmdir ../.tup/db
row "a project without its store" 3 "$none" 'tup: ../.tup has no store: `tup init` begins a project there;'
rm -r ../.tup && echo mine > ../.tup
row "a file named .tup above" 7 "$failed" 'tup: look at ../.tup: a link or a special file stands here;'
rm ../.tup && ln -s "$work/1/.tup" ../.tup
row "a link named .tup above" 7 "$failed" 'tup: look at ../.tup: a link or a special file stands here;'
rm ../.tup
row "no project above" 3 "$none" "$init_here"
row "nor is there anything to compare" 3 "$none" "$init_here" verify
row "nor anything to be done" 3 "$none" "$init_here" todo
same "nothing was made" "$(names . ..)" '.: deep  ..: .hidden Tupfile a b sub with blank '

# A project within another.
project "$copy"
mkdir -p inner/sub && cd inner || exit 1
printf 'in\n' > a && echo "$copy" > Tupfile
row "a project within another begins" 0 'initialized;' '' init
cd sub || exit 1
row "the nearest counts" 0 "$made" ''
file "its file" ../b in
same "the other one did nothing" "$(names "$top")" '.tup Tupfile a inner '
mkdir .tup
row "a folder .tup without a store" 3 "$none" "$init_here"
cd "$top" || exit 1
mkdir "$work/gone" && cd "$work/gone" && rmdir "$work/gone"
row "in a folder that was removed" 3 "$none" "$init_here"

# The options of a project: a program that runs the commands, here one that writes its words and where it works.
program() {
    printf '%s\n' '#!/bin/sh' "echo $1 > \"\$3/w0\"" "printf 'W 0 b\nE 0\n' > \"\$3/log\"" > "$2"
    chmod +x "$2"
}
program one "$work/one"
program two "$work/two"
mkdir "$work/with blank" && program three "$work/with blank/three"
no_start="the program couldn't be started;"
folder "$copy"
row "a project with a program begins" 0 'initialized;' '' init --proc "$work/one"
file "its options" .tup/options "$(printf '%s\n' --proc "$work/one")"
row "it runs the commands" 0 "$made" ''
file "it has run" b one
rm b
row "a program of the call comes first" 0 'run .: cp a b;done: 0 read, 1 run, 0 removed;' '' upd --proc "$work/two"
file "it has run" b two
rm b && mkdir sub && cd sub || exit 1
row "it runs them for a call below the top" 0 'run .: cp a b;done: 0 read, 1 run, 0 removed;' ''
file "it has run" ../b one
cd ..
row "the project has begun" 3 'fault: already a tup project;' '' init
file "its options are as they were" .tup/options "$(printf '%s\n' --proc "$work/one")"
row "it is given others" 0 "options: --proc $work/two;" "tup: the options of .tup/options were: --proc $work/one;" init --proc "$work/two"
file "they are written" .tup/options "$(printf '%s\n' --proc "$work/two")"
rm b
row "that program runs the commands" 0 'run .: cp a b;done: 0 read, 1 run, 0 removed;' ''
file "it has run" b two
folder "$copy"
row "all options at once" 0 'initialized;' '' init --no-sync --proc "$work/with blank/three"
file "they are written" .tup/options "$(printf '%s\n' --no-sync --proc "$work/with blank/three")"
row "a program with a blank in its path" 0 "$made" ''
file "it has run" b three
folder "$copy"
row "--proc without a program" 2 'fault: usage, word 3;' 'tup: no program after --proc;' init --proc
row "a program that looks like an option" 2 'fault: usage, word 3;' 'tup: no program after --proc;' init --proc --no-sync
row "a program without a name" 2 'fault: usage, word 3;' 'tup: no program after --proc;' init --proc ''
row "a program of two lines" 2 'fault: usage, word 3;' 'tup: no program after --proc;' init --proc "$(printf 'a\nb')"
row "two programs" 2 'fault: usage, word 4;' 'tup: a second --proc;' init --proc one --proc two
row "both words for what is shown" 2 'fault: usage, word 3;' 'tup: --quiet and --verbose;' init --quiet --verbose
row "an option twice" 2 'fault: usage, word 3;' 'tup: a second --no-sync;' init --no-sync --no-sync
row "an option that is none" 2 'fault: usage, word 2;' 'tup: unknown word --fast;' init --fast
row "an option of calls alone" 2 'fault: usage, word 2;' 'tup: unknown word --explain;' init --explain
row "a word that is none" 2 'fault: usage, word 4;' 'tup: unknown word now;' init --proc one now
same "nothing was made" "$(names .)" 'Tupfile a '

# The file of the options: its lines, an exit number, the lines of an update and what standard error says.
options() {
    project "$copy"
    printf -- "$2" > .tup/options
    row "options: $1" "$3" "$4" "$5"
}
options "none" '' 0 "$made" ''
options "a program" "--proc\n$work/one\n" 0 "$made" ''
file "it has run" b one
options "both in a line" "--proc $work/one" 0 "$made" ''
file "it has run" b one
options "all in a line" "--no-sync --proc $work/one\n" 0 "$made" ''
file "it has run" b one
options "blanks, empty lines, notes, line ends of another system" "# what we use\r\n\r\n  --proc\r\n\t$work/one  \r\n\n" 0 "$made" ''
file "it has run" b one
options "a program with a blank in its path" "--proc\n$work/with blank/three\n" 0 "$made" ''
file "it has run" b three
options "a program of the project" '--proc\n./tools/run\n' 8 'read .;fault: the runner failed;' "tup: ./tools/run: $no_start"
mkdir tools sub && program four tools/run
row "it is there" 0 'run .: cp a b;done: 0 read, 1 run, 0 removed;' ''
file "it has run" b four
rm b && cd sub || exit 1
row "it is there for a call below the top" 0 'run .: cp a b;done: 0 read, 1 run, 0 removed;' ''
file "it has run" ../b four
rm ../tools/run ../b
row "it has gone" 8 'fault: the runner failed;' "tup: ../tools/run: $no_start"
row "a program of the call is one from here" 8 'fault: the runner failed;' "tup: ./tools/run: $no_start" --proc ./tools/run
options "a program that isn't there" '--proc\nno_such_program\n' 8 'read .;fault: the runner failed;' "tup: no_such_program: $no_start"
row "the call names another" 0 'run .: cp a b;done: 0 read, 1 run, 0 removed;' '' --proc "$work/two"
options "a program that isn't there, -k and --verbose: it lists all the same" '--proc\nno_such_program\n-k\n--verbose\n' 8 \
    'read .;fault: the runner failed;' "[1/1] .: cp a b;tup: no_such_program: $no_start"
row "what would be done needs no program, and shows none" 0 'todo run .: cp a b;done: 0 read, 0 run, 0 removed;' '' todo
options "no program after --proc" '--proc\n' 2 '' 'tup: .tup/options: no program after --proc;'
options "two programs" "--proc one\n--proc two\n" 2 '' 'tup: .tup/options: a second --proc;'
options "an option twice" '--no-sync\n--no-sync\n' 2 '' 'tup: .tup/options: a second --no-sync;'
options "a word that is none" '--fast\n' 2 '' 'tup: .tup/options: unknown word --fast;'
mkdir sub && cd sub || exit 1
row "a word that is none, for a call below the top" 2 '' 'tup: ../.tup/options: unknown word --fast;'
row "a word that is none, where files are compared" 2 '' 'tup: ../.tup/options: unknown word --fast;' verify
row "a word that is none, where one asks what would be done" 2 '' 'tup: ../.tup/options: unknown word --fast;' todo
row "a word that is none, and one asks for the version" 0 "tup $version;" '' --version
options "a word without dashes" 'proc tup_sh\n' 2 '' 'tup: .tup/options: unknown word proc tup_sh;'
options "a word of calls alone" '--explain\n' 2 '' 'tup: .tup/options: unknown word --explain;'
options "a word that was joined" '--proc=tup_sh\n' 2 '' 'tup: .tup/options: unknown word --proc=tup_sh;'
options "a project that goes on" '-k\n' 0 "$made" ''
options "it goes on, and the words ask for it" '-k\n' 0 "$made" ''
row "they ask for it too" 0 'done: 0 read, 0 run, 0 removed;' '' -k
goes_on='read .;bad .: fail 3;run .: cp a b;fault: .: fail 3: status 3;'
project ': a |> fail 3 |> c' "$copy"
row "it stops at a bad command" 1 'read .;bad .: fail 3;fault: .: fail 3: status 3;' ''
printf -- '-k\n' > .tup/options
row "it goes on, as its options say" 1 'bad .: fail 3;run .: cp a b;fault: .: fail 3: status 3;' '' upd
folder ': a |> fail 3 |> c' "$copy"
printf -- '-k\n' > Tupfile.ini
row "it goes on, as all who check it out" 1 "initialized;$goes_on" ''
folder ': a |> fail 3 |> c' "$copy"
row "it begins so" 0 'initialized;' '' init -k
row "and goes on" 1 "$goes_on" '' upd
options "each command is shown" '--verbose\n' 0 "$made" '[1/1] .: cp a b;'
rm b
row "the call is quiet" 0 'run .: cp a b;done: 0 read, 1 run, 0 removed;' '' upd --quiet
options "a word for what is shown, twice" '--quiet\n--quiet\n' 2 '' 'tup: .tup/options: a second --quiet;'
options "both words for what is shown" '--quiet\n--verbose\n' 2 '' 'tup: .tup/options: --quiet and --verbose;'
options "both words in the other order" '--verbose --quiet\n' 2 '' 'tup: .tup/options: --quiet and --verbose;'
options "-k twice" '-k -k\n' 2 '' 'tup: .tup/options: a second -k;'
options "bytes that are no text" '\377\n' 2 '' "tup: .tup/options: unknown word that isn't UTF-8;"
project "$copy"
mkdir .tup/options
row "a folder in the place of the options" 7 "$failed" 'tup: look at .tup/options: a link or a special file stands here;'

# Options for all who check the project out.
folder "$copy"
printf -- '--proc\n%s\n' "$work/one" > Tupfile.ini
row "a project isn't begun for a comparison" 3 "$none" 'tup: `tup` begins the project of ./Tupfile.ini;' verify
row "nor to list what would be done" 3 "$none" 'tup: `tup` begins the project of ./Tupfile.ini;' todo
row "nor for a word that is none" 2 'fault: usage, word 1;' 'tup: no such order: make: `tup --help` lists what there is;' make
same "nothing was made" "$(names .)" 'Tupfile Tupfile.ini a '
mkdir -p sub/deep && cd sub/deep || exit 1
row "a project begins by itself" 0 "initialized;$made" ''
same "in the folder of its Tupfile.ini" "$(names "$top")" '.tup Tupfile Tupfile.ini a b sub '
file "its program has run" ../../b one
row "it has begun" 0 'done: 0 read, 0 run, 0 removed;' ''
printf -- '--proc\n%s\n' "$work/two" > ../../.tup/options
rm ../../b
row "the options of this checkout come first" 0 'run .: cp a b;done: 0 read, 1 run, 0 removed;' ''
file "its program has run" ../../b two
echo --no-sync > ../../.tup/options
rm ../../b
row "what they don't say is as for all" 0 'run .: cp a b;done: 0 read, 1 run, 0 removed;' ''
file "its program has run" ../../b one
folder "$copy"
: > Tupfile.ini
row "an empty Tupfile.ini" 0 "initialized;$made" '' upd
folder "$copy"
echo '[updater]' > Tupfile.ini
row "a Tupfile.ini of other words" 2 '' 'tup: Tupfile.ini: unknown word [updater];' upd
same "nothing was made" "$(names .)" 'Tupfile Tupfile.ini a '

# A project of Debian's other tup, which keeps an SQLite file at the same place.
folder "$copy"
mkdir .tup && printf 'SQLite format 3\000\020\000' > .tup/db
damaged='fault: the store is damaged at byte 0;'
other='is of another tup (SQLite): move .tup away;'
row "a project of another tup" 4 "$damaged" "tup: .tup/db $other"
row "it isn't begun" 4 "$damaged" "tup: .tup/db $other" init
row "it isn't given options" 4 "$damaged" "tup: .tup/db $other" init --proc "$work/one"
row "what it made isn't known" 4 "$damaged" "tup: .tup/db $other" outputs
row "nor removed" 4 "$damaged" "tup: .tup/db $other" clean
same "nothing was written" "$(names .tup) $(od -An -c .tup/db | tr -d ' \n')" 'db  SQLiteformat3\0020\0'
echo '[updater]' > .tup/options
mkdir sub && cd sub || exit 1
row "it has options" 2 '' "tup: ../.tup/options: unknown word [updater];tup: ../.tup/db $other"
cd ..
row "they stay as they are" 4 "$damaged" "tup: .tup/db $other" init --proc "$work/one"
file "those of before" .tup/options '[updater]'
mv .tup away
row "it is moved away" 0 'initialized;' '' init
row "the files are built" 0 "$made" ''
folder "$copy"
mkdir Tupfile.ini
row "a folder of that name" 3 "$none" "$init_here"
row "it begins no project" 0 'initialized;' '' init
row "nor is it in its way" 0 "$made" ''
folder "$copy"
ln -s a Tupfile.ini
row "a link of that name" 3 "$none" "$init_here"
# Below a project it is a file as others. Above all others of that name it is the one that counts.
project "$copy"
mkdir -p lib/sub && echo --fast > lib/Tupfile.ini && cd lib/sub || exit 1
row "a Tupfile.ini below the top" 0 "$made" ''
same "no project begins there" "$(names ..)" 'Tupfile.ini sub '
folder "$copy"
mkdir -p lib/sub && : > Tupfile.ini && echo --fast > lib/Tupfile.ini && cd lib/sub || exit 1
row "several, and no project" 0 "initialized;$made" ''
same "it begins in the topmost" "$(names .. ../..)" '..: Tupfile.ini sub  ../..: .tup Tupfile Tupfile.ini a b lib '
folder "$copy"
: > Tupfile.ini && mkdir sub && ln -s "$top/none" .tup && cd sub || exit 1
row "a link in the place of .tup" 7 "$failed" 'tup: look at ../.tup: a link or a special file stands here;'

# What is shown of commands while they run. Without a terminal it is what --verbose asks for.
two_rules() { project ': a |> cp a b |> b' ': a |> cat a a > c |> c'; }
ran_both='read .;run .: cp a b;run .: cat a a > c;done: 1 read, 2 run, 0 removed;'
two_rules
row "no terminal" 0 "$ran_both" '' upd
two_rules
row "no terminal, and each command is shown" 0 "$ran_both" '[1/2] .: cp a b;[2/2] .: cat a a > c;' upd --verbose
row "nothing is run" 0 'done: 0 read, 0 run, 0 removed;' '' --verbose
two_rules
row "no terminal, and nothing is shown" 0 "$ran_both" '' --quiet
row "both words for what is shown" 2 'fault: usage, word 2;' "tup: --verbose stands there twice, or beside a word that it doesn't go with;" --quiet --verbose
row "a word for what is shown, twice" 2 'fault: usage, word 3;' "tup: --verbose stands there twice, or beside a word that it doesn't go with;" upd --verbose --verbose
row "they ask for an update alone" 2 'fault: usage, word 2;' 'tup: no word may follow verify: --verbose;' verify --verbose
project ': a |> cp a b && fail 3 |> b'
row "a command that fails" 1 'read .;bad .: cp a b && fail 3;fault: .: cp a b && fail 3: status 3;' \
    '[1/1] .: cp a b && fail 3;.: cp a b && fail 3: status 3;' --verbose
project ': a |> cp a c |> b'
row "a command that writes another file" 1 'read .;bad .: cp a c;fault: .: cp a c: writes c;' '[1/1] .: cp a c;' --verbose
two_rules
same "standard error that is closed" "$("$tup" --verbose -j 1 2>&- | tr '\n' ';')" "$ran_both"
two_rules
same "standard error that takes nothing" "$("$tup" --verbose -j 1 2> /dev/full | tr '\n' ';')" "$ran_both"
two_rules
"$tup" --verbose -j 1 2> "$work/said" >&-
same "standard output that is closed" "$?: $(tr '\n' ';' < "$work/said")" '9: [1/2] .: cp a b;[2/2] .: cat a a > c;'

# The same on a terminal, which is standard error alone: what it is given, with R for a return, ^ for an escape and ; for a line
# feed. Its lines are those of a file.
screen() {
    name=$1 status=$2 wanted=$3
    shift 3
    found=$(script -qec "'$tup' $* -j $jobs > '$work/lines'" /dev/null < /dev/null; printf 'exit %s' "$?")
    same "$name" "$(printf '%s' "$found" | tr '\r\033\n' 'R^;')" "${wanted}exit $status"
}
lines() { same "$name, its lines" "$(tr '\n' ';' < "$work/lines")" "$1"; }
over() { printf 'R^[K^[?7l%s^[?7h^[999C ' "$1"; }
cleared='R^[K'
jobs=1
if script -qec true /dev/null < /dev/null > /dev/null 2>&1; then
    export TERM=xterm
    two_rules
    screen "a terminal" 0 "$(over '[1/2] .: cp a b')$(over '[2/2] .: cat a a > c')$cleared" upd
    lines "$ran_both"
    two_rules
    screen "a terminal, and nothing is shown" 0 '' --quiet
    lines "$ran_both"
    two_rules
    screen "a terminal, and each command is shown" 0 '[1/2] .: cp a bR;[2/2] .: cat a a > cR;' --verbose
    lines "$ran_both"
    project ': a |> cp a b && fail 3 |> b'
    screen "a command that fails on a terminal" 1 "$(over '[1/1] .: cp a b && fail 3')R;.: cp a b && fail 3: status 3R;$cleared"
    lines 'read .;bad .: cp a b && fail 3;fault: .: cp a b && fail 3: status 3;'
    long=$(printf '%0900d' 7)
    project ": a |> echo é-$long > b |> b"
    screen "a long command" 0 "$(over "[1/1] .: echo é-$long > b")$cleared"
    project "$(printf ': a |> echo x\033[31m\302\233my > b |> b')"
    screen "a command with control characters" 0 "$(over '[1/1] .: echo x?[31m?my > b')$cleared"
    # A program whose command `say N` prints a word and ends with N. With several runners the word is kept until then, and shown below
    # the command's line.
    printf '#!/bin/sh\nprintf word\nprintf "E %%s\\n" "${4#say }" > "$3/log"\n' > "$work/says"
    chmod +x "$work/says"
    says() {
        folder ": |> say $1 |>"
        "$tup" init --proc "$work/says" > /dev/null
    }
    says 0
    screen "a command that prints" 0 "$(over '[1/1] .: say 0')$cleared"
    lines 'wordread .;run .: say 0;done: 1 read, 1 run, 0 removed;'
    jobs=2
    says 0
    screen "a command that prints, of two runners" 0 "$(over '[1/1] .: say 0')$cleared^[?7l[1/1] .: say 0^[?7hR;wordR;$cleared"
    lines 'read .;run .: say 0;done: 1 read, 1 run, 0 removed;'
    # Where standard output is the terminal too, it gets no line of a command that was good; their number is told.
    whole_screen() {
        name=$1 status=$2 wanted=$3
        shift 3
        found=$(script -qec "'$tup' $* -j 1" /dev/null < /dev/null; printf 'exit %s' "$?")
        same "$name" "$(printf '%s' "$found" | tr '\r\033\n' 'R^;' | sed 's/, [0-9]* sR/, N sR/')" "${wanted}exit $status"
    }
    two_rules
    whole_screen "two terminals" 0 "$(over '[1/2] .: cp a b')$(over '[2/2] .: cat a a > c')${cleared}done: 1 read, 2 run, 0 removedR;tup: 2 commands, 0 removed, N sR;" upd
    whole_screen "two terminals, and nothing is run" 0 "${cleared}done: 0 read, 0 run, 0 removedR;" upd
    : > Tupfile
    whole_screen "two terminals, and files are removed" 0 "${cleared}remove bR;remove cR;done: 1 read, 0 run, 2 removedR;tup: 0 commands, 2 removed, N sR;"
    project ': a |> cp a c |> c' ': c |> fail 3 |> b'
    whole_screen "two terminals, and a command fails" 1 "$(over '[1/2] .: cp a c')$(over '[2/2] .: fail 3')R;.: fail 3: status 3R;${cleared}bad .: fail 3R;fault: .: fail 3: status 3R;tup: 1 failed, 1 ran, N sR;"
    two_rules
    whole_screen "two terminals, and why" 0 "$(over '[1/2] .: cp a b')$(over '[2/2] .: cat a a > c')${cleared}read .R;run .: cp a bR;  because new .: cp a bR;run .: cat a a > cR;  because new .: cat a a > cR;done: 1 read, 2 run, 0 removedR;" --explain
    two_rules
    whole_screen "two terminals, and nothing is shown" 0 'read .R;run .: cp a bR;run .: cat a a > cR;done: 1 read, 2 run, 0 removedR;' --quiet
    jobs=2
    says 3
    screen "one that fails" 1 "$(over '[1/1] .: say 3')$cleared^[?7l[1/1] .: say 3^[?7hR;wordR;.: say 3: status 3R;$cleared"
    says 0
    screen "one whose line isn't shown" 0 "wordR;" --quiet
    jobs=1
    two_rules
    TERM=dumb
    screen "a terminal that only prints" 0 '' upd
    two_rules
    unset TERM
    screen "a terminal without a name" 0 '' upd
    export TERM=xterm
else
    echo "passed over: a terminal"
fi

# What standard error says of a fault: the file and the line, as editors read them, and what is wrong there. The paths are those from
# where the user stands.
folder
mkdir app lib && printf 'x\n' > app/a.c
printf '%s\n' ': foreach *.c |> cp %f %o |> %B.o' '' ': a.o ../lib/libx.a ../none |> cat %f > %o |> app' > app/Tupfile
"$tup" init > /dev/null
missing='fault: app/Tupfile:3: missing input, read for app;'
row "inputs that aren't there" 5 "$missing" 'app/Tupfile:3: lib/libx.a: no source, and no rule makes it;app/Tupfile:3: none: no source, and no rule makes it;' upd
row "what would be done" 5 "$missing" 'app/Tupfile:3: lib/libx.a: no source, and no rule makes it;app/Tupfile:3: none: no source, and no rule makes it;' todo
row "where files are compared" 5 "$missing" 'app/Tupfile:3: lib/libx.a: no source, and no rule makes it;app/Tupfile:3: none: no source, and no rule makes it;' verify
cd app || exit 1
row "they are named from a folder below" 5 "$missing" '../app/Tupfile:3: ../lib/libx.a: no source, and no rule makes it;../app/Tupfile:3: ../none: no source, and no rule makes it;' upd
cd .. && printf 'x\n' > lib/libx.a
row "one of them is there" 5 "$missing" 'app/Tupfile:3: none: no source, and no rule makes it;' upd
printf 'x\n' > none
row "all are" 0 'read app;run app: cp a.c a.o;run app: cat a.o ../lib/libx.a ../none > app;done: 1 read, 2 run, 0 removed;' '' upd
printf '%s\n' ': foreach *.c |> cp %f %o |> %B.o' ': a.o none $(NOT)/x |> cat %f > %o |> app' > app/Tupfile
row "one is missing, and one leads elsewhere" 5 'fault: app/Tupfile:2: missing input, read for app;' 'app/Tupfile:2: app/none: no source, and no rule above makes it;'
printf '%s\n' ': foreach *.c |> cp %f %o |> %B.o' ': a.o $(NOT)/x |> cat %f > %o |> app' > app/Tupfile
row "one leads elsewhere" 5 'fault: app/Tupfile:2: missing input, read for app;' 'app/Tupfile:2: missing input: : a.o $(NOT)/x |> cat %f > %o |> app;'
project ': b |> cp b c |> c' "$copy"
row "a rule above the one that makes its input" 5 'fault: Tupfile:1: missing input, read for .;' 'Tupfile:1: b: no source, and no rule above makes it;'
project ': obj/b |> cp %f %o |> c' ': a |> cp %f %o |> obj/b'
row "one that makes it in a folder below" 5 'fault: Tupfile:1: missing input, read for .;' 'Tupfile:1: obj/b: no source, and no rule above makes it;'
# A folder that was renamed, with what was made in it: each output that stands in the way is named.
folder
mkdir lib && touch lib/1.c lib/2.c && echo ': foreach *.c |> cp %f %o |> %B.o' > lib/Tupfile && echo ': lib/1.o |> cp %f %o |> x' > Tupfile
"$tup" init > /dev/null && "$tup" > /dev/null
mv lib lib2
there="it is there, and tup didn't make it: remove it, or keep it and drop the rule;"
row "a folder was renamed" 5 'fault: Tupfile:1: missing input, read for .;' 'Tupfile:1: lib/1.o: no source, and no rule above makes it;'
sed -i s/lib/lib2/ Tupfile
row "its outputs stand in the way" 5 'fault: lib2/Tupfile:1: output is a source file, read for lib2;' "lib2/Tupfile:1: lib2/1.o: ${there}lib2/Tupfile:1: lib2/2.o: $there"
rm lib2/1.o
row "one is removed" 5 'fault: lib2/Tupfile:1: output is a source file, read for lib2;' "lib2/Tupfile:1: lib2/2.o: $there"
rm lib2/2.o
row "all are" 0 'read .;read lib2;run lib2: cp 1.c 1.o;run .: cp lib2/1.o x;run lib2: cp 2.c 2.o;done: 2 read, 3 run, 0 removed;' ''
mkdir -p d/o && : > d/o/x && echo ': |> echo 1 > o |> o' > d/Tupfile
row "a folder where an output has to stand" 5 'fault: d/Tupfile:1: output is a directory, read for d;' 'd/Tupfile:1: d/o: a folder stands there;'
# Faults that are of no file: the line is shown.
at_line() {
    printf '%s\n' "$2" > d/Tupfile
    row "$1" 5 "fault: d/Tupfile:1: $3, read for d;" "d/Tupfile:1: $4;"
}
at_line "a rule of make" 'b: a' 'unknown line' 'it is neither a rule, nor does it set, define or ask anything: b: a'
at_line "a word of tup that this version lacks" 'export PATH' 'unknown line' "this word of tup isn't in this version: export PATH"
at_line "another" '.gitignore' 'unknown line' "this word of tup isn't in this version: .gitignore"
at_line "one arrow" ': |> echo 1 > o' 'a rule has two arrows' 'a rule wants two arrows, as in `: in |> command |> out`: : |> echo 1 > o'
at_line "a percent flag that there isn't" ': |> echo %q > p |> p' 'unknown percent flag' 'there is no such percent flag; a percent sign is written %%: : |> echo %q > p |> p'
at_line "a fault of the user's own" 'error no compiler' 'error: no compiler' 'error: no compiler'
at_line "a macro that isn't there" ': |> !cc |>' 'no such macro' 'no macro of this name is defined above: : |> !cc |>'
at_line "an output elsewhere" ': |> echo 1 > ../o |> ../o' 'output stands elsewhere' "tup may make no file there: : |> echo 1 > ../o |> ../o"
at_line "an output below a file" ': |> echo 1 > Tupfile/o |> Tupfile/o' 'output stands below a file' "a file or another output is where one of its folders has to be, or an output is below it: : |> echo 1 > Tupfile/o |> Tupfile/o"
printf '%s\n' ': |> echo 1 > o1 |> o1' ': |> echo 2 > o1 |> o1' > d/Tupfile
row "an output of two rules" 5 'fault: d/Tupfile:2: output named twice, read for d;' 'd/Tupfile:2: this rule, or one above, makes this output already: : |> echo 2 > o1 |> o1;'
printf '\377\n' > d/Tupfile
row "a Tupfile that is no text" 5 'fault: d/Tupfile:1: not UTF-8, read for d;' 'd/Tupfile:1: not UTF-8;'

# What a project has made is listed, and removed but for what was changed by hand.
project "$copy" ': a |> cat a a > c |> c'
mkdir sub && echo ': ../a |> cp ../a x |> x' > sub/Tupfile
row "nothing was made yet" 0 '' '' outputs
"$tup" > /dev/null
row "what was made" 0 'b;c;sub/x;' '' outputs
cd sub || exit 1
row "it is named from the top" 0 'b;c;sub/x;' '' outputs
echo mine > ../c
left="it isn't as tup wrote it, and is left;"
row "it is removed" 0 'remove b;remove sub/x;done: 0 read, 0 run, 2 removed;' "tup: ../c: $left" clean
same "what stands" "$(names . ..)" '.: Tupfile  ..: .tup Tupfile a c sub '
cd ..
file "what was changed" c mine
row "once more" 0 'done: 0 read, 0 run, 0 removed;' "tup: c: $left" clean
row "all is made anew" 0 'run .: cp a b;run .: cat a a > c;run sub: cp ../a x;done: 0 read, 3 run, 0 removed;' '' upd
row "a word behind it" 2 'fault: usage, word 2;' 'tup: no word may follow clean: now;' clean now
row "a word behind the other" 2 'fault: usage, word 2;' 'tup: no word may follow outputs: -k;' outputs -k
folder
row "no project to be cleaned" 3 "$none" "$init_here" clean
row "none to be listed" 3 "$none" "$init_here" outputs
same "nothing was made" "$(names .)" 'a '

# What it says of a word that can't stand where it does.
folder
usage() {
    words=$1 place=$2 said=$3
    shift 3
    row "the words $words" 2 "fault: usage, word $place;" "tup: $said;" "$@"
}
usage 'update' 1 'no such order: update: did you mean upd?' update
usage 'uptade' 1 'no such order: uptade: `tup --help` lists what there is' uptade
usage 'ibit' 1 'no such order: ibit: did you mean init?' ibit
usage 'tdoo' 1 'no such order: tdoo: did you mean todo?' tdoo
usage 'build' 1 'no such order: build: `tup --help` lists what there is' build
usage '--verbos' 1 'no such option of an update: --verbos: did you mean --verbose?' --verbos
usage '--diges' 1 'no such option of an update: --diges: did you mean --digest?' --diges
usage '--digest twice' 2 "--digest stands there twice, or beside a word that it doesn't go with" --digest --digest
usage 'a word behind --digest' 3 'no such option of an update: --fast: `tup --help` lists what there is' upd --digest --fast
usage 'a word before --digest' 1 'no such option of an update: --fast: `tup --help` lists what there is' --fast --digest
usage 'upd --keep' 2 'no such option of an update: --keep: `tup --help` lists what there is' upd --keep
usage 'todo -k' 2 'no word may follow todo: -k' todo -k
usage 'upd lib' 2 'only options may follow there: lib' upd lib
usage '-j' 2 'a number from 1 to 16 has to follow -j' -j
usage '-j 99' 2 'a number from 1 to 16 has to follow -j, and not 99' -j 99
usage '--proc' 2 'a program has to follow --proc' --proc
usage '-k -k' 2 '-k stands there twice, or beside a word that it doesn'"'"'t go with' -k -k
usage 'init --proc' 3 'no program after --proc' init --proc
same "-h is --help" "$("$tup" -h)" "$("$tup" --help)"

# A command that is none of the small ones.
unknown() {
    project ": a |> $1 |> b"
    row "$1" 1 "read .;bad .: $1;fault: .: $1: status 127;" "${2:+tup: no such built-in command: $2; \`--proc tup_sh\` runs shell commands;}"
}
unknown 'cc -c a -o b' cc
unknown 'cp a b && ./b' ./b
unknown 'cp a b && fail 127 && cc a' ''
unknown 'fail 127' ''
row "where files are compared" 1 'fault: .: fail 127: status 127;' '' verify
project ': a |> cc a |> b'
row "it is compared" 1 'fault: .: cc a: status 127;' 'tup: no such built-in command: cc; `tup verify` runs no others;' verify
folder ': a |> cp a -f b |> b'
"$tup" init --proc "$sh" > /dev/null
row "one of a program is compared" 1 'fault: .: cp a -f b: status 2;' "tup: \`tup verify\` runs the built-in commands alone, and $sh runs those of this project;" verify
project ': a |> cp a |> b'
row "a small command that is wrong" 1 'read .;bad .: cp a;fault: .: cp a: status 2;' ''

# A rule runs what another rule has built, by shell commands.
folder ': |> printf "#!/bin/sh\necho one\n" > gen |> gen' ': gen |> ./gen > o |> o'
"$tup" init --proc "$sh" > /dev/null
if [ -x "$sh" ] && "$tup" > /dev/null 2>&1; then
    mode "a program that a rule built" gen 755
    file "what it made" o one
    mkdir sub && cd sub || exit 1
    printf '%s\n' ': |> printf "#!/bin/sh\necho two\n" > gen |> gen' ': gen |> ./gen > o |> o' > ../Tupfile
    row "another, for a call below the top" 0 'read .;run .: printf "#!/bin/sh\necho two\n" > gen;run .: ./gen > o;done: 1 read, 2 run, 0 removed;' ''
    file "what it made" ../o two
    # A command that reads through a link runs again where the link leads elsewhere, and where what it leads to is another.
    folder ': |> cat ln > o |> o' ': a |> cp %f %o |> made' ': made |> cat to > p |> p'
    echo two > two && ln -s a ln && ln -s made to
    "$tup" init --proc "$sh" > /dev/null
    row "commands that read through links" 0 'read .;run .: cat ln > o;run .: cp a made;run .: cat to > p;done: 1 read, 3 run, 0 removed;' ''
    row "the same links" 0 'done: 0 read, 0 run, 0 removed;' ''
    ln -sfn two ln
    row "a link leads elsewhere" 0 'run .: cat ln > o;done: 0 read, 1 run, 0 removed;' ''
    file "what it made" o two
    echo three > two
    row "what it leads to is another" 0 'run .: cat ln > o;done: 0 read, 1 run, 0 removed;' ''
    file "what it made" o three
    echo ho > a
    row "a link to an output that is made anew" 0 'run .: cp a made;run .: cat to > p;done: 0 read, 2 run, 0 removed;' ''
    file "what it made" p ho
    row "nothing is left to do" 0 'done: 0 read, 0 run, 0 removed;' ''
    ln -sfn made ln
    row "a link leads to an output that isn't named" 1 'bad .: cat ln > o;fault: .: cat ln > o: reads made;' ''
    rm ln
    row "a link that is gone" 1 'bad .: cat ln > o;fault: .: cat ln > o: status 1;' 'cat: ln: No such file or directory;'
    echo file > ln
    row "a file in its place" 0 'run .: cat ln > o;done: 0 read, 1 run, 0 removed;' ''
    file "what it made" o file
else
    echo "passed over: shell commands"
fi

# A user saves, makes or deletes a file while an update runs. The commands: `edit` does what the user does, `cat F` reads a file.
cat > "$work/edits" << EOF
#!/bin/sh
: > "\$3/w0"
case "\$4" in
    edit) sh -e "$work/edit" ;;
    'cat '*) file=\${4#cat }
        if [ -f "\$file" ]; then
            cp "\$file" "\$3/w0"
            echo "R \$(sha256sum < "\$file" | cut -c1-64) \$file"
        else
            echo "A \$file"
        fi ;;
esac > "\$3/log"
printf 'W 0 %s\nE 0\n' "\$(cat "\$3/own")" >> "\$3/log"
EOF
chmod +x "$work/edits"
# A project in which `edit` comes first, then `cat` of a file. Words: the file, what the user does.
edited() {
    folder ': |> edit |> o' ": o |> cat $1 |> b"
    echo "$2" > "$work/edit"
    "$tup" init --proc "$work/edits" > /dev/null
}
# The update ends there, and says why; the next one does the rest. Words: the row's name, those of `edited`, what standard error
# says, and what the output holds at last.
edited_row() {
    edited "$2" "$3"
    row "$1" 7 "read .;run .: edit;$failed" "tup: read ./$2: $4;"
    row "$1: the next update" 0 "run .: cat $2;done: 0 read, 1 run, 0 removed;" ''
    file "$1: what it made" b "$5"
    row "$1: nothing is left to do" 0 'done: 0 read, 0 run, 0 removed;' ''
}
edited_row "a source that is saved while an update runs" a 'echo ho > a' 'it was changed while tup ran' ho
edited_row "a source that is replaced" a 'echo ho > new; mv new a' 'it was changed while tup ran' ho
edited_row "a source that is deleted" a 'rm a' 'it was removed while tup ran' ''
edited_row "a file that is made" none 'echo ho > none' 'it was not there before' ho
# Another command has read it before, so `tup` doesn't read it again: the program finds another content than `tup` knows of.
folder ': |> cat a |> b' ': b |> edit |> o' ': o |> cat ./a |> c'
echo 'echo ho > a' > "$work/edit"
"$tup" init --proc "$work/edits" > /dev/null
row "a source that is saved once it was read" 8 'read .;run .: cat a;run .: edit;fault: the runner failed;' \
    "tup: $work/edits: ./a: it isn't as the program found it: it was changed while tup ran, or the program's log is bad;"
file "a source that is saved once it was read: what was made before" b hi
row "a source that is saved once it was read: the next update" 0 'run .: cat a;run .: cat ./a;done: 0 read, 2 run, 0 removed;' ''
file "a source that is saved once it was read: the first output" b ho
file "a source that is saved once it was read: the other one" c ho
row "a source that is saved once it was read: nothing is left to do" 0 'done: 0 read, 0 run, 0 removed;' ''
edited "a" 'echo hi > new; mv new a; touch a'
row "a source that is saved as it was" 0 'read .;run .: edit;run .: cat a;done: 1 read, 2 run, 0 removed;' ''
edited none 'echo ho > a'
row "a source that nobody reads afterwards" 0 'read .;run .: edit;run .: cat none;done: 1 read, 2 run, 0 removed;' ''
folder ': |> make |> m' ': m |> edit |> o' ': m o |> cat m |> b'
echo 'echo mine > m' > "$work/edit"
"$tup" init --proc "$work/edits" > /dev/null
row "an output that is edited while an update runs" 7 "read .;run .: make;run .: edit;$failed" 'tup: read ./m: it was changed while tup ran;'
row "it is made anew" 0 'run .: make;run .: cat m;done: 0 read, 2 run, 0 removed;' ''
file "what it made" b ''

# What belongs to another user runs nothing where it wasn't called for.
if [ "$(id -u)" = 0 ] && setpriv --reuid=65534 --regid=65534 --clear-groups true 2> /dev/null; then
    # The program as nobody, with the words of a row.
    as_nobody() {
        real=$tup
        printf '#!/bin/sh\nexec setpriv --reuid=65534 --regid=65534 --clear-groups "%s" "$@"\n' "$real" > "$work/nobody"
        chmod 755 "$work/nobody"
        tup=$work/nobody
        row "$@"
        tup=$real
    }
    foreign='tup: ../.tup belongs to another user: call tup in its folder;'
    cp "$tup" "$work/tup" && chmod 755 "$work/tup" && tup=$work/tup
    project "$copy"
    printf -- '--proc\n%s\n' "$work/one" > .tup/options
    mkdir -m 777 sub && cd sub || exit 1
    as_nobody "a project of another user above" 3 "$none" "$foreign"
    as_nobody "it isn't compared" 3 "$none" "$foreign" verify
    same "nothing was made" "$(names . ..)" '.:  ..: .tup Tupfile a sub '
    echo "$copy" > Tupfile && printf 'hi\n' > a
    as_nobody "a project of one's own below" 0 'initialized;' '' init
    as_nobody "it is updated" 0 "$made" ''
    folder "$copy"
    chmod 777 . && printf -- '--proc\n%s\n' "$work/one" > Tupfile.ini && mkdir -m 777 sub && cd sub || exit 1
    as_nobody "a Tupfile.ini of another user above" 3 "$none" "$init_here"
    cd .. && as_nobody "called for in its folder" 0 "initialized;$made" ''
    file "its program has run" b one
    project "$copy"
    chmod 755 . && mkdir -m 777 sub && chmod 700 .tup
    as_nobody "a project of another user here" 7 "$failed" 'tup: look at .tup/options: Permission denied (os error 13);'
    folder
    mkdir -p -m 777 closed/sub && chmod 700 closed
    cd closed/sub && as_nobody "a folder above that may not be entered" 3 "$none" "$init_here"
    cd "$work" || exit 1
else
    echo "passed over: files of another user"
fi

if [ "$failures" -gt 0 ]; then
    echo "$failures differ"
    exit 1
fi
echo "all rows are as they have to be"
