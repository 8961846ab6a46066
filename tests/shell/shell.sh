#!/bin/sh
# Shell commands under the tracer: each runs over real files, and its log, its status and the sources afterwards have to be
# as wanted. Words: the program. It ends with 1 where something else came, and says so.
set -u
sh=$(realpath "$1")
if ! strace -o /dev/null true 2> /dev/null; then
    echo "passed over: there is no strace, or it may not trace"
    exit 0
fi
work=$(mktemp -d ${WORK:-/tmp}/shell.XXXXXX)
trap 'cd /; rm -rf "$work"' EXIT
trap 'exit 1' INT TERM
failures=0
all=0

wrong() {
    failures=$((failures + 1))
    printf 'wrong: %s: %s\n' "$text" "$1"
}

# The project: in src the hidden file .quiet, one with a blank in its name, and the files a, b, o, sub/s, s.c with h.h, interp, script and lost, whose interpreters are interp and none,
# the folder e, links to a and to sub, chain to the first of them, one to nowhere, one to itself, one to a file of the system and the hidden .hl.
project() {
    root=$work/root
    stage=$root/.tup/stage/0
    rm -rf "$root"
    mkdir -p "$root/src/sub" "$root/src/e" "$stage"
    cd "$root/src" || exit 1
    echo a > a && echo two > b && echo o > o && echo s > sub/s && ln -s a ln && ln -s sub dl
    mkdir links && ln -s ../ln links/chain && ln -s none links/nowhere && ln -s circle links/circle && ln -s /etc/passwd links/outside && ln -s a .hl
    ln -s "$(printf 'n\377')" links/strange
    printf '#!%s/src/interp\n' "$root" > script && chmod +x script && cp /bin/cat interp
    printf '#!%s/src/none\n' "$root" > lost && chmod +x lost
    echo '#include "h.h"' > s.c && echo 'int h;' > h.h
    echo q > .quiet && echo q > 'qui et' && mkdir .git
}

# The lines of a log, without its digests, the numbers of its files and the letters of a name that sed draws.
lines() {
    sed -e 's/^R [0-9a-f]* /R /' -e 's/^W [0-9]* /W /' -e 's/^A sed......$/A sed/' "$stage/log" | paste -sd, -
}

sources() {
    (cd "$root" && find . -path ./.tup -prune -o -printf '%y %m %p %l\n' | sort; cat src/a src/b src/o src/sub/s src/s.c src/h.h)
}

# try OWN TEXT LINES: the outputs of the rule, the command and what its log has to say.
try() {
    text=$2
    all=$((all + 1))
    project
    for output in $1; do echo "src/$output"; done > "$stage/own"
    before=$(sources)
    timeout "${LIMIT:-60}" "$sh" "$root" src "$stage" "$text" > "$work/said" 2>&1
    status=$?
    [ $status = 0 ] || wrong "exit number $status: $(cat "$work/said")"
    [ "$(sources)" = "$before" ] || wrong "a source changed"
    said=$(lines)
    [ "$said" = "$3" ] || wrong "its log says $said, wanted $3"
    # Each write has its file.
    for file in $(sed -n 's/^W \([0-9]*\) .*/\1/p' "$stage/log"); do
        [ -f "$stage/w$file" ] || wrong "w$file is missing"
    done
}

# kept N BYTES: what the file of that number holds.
kept() {
    [ "$(cat "$stage/w$1")" = "$2" ] || wrong "w$1 holds $(cat "$stage/w$1"), wanted $2"
}

# stamped PATH BYTES: the digest with which the log says that a path was read is that of these bytes.
stamped() {
    wanted=$(printf %s "$2" | sha256sum | cut -d ' ' -f 1)
    grep -q "^R $wanted $1\$" "$stage/log" || wrong "the digest of $1 isn't that of $2"
}

# told TEXT: a line that the program printed.
told() {
    grep -qF -- "$1" "$work/said" || wrong "it didn't say: $1"
}

# silent: the program printed nothing of its own.
silent() {
    if grep -q '^tup_sh:' "$work/said"; then wrong "it said $(cat "$work/said")"; fi
}

# Where no command can be run apart on this machine, the program says why, once.
project
: > "$stage/own"
"$sh" "$root" src "$stage" true > "$work/said" 2>&1 || { cat "$work/said"; exit 1; }

# lacking TEXT LINE COMMAND ..: where something is missing this command ends with 1, leaves no log, and says so in this line.
lacking() {
    text=$1
    line=$2
    all=$((all + 1))
    project
    : > "$stage/own"
    shift 2
    "$@" "$sh" "$root" src "$stage" true > "$work/said" 2>&1
    status=$?
    [ $status = 1 ] || wrong "exit number $status"
    [ -e "$stage/log" ] && wrong "there is a log"
    told "$line"
    [ "$(wc -l < "$work/said")" = 1 ] || wrong "it said more: $(cat "$work/said")"
}
# -- what is missing is named: a program, and namespaces of the user's own
mkdir "$work/few" && ln -s "$(command -v sh)" "$work/few/sh"
lacking 'without strace' "strace isn't there: install the package strace" env PATH="$work/few"
if unshare -U --map-user=1000 --map-group=1000 --keep-caps true 2> /dev/null; then
    lacking 'without namespaces' 'no namespace could be made: a container has to allow it' \
        unshare -U --map-user=1000 --map-group=1000 --keep-caps sh -c 'echo 0 > /proc/sys/user/max_user_namespaces; exec "$@"' sh
fi
# -- reading: files, nothing, folders; through links, which are files that hold where they lead
try '' 'cat a b nope; [ -e sub/s ]' 'R a,R b,A nope,R sub/s,E 0'
told two
told 'nope: No such file'
try '' 'cat ln dl/s a/x; [ -d sub ]; [ -d nodir ]' 'R ln,R a,R dl,R sub/s,A a/x,A sub,A nodir,E 1'
# -- a folder isn't reached through a link, which may lead elsewhere some day
through="tup_sh: src/dl: a folder can't be reached through a link: name it by its own path"
try '' 'cat dl/s' 'R dl,R sub/s,E 1'
told "$through"
try '' 'cd dl; cat s' 'R dl,A sub,R sub/s,E 1'
told "$through"
try '' 'ls dl/' 'R dl,A sub,E 1'
told "$through"
try '' 'cat dl/s; exit 3' 'R dl,R sub/s,E 3'
told "$through"
try '' 'readlink dl; ls; cat sub/s ln; cat ln/x' 'R dl,R sub/s,R ln,R a,A a/x,E 1'
told 'tup_sh: lists src, and a new file there'
try '' 'cat links/chain; [ -e links/nowhere ] || [ -L links/nowhere ]' 'R links/chain,A links,R ln,R a,R links/nowhere,A links/none,E 0'
silent
stamped links/chain ../ln
stamped ln a
stamped a 'a
'
try '' 'cat links/circle; head -c 0 links/outside' 'R links/circle,R links/outside,E 0'
# -- a link that leads to no text isn't followed, and it says so
try '' 'cat links/strange' 'A links/strange,E 1'
told "tup_sh: reads src/links/strange, which tup doesn't see: its changes won't run this command again"
try '' 'cat links/strange .quiet; rm -f links/strange; ln -s a links/strange; cat links/strange' 'A links/strange,A links,A links/a,E 1'
told "tup_sh: reads src/links/strange, which"
[ "$(grep -c "which tup doesn't see" "$work/said")" = 1 ] || wrong "it said $(cat "$work/said")"
try '' 'readlink links/strange; ls links >/dev/null' 'A links/strange,A links,E 0'
told 'tup_sh: lists src/links, and a new file there'
# -- a hidden link isn't seen, and it says so
try '' 'cat .hl' 'R a,E 0'
told "tup_sh: reads src/.hl, which tup doesn't see: its changes won't run this command again"
# -- own outputs aren't there before they are written; what is written isn't asked for
try 'o' 'cat o; echo x >o; cat o; echo y >>o' 'A o,W o,E 0'
kept 0 'x
y'
try '' 'echo more >>a; echo x >>new' 'R a,A new,W a,W new,E 0'
kept 0 'a
more'
# -- moving and editing in place
try '' 'mv a a2; cat a2' 'A a2,R a,W a2,W a,E 0'
# -- what is in a folder that was made and moved: asked for all the same, as absent, and the last of the writes
try '' 'mkdir d; echo x >d/f; mv d d2; cat d2/f; echo y >z' 'A d,A d2,W z,W d2/f,E 0'
try '' 'sed -i s/two/TWO/ b; cat b' 'R b,A sed,W b,E 0'
kept 0 TWO
# -- what changes no content is no write
try '' 'chmod 600 a; touch b; mkdir d; echo t >tmp; rm tmp' 'R a,R b,A d,E 0'
try '' 'rm -r sub; mkdir sub; echo n >sub/n' 'A sub,R sub/s,W sub/s,W sub/n,E 0'
try '' 'mv sub sub2; cat sub2/s' 'A sub,A sub2,R sub/s,W sub2/s,W sub/s,E 0'
# -- links as outputs are a stated end
try '' 'ln a hl; ln -s b sl; cat hl sl' 'R a,A hl,A sl,R b,W hl,E 1'
told "sl: a link, a pipe, a socket or a device can't be an output"
try '' 'echo 1 >t; echo 2 >b2; mv t a2; exec 3<>a; read x <&3' 'A a2,R a,W b2,W a2,E 0'
# -- programs and their interpreters
try '' './script; ./noscript' 'R script,R interp,A noscript,E 127'
try '' './lost' 'R lost,A none,E 127'
if command -v gcc > /dev/null; then
    try 's.o' 'gcc -c s.c -o s.o' 'R s.c,A s.o,A s.c.gch,A h.h.gch,R h.h,W s.o,E 0'
    try 's.o' 'echo "int x" >>s.c; gcc -c s.c -o s.o' 'R s.c,A s.o,A s.c.gch,A h.h.gch,R h.h,W s.c,E 1'
    told error
fi
# -- what outlives the command is ended with it; a signal's number comes as a shell tells it
try '' '(setsid sleep 9; echo late >late) & echo now >now' 'W now,E 0'
try '' 'rm -f ln; cp -P dl dl2; set -C; echo >b; kill -9 $$' 'R ln,A dl2,R dl,R b,A sub,W ln,E 137'
try '' 'kill -TERM $$' 'E 143'
try '' 'exit 3' 'E 3'
# -- whatever a command does, no source changes
try '' 'rm -rf links/* *; echo x > ../source; echo y > ../src/a' 'A links,R links/chain,R links/circle,R links/nowhere,R links/outside,A links/strange,R a,R b,R dl,A e,R h.h,R interp,R ln,R lost,R o,R s.c,R script,A sub,R sub/s,W links/chain,W links/circle,W links/nowhere,W links/outside,W links/strange,W a,W b,W dl,W h.h,W interp,W ln,W lost,W o,W s.c,W script,W sub/s,W ../source,E 0'
try '' 'mkfifo p; :' 'A p,E 1'
told "p: a link, a pipe"
try '' 'mknod d c 1 3' 'A d,E 1'
told 'd: Operation not permitted'
if command -v perl > /dev/null; then
    try '' "perl -MSocket -e 'socket(S, PF_UNIX, SOCK_STREAM, 0); bind(S, sockaddr_un(q(k)))'; echo x >out" 'A k,W out,E 1'
    told "k: a link, a pipe, a socket"
fi
try '' 'umount "$PWD/.." 2>/dev/null; mount -t tmpfs none . 2>/dev/null; echo x >a' 'A none,W a,E 0'
# -- names that tup doesn't see: neither asked nor kept, and it says so
try '' "echo x > 'a b'; cat 'a b' 'no such'; cat '\"q\\'" 'A "q\,E 1'
told "weren't kept: 1"
try '' 'cat ../.git/HEAD; echo x >.hidden' 'E 0'
told "weren't kept: 1"
# -- names that aren't UTF-8: their files are counted, their folders aren't
try '' 'n=$(printf "\351"); mkdir "$n" && echo x >"$n/a" && echo x >"$n/b" && echo x >c"$n" && mkdir d"$n" && echo x >out' 'W out,E 0'
told "weren't kept: 3"
# -- a file of the project that tup doesn't see is named where it is read, the first of a command
try '' 'cat .quiet; cat ./.quiet "qui et" ../src/.quiet' 'E 0'
told "tup_sh: reads src/.quiet, which tup doesn't see: its changes won't run this command again"
[ "$(grep -c '^tup_sh:' "$work/said")" = 1 ] || wrong "it said $(cat "$work/said")"
try '' 'cat "qui et" .quiet' 'E 0'
told "tup_sh: reads src/qui et, which tup doesn't see"
try '' 'cat .none ../.tup/none; ls -a .git; echo x >.own; cat .own; rm .own' 'E 0'
silent
# -- one of more bytes than a file has at most is named, and the command isn't good
try 'big' 'truncate -s 1073741825 big' 'A big,W big,E 1'
told 'tup_sh: src/big has 1073741825 bytes: an output has at most 1073741824'
try 'big' 'head -c 16777217 /dev/zero >big' 'W big,E 0'
silent
# -- folders of processes
try '' 'cd sub; cat s; cd ..; (cd e; cat ../a nope); env -C sub cat s no' 'A sub,R sub/s,A e,R a,A e/nope,A sub/no,E 1'

# -- a folder that is asked for is in the log, there or not: by test, a listing, entering it, a compiler's search
try '' '[ -d nodir ]; [ -d sub ]; [ -d e ]' 'A nodir,A sub,A e,E 0'
try '' 'ls sub > /dev/null; cd e' 'A sub,A e,E 0'
if command -v clang > /dev/null; then
    try '' 'echo "#include \"foo/x.h\"" > t.c; clang -Ie -fsyntax-only t.c 2> /dev/null; rm t.c' 'A e,A foo,A e/foo,E 0'
fi
# -- what is made where nothing was is asked for too; the command's own folder and those above it say nothing
try '' 'mkdir q && echo made > made || echo had > made' 'A q,W made,E 0'
try '' 'mkdir sub 2> /dev/null || echo had > had; ln -s a q; cat q; rm q' 'A sub,A q,R a,W had,E 0'
try '' '[ -d . ] && [ -d .. ] && cd ../src && cat a' 'R a,E 0'
# -- what is made in a folder asks for it, and so does what is missed there, for all above it; the folders of own outputs are made
# for the command
try '' 'mkdir sub/t && rmdir sub/t' 'A sub,A sub/t,E 0'
try '' 'echo x > sub/tmp; rm sub/tmp; echo x >> e/tmp; rm e/tmp' 'A sub,A e,A e/tmp,E 0'
try '' 'ln -s x sub/l; rm sub/l; ln a e/hl; rm e/hl' 'A sub,A sub/l,R a,A e,A e/hl,A sub/x,E 0'
try '' 'echo x > t; mv t sub/t; rm sub/t' 'A sub,A sub/t,E 0'
try '' 'mkdir d/t' 'A d,A d/t,E 1'
try '' 'ln -s sub/no k; cat k; rm k' 'A k,A sub,A sub/no,E 0'
try '' 'cat d/f/g d/f/h a/x' 'A d/f,A d,A d/f/g,A d/f/h,R a,A a/x,E 1'
try '' 'cat d/f/../g' 'A d,A d/f,E 1'
try '' 'mkdir sub/t; echo x > sub/t/f; cat sub/t/g; rm -r sub/t' 'A sub,A sub/t,E 0'
try '' 'echo x > sub/.tmp; rm sub/.tmp; cat d/.tmp e/s/.git/x' 'A sub,A d,A e,A e/s,E 1'
try 'sub/t f/o' 'echo x > sub/t; cat f/o' 'A f/o,W sub/t,E 1'
# -- `..` asks for the folder that it leaves, and leads nowhere where none is
try '' 'cat nodir/../a; cat sub/../b; cat a/../b' 'A nodir,A sub,R b,R a,E 1'
# -- below a folder that the command made, moved or removed nothing is asked of the project
try '' 'mkdir t; echo x > t/x; mv t u; cat u/x; cat u/y t/x' 'A t,A u,W u/x,E 1'
# -- links in /proc, and a way out of the system's folders
try '' 'cat /proc/self/cwd/k /proc/self/cwd/a /proc/$$/cwd/b /proc/self/root'"$work"'/root/src/nope' 'A k,R a,R b,A nope,E 1'
try '' 'cat /usr/..'"$work"'/root/src/a; cat /usr/..'"$work"'/root/src/nope; cat /etc/../usr/bin/nope' 'R a,A nope,E 1'
# -- a program that another thread than the first starts, while the first does nothing or waits in a call
cat > "$work/thread.c" << 'END'
#include <fcntl.h>
#include <pthread.h>
#include <unistd.h>
static char **words;
static void *run(void *none) {
    usleep(200000);
    execv(words[2], words + 2);
    return none;
}
int main(int count, char **given) {
    pthread_t thread;
    words = given;
    pthread_create(&thread, 0, run, 0);
    if (count && *given[1]) open(given[1], O_RDONLY);
    pthread_join(thread, 0);
    return 1;
}
END
if command -v gcc > /dev/null && gcc "$work/thread.c" -o "$work/thread" -lpthread; then
    try '' "$work/thread '' ./script > out" 'R script,R interp,W out,E 0'
    try '' "mkfifo f; (sleep 1; $work/thread '' ./script) & $work/thread f ./script > out; rm f; wait" 'A f,R script,R interp,W out,E 0'
fi
# -- a program whose interpreter isn't there isn't missed itself
try '' './lost; ./lost' 'R lost,A none,E 127'
# late TEXT WHAT..: the command, which lets somebody else do WHAT of the project by `$meanwhile`, once in each of its runs.
meanwhile="echo > $work/ready; read none < $work/go"
late() {
    text=$1
    shift
    all=$((all + 1))
    project
    : > "$stage/own"
    rm -f "$work/ready" "$work/go" && mkfifo "$work/ready" "$work/go"
    for what; do
        read -r none < "$work/ready"
        (cd "$root/src" && eval "$what")
        echo > "$work/go"
    done &
    timeout 60 "$sh" "$root" src "$stage" "$text" > "$work/said" 2>&1
    status=$?
    kill $! 2> /dev/null
    wait
}
# -- what was missed and stands in the end, or was found and is gone, is named, and the command runs once more
late "cat late; $meanwhile" 'echo new > late' :
[ "$(lines)" = 'R late,E 0' ] || wrong "its log says $(lines)"
told 'src/late '
late "test -e b; $meanwhile" 'rm b' :
[ "$(lines)" = 'A b,E 0' ] || wrong "its log says $(lines)"
told 'src/b '
# -- and if that happens again there is no log
late "test -e b; $meanwhile" 'rm b' 'echo > b'
[ "$status" = 1 ] && [ ! -e "$stage/log" ] || wrong "exit number $status, $(lines)"
told 'tup_sh: src/b was changed while it was read'
# -- a folder that comes meanwhile is no file
late "test -d late; $meanwhile" 'mkdir late; echo > late/x'
[ "$(lines)" = 'A late,E 0' ] || wrong "its log says $(lines)"
# -- what a command makes or may have changed itself says nothing of before
late "test -e c || echo > c; test -e c; echo >> d; cat d; rm c d; $meanwhile" :
[ "$(lines)" = 'A c,A d,E 0' ] || wrong "its log says $(lines)"
# -- a command with a thousand processes, also where others take the processors
LIMIT=600 try '' 'i=0; while [ $i -lt 1000 ]; do /bin/true; i=$((i+1)); done' 'E 0'

# -- files and folders that nobody may read
try '' 'mkdir c && echo x >c/out && chmod 0 c/out c' 'A c,W c/out,E 0'
kept 0 x
try '' 'mkdir -p c/d && chmod 0 c/d c; chmod 0 .' 'A c,E 0'
# -- outputs from before in folders: each is absent until it is written, and its folder has its mode
try 'sub/s sub/t e/u' 'cat sub/s e/u; stat -c %a sub; echo x >sub/s' 'A sub/s,A e/u,A sub,W sub/s,E 0'
told 'cat: sub/s: No such file'
# -- a stage that a stopped command left serves the next one
try '' 'mkdir c && echo x >c/f && chmod 0 c; kill -9 $$' 'A c,W c/f,E 137'
text='a stage that was left'
all=$((all + 1))
mkdir "$stage/up/src/more" && chmod 0 "$stage/up/src/more"
[ ! -d "$stage/wk/work" ] || chmod 0 "$stage/wk/work"
"$sh" "$root" src "$stage" 'echo y >new' > "$work/said" 2>&1 || wrong "exit number $?: $(cat "$work/said")"
[ "$(lines)" = 'W new,E 0' ] || wrong "its log says $(lines)"
kept 0 y

# -- the environment is the command's own
environment() {
    text="the environment $1"
    all=$((all + 1))
    project
    : > "$stage/own"
    shift
    env "$@" "$sh" "$root" src "$stage" 'env > out' > "$work/said" 2>&1 || wrong "exit number $?: $(cat "$work/said")"
    env "$@" sh -c env > "$work/plain"
    [ "$(grep -vE '^(PWD|OLDPWD|_)=' "$stage/w0" | sort)" = "$(grep -vE '^(PWD|OLDPWD|_)=' "$work/plain" | sort)" ] || wrong "it is $(cat "$stage/w0")"
}
environment 'without a locale' -u LC_ALL LANG=C.UTF-8
environment 'with a locale' LC_ALL=C.UTF-8
environment 'with an empty locale' LC_ALL=
environment 'with the names of a script' root=1 dir=2 text=3 wrap=4 caps=5 options=6 r=7 locale=8
# refused TEXT LINE: the command leaves no log, and the program says so in this line and leaves the file that says so.
refused() {
    text=$1
    all=$((all + 1))
    project
    : > "$stage/own"
    timeout 60 "$sh" "$root" src "$stage" "$text" > "$work/said" 2>&1
    status=$?
    [ $status = 1 ] || wrong "exit number $status"
    [ -e "$stage/log" ] && wrong 'there is a log'
    [ -e "$stage/said" ] || wrong 'it does not say that it told why'
    told "$2"
}
# -- the shell of the command is killed: its end isn't known
refused 'kill -9 -1; sleep 1' 'tup_sh: the trace was cut off'
# -- a command that begins with a dash
try '' '-x; echo 1 > n' 'W n,E 0'
# -- the folders of its own outputs are there
try 'new/deep/o' 'echo x > new/deep/o' 'W new/deep/o,E 0'
# -- what only its owner may read is named
try 'key' 'umask 077; echo x > key' 'W key,E 0'
told 'tup_sh: src/key is for its owner alone: tup writes it so that others may read it'
# -- a folder that is listed
try '' 'ls e' 'A e,E 0'
told "tup_sh: lists src/e, and a new file there won't run this command again: use a pattern as input"
try '' 'ls -a .git; mkdir d; ls d; rmdir d' 'A d,E 0'
silent
# -- the environment: where the command was before, and programs that keep to the standard
environment 'of the standard' POSIXLY_CORRECT=1
before_is() {
    text="the folder before: $1"
    all=$((all + 1))
    project
    : > "$stage/own"
    shift
    env "$@" "$sh" "$root" src "$stage" 'echo "${OLDPWD-none}" > out' > "$work/said" 2>&1 || wrong "exit number $?"
    [ "$(cat "$stage/w0")" = "$(env "$@" sh -c 'echo "${OLDPWD-none}"')" ] || wrong "it is $(cat "$stage/w0")"
}
before_is 'none' -u OLDPWD
before_is 'one' OLDPWD=/nowhere
before_is 'the root' OLDPWD=/
# -- the signals that it ignores are those that its caller ignores, but for 32 and 33: the C library keeps them for itself, and its
# posix_spawn ignores them in what it starts, as make's commands have it too
text='signals'
all=$((all + 1))
project
: > "$stage/own"
"$sh" "$root" src "$stage" 'sed -n "s/^SigIgn:.//p" /proc/self/status > out' > "$work/said" 2>&1 || wrong "exit number $?: $(cat "$work/said")"
[ $((0x$(cat "$stage/w0") & ~0x180000000)) = $((0x$(sed -n 's/^SigIgn:.//p' /proc/self/status) & ~0x180000000)) ] || wrong "it ignores $(cat "$stage/w0")"
# -- a file that is changed while it is read: the command runs once more, and then it is refused
text='a file that is changed and changed back'
all=$((all + 1))
project
: > "$stage/own"
(sleep 1; echo B > "$root/src/a"; sleep 1; echo a > "$root/src/a") &
"$sh" "$root" src "$stage" 'sleep 1.5; cat a > out; sleep 1.5' > "$work/said" 2>&1 || wrong "exit number $?: $(cat "$work/said")"
wait $!
told 'tup_sh: src/a was changed while it was read: again'
[ "$(lines)" = 'R a,W out,E 0' ] || wrong "its log says $(lines)"
kept 0 a
text='a file that is changed all the time'
all=$((all + 1))
project
: > "$stage/own"
"$sh" "$root" src "$stage" 'sleep 1; cat a > out; sleep 1' > "$work/said" 2>&1 &
first=$!
while kill -0 $first 2> /dev/null; do touch "$root/src/a"; sleep 0.2; done
wait $first && wrong 'it ended well'
told 'tup_sh: src/a was changed while it was read: again'
[ "$(grep -c 'was changed while it was read' "$work/said")" = 2 ] || wrong "it said $(cat "$work/said")"
[ -e "$stage/log" ] && wrong 'there is a log'
# -- what is killed ends its command, whatever that ignores
text='a command whose program is killed'
all=$((all + 1))
project
: > "$stage/own"
"$sh" "$root" src "$stage" 'trap "" INT TERM HUP; echo > here; sleep 31.41' > "$work/said" 2>&1 &
first=$!
for i in 1 2 3 4 5 6 7 8 9 10; do [ -e "$stage/up/src/here" ] && break; sleep 0.2; done
kill -9 $first
wait $first 2> /dev/null
sleep 0.5
grep -lzx '31[.]41' /proc/[0-9]*/cmdline 2> /dev/null | grep -q . && wrong 'it goes on'
# -- a compile is traced without the calls that read a link, unless another program runs
if command -v gcc > /dev/null; then
    try 's.o' 'gcc -c s.c -o s.o; realpath nope' 'R s.c,A s.o,A s.c.gch,A h.h.gch,R h.h,A nope,W s.o,E 0'
fi

# -- file systems in the project, and other places where it is mounted. Root of a namespace of users can mount them, but can't lay an
# overlay over them: commands are refused there, which a row below sees.
if [ "$(id -u)" = 0 ] && ! grep -q '^ *0 *0 *4294967295$' /proc/self/uid_map; then
    echo 'passed over: file systems in the project, for root of a namespace of users can lay no overlay over them'
elif [ "$(id -u)" = 0 ] && unshare -m true 2> /dev/null; then
    # mounted SETUP TEXT LINES: the same where this was mounted before, in a namespace of its own.
    mounted() {
        text=$2
        all=$((all + 1))
        project
        : > "$stage/own"
        mkdir -p "$work/second" "$work/part" && echo new > "$work/conf"
        mkdir -p "$root/src/vendor/deep" && echo old > "$root/src/vendor/v"
        (cd "$root/src" && root=$root work=$work unshare -m sh -c "$1"'; shift; exec "$@"' sh '' "$sh" "$root" src "$stage" "$2") > "$work/said" 2>&1 || [ "$3" = none ] || wrong "exit number $?: $(cat "$work/said")"
        [ "$3" = none ] || [ "$(lines)" = "$3" ] || wrong "its log says $(lines), wanted $3"
        [ "$(cat "$root/src/a")" = a ] || wrong 'a source changed'
    }
    tmp='mount -t tmpfs none vendor; mkdir vendor/deep; echo fresh > vendor/v'
    mounted "$tmp" 'cat vendor/v > out' 'R vendor/v,W out,E 0'
    kept 0 fresh
    mounted "$tmp; mount -t tmpfs none vendor/deep; echo d > vendor/deep/d" 'cat vendor/deep/d > out; echo x > vendor/v' 'R vendor/deep/d,R vendor/v,W out,E 2'
    kept 0 d
    mounted 'mount --bind "$work/conf" b' 'cat b > out; echo x > b' 'R b,W out,E 2'
    kept 0 new
    [ "$(cat "$work/conf")" = new ] || wrong 'what is mounted changed'
    mounted 'mount --bind "$root" "$work/second"' "cat '$work/second/src/a' > out; echo x > '$work/second/src/a'" 'R a,W out,W a,E 0'
    mounted 'mount --bind "$root/src" "$work/part"' "cat '$work/part/a' > out; echo x > '$work/part/a'" 'R a,W out,W a,E 0'
    # A stage on an overlay: what is written is held in memory.
    mounted 'mkdir "$work/up" "$work/wk"; mount -t overlay -o "lowerdir=$root,upperdir=$work/up,workdir=$work/wk" overlay "$root"; cd "$root/src"; : > ../.tup/stage/0/own; cp -r ../.tup/stage/0 "$work/st"' 'cat a > /dev/null' none
fi
# -- root of a namespace of users, and root without the right to mount
if unshare -rm true 2> /dev/null; then
    text='root of a namespace'
    all=$((all + 1))
    project
    : > "$stage/own"
    unshare -r "$sh" "$root" src "$stage" 'cat a > out' > "$work/said" 2>&1 || wrong "exit number $?: $(cat "$work/said")"
    [ "$(lines)" = 'R a,W out,E 0' ] || wrong "its log says $(lines)"
    text='a file system in the project, and a user'
    all=$((all + 1))
    project
    : > "$stage/own"
    unshare -rm sh -c 'mkdir e/v && mount -t tmpfs none e/v; exec "$@"' sh "$sh" "$root" src "$stage" true > "$work/said" 2>&1 && wrong 'it ended well'
    told 'tup_sh: src/e/v is a file system of its own, over which only root can lay an overlay'
fi
# -- what is needed, in a table
text='--check'
all=$((all + 1))
project
"$sh" --check "$root" > "$work/said" 2>&1 || wrong "exit number $?"
told 'commands    run'
[ -z "$(ls "$root/.tup/stage" | grep try)" ] || wrong 'its trial is left'
# -- the folder of a command isn't there
text='a folder that is missing'
all=$((all + 1))
project
: > "$stage/own"
"$sh" "$root" none "$stage" true > "$work/said" 2>&1
status=$?
[ $status = 1 ] || wrong "exit number $status"
told "tup_sh: the folder of the command isn't there"
# -- a project keeps the mark that hides .tup: only its first command makes one. What isn't one isn't taken. On an overlay none can
# be made: what a command writes is held in memory there, and each makes its own.
if [ "$(stat -f -c %T "$work")" = overlayfs ]; then
    echo 'passed over: the mark that a project keeps, which no overlay can hold'
else
    text='the mark'
    all=$((all + 1))
    project
    mkdir "$work/bad" && printf '#!/bin/sh\nexit 1\n' > "$work/bad/mknod" && chmod +x "$work/bad/mknod"
    again() {
        rm -rf "$stage" && mkdir "$stage" && : > "$stage/own"
        "$@" "$sh" "$root" src "$stage" 'ls -a .. && cat ../.tup/options' > "$work/said" 2>&1
    }
    again env || wrong "exit number $?: $(cat "$work/said")"
    [ -c "$root/.tup/mark" ] || wrong 'it is not kept'
    again env PATH="$work/bad:$PATH" || wrong "exit number $? with one kept: $(cat "$work/said")"
    if grep -q '\.tup$' "$work/said"; then wrong '.tup is seen'; fi
    rm "$root/.tup/mark" && echo x > "$root/.tup/mark"
    again env || wrong "exit number $? with a file in its place: $(cat "$work/said")"
    if grep -q '\.tup$' "$work/said"; then wrong '.tup is seen behind a file'; fi
    again env PATH="$work/bad:$PATH" && wrong 'a file was taken for it'
    told "tup_sh: the stage can't be made"
    rm "$root/.tup/mark" && mkfifo "$root/.tup/mark"
    again env || wrong "exit number $? with a pipe in its place: $(cat "$work/said")"
    rm "$root/.tup/mark" && again env && [ -c "$root/.tup/mark" ] || wrong 'it is not kept again'
fi
# begun: the command has made its file first.
begun() {
    for _ in $(seq 100); do
        grep -qs '"first"' "$stage/trace" && break
        sleep 0.1
    done
}
# -- a stage that the next update takes while the command still runs stays the next one's
text='a stage that is taken'
all=$((all + 1))
project
: > "$stage/own"
"$sh" "$root" src "$stage" 'echo x >first; sleep 3; echo x >last' > "$work/said" 2>&1 &
first=$!
begun
rm -rf "$stage" 2> /dev/null || wrong 'it could not be removed'
mkdir -p "$stage/up/src" && echo next > "$stage/up/src/next" && echo next > "$stage/trace" && echo next > "$stage/log" && : > "$stage/own"
before=$(cd "$stage" && find . | sort)
wait $first
status=$?
[ $status = 1 ] || wrong "exit number $status"
[ "$(cd "$stage" && find . | sort)" = "$before" ] || wrong "there is $(cd "$stage" && find . | paste -sd, -)"
[ "$(cat "$stage/log")" = next ] || wrong 'its log was written'
told 'another update has taken the stage away'
# -- the same through a second command that begins while the first still runs
text='a stage that another command takes'
all=$((all + 1))
project
: > "$stage/own"
"$sh" "$root" src "$stage" 'echo x >first; sleep 3; echo x >last' > "$work/said" 2>&1 &
first=$!
begun
rm -rf "$stage" 2> /dev/null || wrong 'it could not be removed'
mkdir -p "$stage" && : > "$stage/own"
"$sh" "$root" src "$stage" 'cat a; sleep 3; echo y >second' > "$work/other" 2>&1 || wrong "exit number $? of the second: $(cat "$work/other")"
[ "$(lines)" = 'R a,W second,E 0' ] || wrong "its log says $(lines)"
kept 0 y
wait $first && wrong 'the first one ended well'

printf '%s commands, %s wrong\n' "$all" "$failures"
[ "$failures" = 0 ]
