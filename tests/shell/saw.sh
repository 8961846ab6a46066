#!/bin/sh
# What a shell command saw: projects under tup_sh in which a file or folder that a command looked at, in one of many ways, is another
# one later, or while the command runs; what is mounted in a project, or mounts it again; what somebody else left in `.tup`; and how a
# command ends that doesn't want to. What stands after an update has to be what the plain shell makes of the sources, and what isn't
# the project's stays as it was. Words: the program, and tup_sh. It ends with 1 where something else came, and says so. What needs a
# mount is passed over for who may not mount, and what needs another user for who isn't root.
set -u
. "$(dirname "$0")/../lib.sh"
tup=$(realpath "$1")
sh=$(realpath "$2")
if ! strace -o /dev/null true 2> /dev/null; then
    echo "passed over: there is no strace, or it may not trace"
    exit 0
fi
# Mounts of this test are in a namespace of its own, and end with it.
mounts=no
if [ "$(id -u)" = 0 ] && unshare -m true 2> /dev/null; then
    if [ "${APART:-no}" = no ]; then APART=yes exec unshare -m sh "$0" "$@"; fi
    mounts=yes
fi
work=$(mktemp -d "${WORK:-/tmp}/saw.XXXXXX")
chmod 755 "$work"
# What is mounted below the folder is taken away first.
clean() {
    cd /
    sed -n 's/^[^ ]* [^ ]* [^ ]* [^ ]* \([^ ]*\) .*/\1/p' /proc/self/mountinfo | grep "^$work/" | sort -r | while read -r it; do umount -l "$(printf %b "$it")"; done
    chmod -R u+rwx "$work" 2> /dev/null
    rm -rf --one-file-system "$work"
}
trap clean EXIT
trap 'exit 1' INT TERM
failures=0
all=0
only=${ONLY:-}

# row NAME: a new folder, which becomes the working folder. Where ONLY says so, another row is left out.
row() {
    what=$1
    case "$what" in *"$only"*) ;; *) return 1 ;; esac
    all=$((all + 1))
    top=$work/$all
    mkdir -p "$top/p" && cd "$top/p" || exit 1
}

# begin LINE ..: a project with this Tupfile, whose first update is done.
begin() {
    printf '%s\n' "$@" > Tupfile
    "$tup" init --proc "$sh" > /dev/null || wrong 'init failed'
    update 0
}

# update STATUS WORD ..: an update ends so. What it prints is in $top/said and $top/err.
update() {
    status=$1
    shift
    timeout "${LIMIT:-60}" "$tup" "$@" > "$top/said" 2> "$top/err" < /dev/null
    set -- $?
    [ "$1" = "$status" ] || wrong "an update ended with $1, wanted $status: $(tail -2 "$top/said" | tr '\n' ' ')$(cat "$top/err")"
}

# holds FILE TEXT; same FILE as it is, where `-` stands for a file that isn't there.
holds() {
    found=$(cat "$1" 2> /dev/null) || found=-
    [ "$found" = "$2" ] || wrong "$1 holds '$found', wanted '$2'"
}

# told TEXT, untold TEXT: a line of standard error has it, or none.
told() { grep -qF -- "$1" "$top/err" || wrong "it didn't say '$1' but '$(cat "$top/err")'"; }
untold() { if grep -qF -- "$1" "$top/err"; then wrong "it said '$(cat "$top/err")'"; fi; }

# idle: one more update has nothing to do.
idle() {
    update 0
    [ "$(tail -1 "$top/said")" = 'done: 0 read, 0 run, 0 removed' ] || wrong "one more update does $(tr '\n' ' ' < "$top/said")"
}

# turns NAME COMMAND BEFORE EDIT AFTER [EDIT AFTER ..]: what the command prints first, and after each edit.
turns() {
    row "$1" || return
    text=$2 first=$3
    shift 3
    echo a > a
    mkdir sub && echo s > sub/s
    begin ": |> { $text; true; } > o 2>/dev/null |> o"
    holds o "$first"
    while [ $# -gt 0 ]; do
        eval "$1"
        update 0
        holds o "$2"
        idle
        shift 2
    done
}

# -- a folder that is looked for comes, and goes
come='mkdir -p d/e && echo x > d/e/x'
go='rm -r d'
turns 'test -d' 'test -d d/e && echo yes' '' "$come" yes "$go" '' "$come" yes
turns 'test -e of a folder' 'test -e d && echo yes' '' "$come" yes "$go" ''
turns 'test -f of what becomes a folder' 'test -f a && echo yes' yes 'rm a; mkdir a; echo x > a/x' '' 'rm -r a; echo a > a' yes
turns 'a folder that is entered' 'cd d/e && pwd | sed "s,.*/,,"' '' "$come" e "$go" ''
turns 'a folder that is entered and comes' 'cd d && echo in' '' "$come" in "$go" ''
turns 'a folder that is listed and comes' 'ls d' '' "$come" e "$go" ''
turns 'a folder that is made, or not' 'mkdir d && echo made && rmdir d' made "$come" '' "$go" made
turns 'a folder that is made and stays' 'mkdir d && echo made || echo had' made 'mkdir d; echo x > d/x' had 'rm -r d' made
turns 'a folder that is opened as a file' 'wc -c < a' 2 'rm a; mkdir a; echo x > a/x' 0 'rm -r a; echo a > a' 2
turns 'what kind a path is of' 'stat -c %%F d' '' "$come" directory "$go" '' 'echo x > d' 'regular file' 'rm d; ln -s a d' 'symbolic link'
turns 'realpath' 'realpath -e d | sed "s,.*/,,"' '' "$come" d "$go" ''
turns 'out of a folder again' 'cat d/../a' '' "$come" a "$go" '' 'echo x > d' ''
turns 'out of a folder that stands' 'cat sub/../a' a 'rm -r sub' '' 'mkdir sub; echo s > sub/s' a 'echo b > a' b
turns 'out of two folders that lack' 'cat d/e/../../a' '' "$come" a "$go" ''
turns 'a missing folder in the middle becomes a file' 'cat d/x' '' 'echo x > d' '' 'rm d; mkdir d; echo x > d/x' x
turns 'a link to what comes' 'cat l' '' 'ln -s d/e/x l' '' "$come" x 'rm l' ''
# -- what is made in a folder asks for it, and so does what is missed below it
back='mkdir sub; echo s > sub/s'
turns 'a folder that is made in a folder' 'mkdir sub/t && echo m && rmdir sub/t' m 'rm -r sub' '' "$back" m
turns 'a folder that is made in one that comes' 'mkdir d/t && echo m && rmdir d/t' '' "$come" m "$go" ''
turns 'a file that is made in a folder' 'echo x > sub/tmp && cat sub/tmp && rm sub/tmp' x 'rm -r sub' '' "$back" x
turns 'a file that is made in one that comes' 'cp a d/tmp && cat d/tmp && rm d/tmp' '' "$come" a "$go" ''
turns 'a hidden file that is made in a folder' 'echo x > sub/.tmp && cat sub/.tmp && rm sub/.tmp' x 'rm -r sub' '' "$back" x
turns 'a link that is made in a folder' 'ln -s a sub/l && echo l && rm sub/l' l 'rm -r sub' '' "$back" l
turns 'a link that is made, looked through and removed' 'ln -s d/x l && { cat l; rm l; }' '' 'mkdir d; echo x > d/x' x 'rm -r d' ''
turns 'one that is made in a folder' 'ln -s ../k sub/l && { cat sub/l; rm sub/l; }' '' 'echo k > k' k 'rm k' ''
turns 'a hard link that is made in a folder' 'ln a sub/l && echo l && rm sub/l' l 'rm -r sub' '' "$back" l
turns 'what is moved into a folder' 'cp a t; mv t sub/t && echo m; rm -f t sub/t' m 'rm -r sub' '' "$back" m
turns 'a folder becomes a file above what is missed' 'cat sub/t/x 2>&1 | sed "s/.*: //"' 'No such file or directory' 'rm -r sub; echo x > sub' 'Not a directory' \
    "rm sub; $back" 'No such file or directory' 'rm -r sub; ln -s a sub' 'Not a directory'
turns 'what is missing becomes a file above what is missed' 'cat d/e/f/x 2>&1 | sed "s/.*: //"' 'No such file or directory' 'mkdir d; echo x > d/e' 'Not a directory' \
    'rm d/e' 'No such file or directory' 'rmdir d; echo x > d' 'Not a directory'
if command -v gcc > /dev/null; then
    turns 'a folder of headers below what becomes a file' 'echo | gcc -E -isystem ./sub/t - > /dev/null && echo good' good 'rm -r sub; echo x > sub' '' "rm sub; $back" good
fi
python=/usr/bin/python3
if [ -x $python ]; then turns 'isdir of python' "$python -ISE -c 'import os; print(os.path.isdir(\"d\"))'" False "$come" True "$go" False; fi
for compiler in gcc clang; do
    command -v $compiler > /dev/null || continue
    row "a folder that $compiler looks for headers in" || continue
    mkdir -p inc2/foo
    echo '#define X 2' > inc2/foo/x.h
    printf '#include "foo/x.h"\nint x = X;\n' > a.c
    begin ": a.c |> $compiler -Iinc1 -isystem inc0 -Iinc2 -E -P a.c | grep int > o |> o"
    holds o 'int x = 2;'
    mkdir -p inc1/foo && echo '#define X 1' > inc1/foo/x.h
    update 0
    holds o 'int x = 1;'
    rm -r inc1
    update 0
    holds o 'int x = 2;'
    mkdir -p inc0/foo && echo '#define X 0' > inc0/foo/x.h
    rm -r inc2
    update 0
    holds o 'int x = 0;'
    idle
done

# -- ways to name a path
turns 'through the working folder of a process' 'cat /proc/self/cwd/k' '' 'echo k > k' k 'rm k' ''
turns 'through that of a thread' 'cat /proc/thread-self/cwd/k' '' 'echo k > k' k 'rm k' ''
turns 'through its number' 'cat /proc/$$/cwd/k' '' 'echo k > k' k 'rm k' ''
turns 'through the root of a process' 'cat /proc/self/root$PWD/k' '' 'echo k > k' k 'rm k' ''
turns 'out of a folder of the system' 'cat /usr/..$PWD/k' '' 'echo k > k' k 'rm k' ''
turns 'test through the working folder' 'test -e /proc/self/cwd/k && echo yes' '' 'echo k > k' yes 'rm k' ''
turns 'a folder through the working folder' 'test -d /proc/self/cwd/d && echo yes' '' "$come" yes "$go" ''

# -- a program that another thread than the first one starts
compiler=$(command -v gcc || command -v clang)
if [ -n "$compiler" ]; then
    cat > "$work/thread.c" << 'END'
#include <pthread.h>
#include <stdio.h>
#include <stdlib.h>
#include <unistd.h>
static void *run(void *words) { execv(((char **)words)[1], (char **)words + 1); puts("none"); exit(0); }
int main(int count, char **words) { pthread_t it; if (count < 2) return 2; pthread_create(&it, 0, run, words); pthread_join(it, 0); return 3; }
END
    "$compiler" -pthread -o "$work/thread" "$work/thread.c"
    turns 'a program started by another thread' "$work/thread ./run" none 'printf "#!/bin/sh\necho one\n" > run; chmod +x run' one \
        'printf "#!/bin/sh\necho two\n" > run' two 'rm run' none
    turns 'what such a program reads' "$work/thread /bin/cat k" '' 'echo k > k' k 'echo l > k' l 'rm k' ''
fi

# -- a source that is another one while a command reads it, and then what it was
# beside COMMAND: an update, and a hand that does this meanwhile.
beside() {
    (eval "$2") &
    hand=$!
    update "$1"
    wait $hand
}
if row 'another one for a time'; then
    echo A > a
    echo 1 > t
    begin ': |> cat t > /dev/null; sleep 1.5; cat a > o; sleep 2 |> o'
    echo 2 > t
    beside 0 'sleep 0.9; echo B > a; sleep 1.7; echo A > a'
    told 'tup_sh: a was changed while it was read: again'
    holds o A
    idle
fi
if row 'another one again and again'; then
    echo A > a
    echo 1 > t
    begin ': |> cat t > /dev/null; sleep 0.7; cat a > o; sleep 0.7 |> o'
    echo 2 > t
    beside 8 'for i in 1 2 3 4 5 6 7 8 9 10 11 12; do echo B$i > a; sleep 0.2; echo A > a; sleep 0.1; done'
    told ' a'
    sleep 1
    update 0
    holds o A
    idle
fi
if row 'a file that comes and goes while it is looked for'; then
    echo 1 > t
    begin ': |> cat t; sleep 1; test -e a && echo yes > o || echo no > o; sleep 1.5 |> o'
    echo 2 > t
    beside 0 'sleep 0.6; echo B > a; sleep 1.2; rm a'
    holds o no
    idle
fi
if row 'a file that goes and comes while it is looked for'; then
    echo A > a
    echo 1 > t
    begin ': |> cat t; sleep 1; test -e a && echo yes > o || echo no > o; sleep 1.5 |> o'
    echo 2 > t
    beside 0 'sleep 0.6; mv a .a; sleep 1.2; mv .a a'
    holds o yes
    idle
fi
if row 'a source that is saved with what it had'; then
    echo A > a
    begin ': |> cat a > o; cat a |> o' ': |> sleep 1; cat a > b |> b'
    idle
    holds b A
fi
# -- no false alarm: a link or a program whose end is missing, a folder that was moved by the command
turns 'no false alarm' 'ln -s none l; cat l; rm l; mkdir t; echo x > t/x; mv t u; cat u/x; rm -r u; mv nope a; ln a nope/x; printf "#!/none\n" > r; chmod +x r; ./r; rm r' x \
    'echo b > a' x
turns 'no false alarm of a missing middle' 'cat nodir/../a; cat a/../a; cat a/.; cat nodir/x; test -e nodir/..' '' 'echo b > a' ''

# -- a listing is told, once an update
if row 'a folder that is listed'; then
    mkdir src && echo x > src/a && echo x > src/b
    printf '%s\n' ': |> ls src > o |> o' ': |> ls src > p |> p' > Tupfile
    "$tup" init --proc "$sh" > /dev/null
    update 0 -j 1
    told "tup_sh: lists src, and a new file there won't run this command again: use a pattern as input"
    [ "$(grep -c 'lists src' "$top/err")" = 1 ] || wrong "it said $(cat "$top/err")"
    echo y > src/c
    idle
    echo ': |> ls src > q |> q' >> Tupfile
    update 0 --quiet
    untold lists
    holds q 'a
b
c'
    echo ': |> ls src > r |> r' >> Tupfile
    update 0
    told 'lists src'
fi

# -- what .tup is, and what is in it
# victim: a folder beside the project with a file that nobody may lose.
victim() { mkdir ../victim && echo precious > ../victim/keep && mkdir ../victim/0 && echo precious > ../victim/0/keep; }
spared() {
    [ "$(cat ../victim/keep ../victim/0/keep 2>&1)" = "$(printf 'precious\nprecious')" ] || wrong "what isn't the project's is lost: $(find ../victim | tr '\n' ' ')"
    [ "$(find ../victim | wc -l)" = "${1:-4}" ] || wrong "something was put where a link leads: $(find ../victim | tr '\n' ' ')"
}
# leads NAME EDIT TEXT: behind the edit, which puts something else in .tup, an update ends with 7 and names it.
leads() {
    row "$1" || return
    victim
    echo a > a
    begin ': |> cat a > o |> o'
    echo b > a
    eval "$2"
    update 7
    told "$3"
    spared
    holds o a
}
leads '.tup/stage is a link' 'rm -rf .tup/stage; ln -s ../../victim .tup/stage' .tup/stage
leads '.tup/stage is an absolute link' 'rm -rf .tup/stage; ln -s $work/$all/victim .tup/stage' .tup/stage
leads '.tup/stage is a link to a home' 'rm -rf .tup/stage; ln -s ../../victim/0 .tup/stage' .tup/stage
leads '.tup/stage is a file' 'rm -rf .tup/stage; echo mine > .tup/stage' .tup/stage
leads '.tup/stage is a pipe' 'rm -rf .tup/stage; mkfifo .tup/stage' .tup/stage
leads '.tup/db is a link' 'mv .tup/db ../db; ln -s ../../db .tup/db' .tup/db
leads '.tup/options is a pipe' 'rm .tup/options; mkfifo .tup/options' .tup/options
leads '.tup/options is a link' 'mv .tup/options ../options; ln -s ../../options .tup/options' .tup/options
if row '.tup is a link'; then
    victim
    echo a > a
    begin ': |> cat a > o |> o'
    echo b > a
    mv .tup ../dot && ln -s ../dot .tup
    update 7
    told .tup
    spared
fi
if row 'a stage of a command is a link'; then
    victim
    echo a > a
    begin ': |> cat a > o |> o'
    echo b > a
    mkdir -p .tup/stage
    for n in 0 1 2 3; do rm -rf .tup/stage/$n; ln -s ../../../victim .tup/stage/$n; done
    # A link in the stage is removed, or named: nothing is done through it.
    timeout 60 "$tup" > "$top/said" 2> "$top/err"
    case $? in 0 | 7 | 8) ;; *) wrong "an update ended with $?: $(cat "$top/err")" ;; esac
    spared
    if [ ! -L .tup/stage/0 ]; then update 0; holds o b; fi
fi
if row 'the folders of a stage are links'; then
    victim
    echo a > a
    begin ': |> cat a > o |> o'
    echo b > a
    mkdir -p .tup/stage/0
    for it in up wk trace log own; do rm -rf .tup/stage/0/$it; ln -s ../../../../victim .tup/stage/0/$it; done
    timeout 60 "$tup" > "$top/said" 2> "$top/err"
    case $? in 0 | 7 | 8) ;; *) wrong "an update ended with $?: $(cat "$top/err")" ;; esac
    spared
fi
if row 'a mark that is a link'; then
    victim
    echo a > a
    begin ': |> cat a > o |> o'
    echo b > a
    rm -f .tup/mark && ln -s ../../victim/keep .tup/mark
    timeout 60 "$tup" > "$top/said" 2> "$top/err"
    spared
fi
if row 'an empty project with a link as its stage'; then
    victim
    mkdir .tup && ln -s ../../victim .tup/stage
    echo ': |> echo 1 > o |> o' > Tupfile
    "$tup" init --proc "$sh" > /dev/null 2>&1
    update 7
    told .tup/stage
    spared
fi

# -- file systems that are mounted in a project
if [ $mounts = yes ]; then
    # mounted NAME EDIT TEXT COMMAND TEXT ..: the command's text over a mount, which is made before the first update, and after edits.
    mounted() {
        row "$1" || return
        mkdir conf sub && echo old > conf/a && echo old > sub/a && echo old > a && mkdir ../new && echo new > ../new/a
        eval "$2"
        printf '%s\n' ": |> { $3; true; } > o 2>/dev/null |> o" > Tupfile
        "$tup" init --proc "$sh" > /dev/null
        update 0
        holds o "$4"
        shift 4
        while [ $# -gt 0 ]; do
            eval "$1"
            update 0
            holds o "$2"
            idle
            shift 2
        done
    }
    # As root each is bound over the overlay of a command.
    mounted 'a folder that is bound' 'mount --bind ../new conf' 'cat conf/a' new 'echo newer > ../new/a' newer 'umount conf' old 'mount --bind ../new conf' newer
    mounted 'a file that is bound' 'mount --bind ../new/a conf/a' 'cat conf/a' new 'echo newer > ../new/a' newer 'umount conf/a' old
    mounted 'a file system in memory' 'mount -t tmpfs none conf; echo mem > conf/b' 'cat conf/a conf/b' mem 'echo more > conf/b' more 'umount conf' old
    mounted 'one in the other' 'mount -t tmpfs none conf; mkdir conf/in; mount --bind ../new conf/in' 'cat conf/in/a' new 'echo newer > ../new/a' newer 'umount conf/in; echo x > conf/in/a' x
    mounted 'one over the other' 'mount -t tmpfs none conf; echo hidden > conf/a; mount --bind ../new conf' 'cat conf/a' new 'umount conf' hidden 'umount conf' old
    mounted 'a name with a blank beside' 'mkdir ../"n w" "c f"; echo blank > ../"n w"/a; mount --bind ../"n w" "c f"; mount --bind ../new conf' 'cat conf/a "c f/a"' 'new
blank'
    mounted 'a read-only one' 'mount --bind ../new conf; mount -o remount,bind,ro conf' 'cat conf/a' new
    mounted 'what is written in one' 'mount --bind ../new conf' 'echo x > conf/a; echo x > conf/b; rm -f conf/a; mv a conf/c; cat conf/a' new
    row 'what is written in one' && { holds ../../$((all - 1))/new/a new; [ "$(ls ../../$((all - 1))/new)" = a ] || wrong 'a mount was written to'; }
    if row 'a second path of the project, and a source that is changed through it'; then
        echo a > a
        mkdir ../other && mount --bind . ../other
        echo ': |> echo x > ../other/a; echo y > o |> o' > Tupfile
        "$tup" init --proc "$sh" > /dev/null
        timeout 60 "$tup" > "$top/said" 2> "$top/err"
        [ $? = 0 ] && wrong 'it ended well'
        holds a a
    fi
    if row 'a second path, and what is read through it'; then
        echo a > a
        mkdir ../other && mount --bind . ../other
        begin ': |> cat ../other/a > o |> o'
        echo b > a
        update 0
        holds o b
        idle
    fi
    if row 'a second path of a folder of the project'; then
        mkdir src && echo a > src/a
        mkdir ../other && mount --bind src ../other
        echo ': |> cat ../other/a > o; echo x > ../other/a |> o' > Tupfile
        "$tup" init --proc "$sh" > /dev/null
        timeout 60 "$tup" > "$top/said" 2> "$top/err"
        [ $? = 0 ] && wrong 'it ended well'
        holds src/a a
    fi
    if row 'a project that is mounted twice from above'; then
        echo a > a
        mkdir "$work/above" && mount --bind "$top" "$work/above"
        echo ": |> cat $work/above/p/a > o; echo x > $work/above/p/a |> o" > Tupfile
        "$tup" init --proc "$sh" > /dev/null
        timeout 60 "$tup" > "$top/said" 2> "$top/err"
        [ $? = 0 ] && wrong 'it ended well'
        holds a a
        umount "$work/above"
    fi
    if row 'a stage that is a mount'; then
        victim
        echo a > a
        begin ': |> cat a > o |> o'
        echo b > a
        mkdir -p .tup/stage
        mount --bind ../victim .tup/stage
        update 7
        told .tup/stage
        spared
        umount .tup/stage
        update 0
        holds o b
    fi
    if row 'a mount below the stage'; then
        victim
        echo a > a
        begin ': |> cat a > o |> o'
        echo b > a
        mkdir -p .tup/stage/0/up
        mount --bind ../victim .tup/stage/0/up
        timeout 60 "$tup" > "$top/said" 2> "$top/err"
        spared
        umount .tup/stage/0/up 2> /dev/null
        update 0
        holds o b
    fi
    if row 'a read-only file system'; then
        mount -t tmpfs none . && cd . && cd "$top/p" || exit 1
        echo a > a
        begin ': |> cat a > o |> o'
        mount -o remount,ro .
        update 0
        update 0 todo
    fi
    # Another user may not lay an overlay over them: the command is refused, and the line names the mount.
    if row 'a mount in the project of a user'; then
        mkdir conf && echo old > conf/a && mkdir ../new && echo new > ../new/a
        echo ': |> cat conf/a > o |> o' > Tupfile
        chown -R 65534:65534 "$top" && mount --bind ../new conf
        setpriv --reuid 65534 --regid 65534 --clear-groups "$tup" init --proc "$sh" > /dev/null 2>&1
        setpriv --reuid 65534 --regid 65534 --clear-groups "$tup" > "$top/said" 2> "$top/err"
        status=$?
        if [ $status = 0 ]; then holds o new; else
            [ $status = 8 ] || wrong "it ended with $status"
            told 'conf is a file system of its own'
        fi
    fi
fi

# -- how a command ends that doesn't want to. A sleep of so many seconds is its mark, written so that who looks for it isn't found.
running() { grep -alZ -- "$1" /proc/[0-9]*/cmdline 2> /dev/null | tr '\0' '\n' | grep -v "^/proc/$$/" | wc -l; }
gone() {
    for _ in $(seq 100); do [ "$(running "$1")" = 0 ] && return; sleep 0.1; done
    wrong "the command goes on: $(running "$1") processes"
    for it in $(grep -alZ -- "$1" /proc/[0-9]*/cmdline 2> /dev/null | tr '\0' '\n' | cut -d / -f 3); do [ "$it" = $$ ] || kill -9 "$it" 2> /dev/null; done
}
# stopped NAME TEXT MARK SIGNAL WHO: a command is stopped by a signal to the group of tup, or to tup_sh.
stopped() {
    row "$1" || return
    mark="sleep.$(echo "$3" | sed 's/[.]/[.]/')"
    echo a > a
    echo ": |> echo x > begun; $2; cat a > o |> o" > Tupfile
    "$tup" init --proc "$sh" > /dev/null
    # What a shell starts beside it ignores Ctrl-C.
    setsid env --default-signal=INT,QUIT,HUP,TERM "$tup" -j 1 > "$top/said" 2> "$top/err" < /dev/null &
    started=$!
    for _ in $(seq 100); do [ "$(running "$mark")" -gt 0 ] && break; sleep 0.1; done
    sleep 0.3
    case $5 in
        group) env kill -s "$4" -- "-$started" ;;
        *) for child in $(cat /proc/$started/task/*/children); do kill -s "$4" "$child"; done ;;
    esac
    gone "$mark"
    kill -9 $started 2> /dev/null
    wait $started 2> /dev/null
    holds a a
    sed -i 's/sleep [0-9.]*/true/' Tupfile
    sed -i 's/echo x > begun; //' Tupfile
    update 0
    holds o a
    idle
}
stopped 'Ctrl-C' 'sleep 61.7' 61.7 INT group
stopped 'Ctrl-C that a command ignores' 'trap "" INT; sleep 62.7' 62.7 INT group
stopped 'a hangup that a command ignores' 'trap "" INT HUP TERM; sleep 63.7' 63.7 HUP group
stopped 'tup_sh alone is killed' 'sleep 64.7' 64.7 KILL runner
stopped 'tup_sh alone is killed, in a session of its own' 'setsid -w sleep 65.7' 65.7 KILL runner
stopped 'tup_sh alone is stopped' 'trap "" TERM; sleep 66.7' 66.7 TERM runner
if row 'a command that kills all'; then
    echo a > a
    echo ': |> cat a > o; kill -9 -1 |> o' > Tupfile
    "$tup" init --proc "$sh" > /dev/null
    # In a namespace of its own: where the command isn't in one, it would end this test and more.
    unshare $([ "$(id -u)" = 0 ] || echo -r) --pid --fork --kill-child sh -c 'timeout 60 "$@"' sh "$tup" > "$top/said" 2> "$top/err"
    [ $? = 0 ] && wrong 'it ended well'
    untold "the command wasn't run"
    told 'the trace was cut off'
fi

# -- the environment, and words
if row 'POSIXLY_CORRECT'; then
    echo a > a
    echo ': |> cat a > o; echo $POSIXLY_CORRECT >> o |> o' > Tupfile
    "$tup" init --proc "$sh" > /dev/null
    POSIXLY_CORRECT=1 timeout 60 "$tup" > "$top/said" 2> "$top/err" || wrong "it ended with $?: $(cat "$top/err")"
    holds o 'a
1'
fi
if row 'OLDPWD'; then
    mkdir src
    printf '%s\n' ': |> echo "${OLDPWD-none}" > o |> o' > src/Tupfile
    "$tup" init --proc "$sh" > /dev/null
    OLDPWD=/usr update 0
    holds src/o /usr
    echo ': |> echo "x${OLDPWD-none}" > o |> o' > src/Tupfile
    (unset OLDPWD; cd . ; unset OLDPWD; timeout 60 "$tup" > "$top/said" 2> "$top/err") || wrong 'it failed'
    holds src/o xnone
fi
if row 'a command that begins with a dash'; then
    mkdir bin && printf '#!/bin/sh\necho "dash $*"\n' > bin/-x && chmod +x bin/-x
    echo ': |> -x y > o |> o' > Tupfile
    "$tup" init --proc "$sh" > /dev/null
    PATH=$PWD/bin:$PATH update 0
    holds o 'dash y'
fi
if row 'standard error closed'; then
    echo a > a
    echo ': |> cat a > o; echo told >&2 |> o' > Tupfile
    "$tup" init --proc "$sh" > /dev/null
    "$tup" -j 1 > "$top/said" 2>&- || wrong "it ended with $?"
    holds o a
    echo b > a
    "$tup" -j 4 > "$top/said" 2>&- || wrong "with -j 4 it ended with $?"
    holds o b
    echo c > a
    "$tup" -j 1 > "$top/said" 2>&- < /dev/null || wrong "with no stream it ended with $?"
    "$tup" -j 1 >&- 2>&- <&-
    holds o c
fi

# -- sizes and numbers, which take their time
LIMIT=300
if row 'an output of more than sixteen MiB'; then
    echo a > a
    begin ': |> cat a; head -c 16777217 /dev/zero > o |> o' ': o |> wc -c < o > size |> size'
    holds size 16777217
    idle
    echo b > a
    update 0
    idle
    [ "$(du -sm .tup | cut -f 1)" -lt 16 ] || wrong "$(du -sm .tup | cut -f 1) MB are left in .tup"
fi
if row 'an output that is too large'; then
    echo ': |> truncate -s 1073741825 o |> o' > Tupfile
    "$tup" init --proc "$sh" > /dev/null
    update 1
    told o
    [ -e o ] && wrong 'it was put'
    echo ': |> echo x > o |> o' > Tupfile
    update 0
    holds o x
fi
if row 'twenty thousand questions'; then
    begin ': |> for i in `seq 20000`; do [ -e n$i ] && echo n$i; done > o; true |> o'
    echo x > n19999
    update 0
    holds o n19999
    idle
fi
if row 'too many questions'; then
    echo ': |> for i in `seq 66000`; do [ -e n$i ] && echo n$i; done > o; true |> o' > Tupfile
    "$tup" init --proc "$sh" > /dev/null
    update 1
    grep -q 'reads too often' "$top/said" || wrong "it said $(cat "$top/said")"
fi
if row 'a thousand programs'; then
    begin ': |> for i in `seq 1000`; do /bin/true; done; date +%%s.%%N > o |> o'
    now=$(date +%s.%N)
    behind=$(echo "$now $(cat o)" | awk '{ print $1 - $2 }')
    echo ': |> date +%%s.%%N > o; for i in `seq 1000`; do /bin/true; done; date +%%s.%%N >> o |> o' > Tupfile
    update 0
    now=$(date +%s.%N)
    printf '%s ' "$now" $(cat o) | awk '{ if ($1 - $3 > 0.15 + ($3 - $2) / 10) { print $1 - $3, "seconds behind", $3 - $2; exit 1 } }' > "$top/times" ||
        wrong "the account of a thousand programs takes $(cat "$top/times")"
fi
if row 'what a command leaves in its stage'; then
    begin ': |> head -c 9000000 /dev/zero > o |> o'
    [ "$(du -sm .tup | cut -f 1)" -lt 2 ] || wrong "$(du -sm .tup | cut -f 1) MB are left in .tup"
fi
if row 'an output that only its user may read'; then
    echo a > a
    begin ': |> umask 077; cat a > o |> o'
    told 'o'
fi

LIMIT=60
# -- options, and what stands where an output was
if row 'options, where the output fails'; then
    echo ': |> cat a > o; echo x >> o |> o' > Tupfile
    echo a > a
    "$tup" init --proc "$sh" > /dev/full 2> "$top/err"
    update 0
    holds o 'a
x'
fi
if row 'options of a project that has begun'; then
    echo a > a
    echo ': |> cat a > o; echo x >> o |> o' > Tupfile
    "$tup" init > /dev/null
    "$tup" init --proc "$sh" > "$top/said" 2> "$top/err" || wrong "init again ended with $?: $(cat "$top/said")"
    update 0
    holds o 'a
x'
fi
if row 'a folder that lost its outputs'; then
    begin ': |> echo x > o |> o'
    mkdir deep && echo ': |> echo x > o |> o' > deep/Tupfile
    update 0
    rm deep/Tupfile
    update 0
    [ -e deep ] && wrong 'the empty folder stays'
fi
# cut NAME WAY STATUS: the removal of an emptied folder goes wrong in this way; the next update takes it.
cut() {
    row "$1" || return
    mkdir -p deep/er && echo ': |> echo x > o |> o' > deep/er/Tupfile
    begin ': |> echo x > o |> o'
    rm deep/er/Tupfile
    timeout 60 strace -o /dev/null -e trace=rmdir,unlinkat -e "inject=rmdir:$2" "$tup" > "$top/said" 2> "$top/err"
    set -- "$1" "$2" "$3" $?
    [ "$4" = "$3" ] || wrong "it ended with $4: $(cat "$top/err")"
    [ -e deep/er/o ] && wrong 'the output stays'
    [ -d deep/er ] || wrong 'the folder could be removed'
    update 0
    [ -e deep ] && wrong 'the empty folder stays'
    [ -e .tup/emptied ] && wrong 'its note stays'
    idle
}
cut 'a folder that lost its outputs and may not be removed' error=EACCES 0
cut 'a folder that lost its outputs before tup was killed' signal=KILL 137
if row 'a folder that lost its outputs, and has become a link'; then
    mkdir -p deep/er && echo ': |> echo x > o |> o' > deep/er/Tupfile
    begin ': |> echo x > o |> o'
    rm deep/er/Tupfile
    strace -o /dev/null -e trace=rmdir -e inject=rmdir:error=EACCES "$tup" > /dev/null 2>&1
    mkdir -p ../victim/er && rm -r deep && ln -s ../victim deep
    update 0
    [ -d ../victim/er ] || wrong "a folder elsewhere is gone"
fi
if row 'a folder that lost its outputs to clean, and may not be removed'; then
    mkdir -p deep/er && echo ': |> echo x > o |> o' > deep/er/Tupfile
    begin ': |> echo x > o |> o'
    rm deep/er/Tupfile
    strace -o /dev/null -e trace=rmdir -e inject=rmdir:error=EBUSY "$tup" clean > /dev/null 2>&1 || wrong "clean ended with $?"
    [ -d deep/er ] || wrong 'the folder could be removed'
    update 0
    [ -e deep ] && wrong 'the empty folder stays'
fi
if row 'a pipe where an output was'; then
    begin ': |> echo x > o |> o' ': |> echo y > p |> p'
    echo ': |> echo y > p |> p' > Tupfile
    rm o && mkfifo o
    update 0
    told 'o: a pipe, a socket or a device stands here'
    [ -p o ] || wrong 'the pipe is gone'
    idle
    untold 'a pipe'
fi
if row 'a folder that was moved'; then
    mkdir lib && echo a > lib/a && echo ': a |> cat a > o |> o' > lib/Tupfile
    begin ''
    mv lib lib2
    update 5
    told lib2/o
    rm lib2/o
    update 0
    holds lib2/o a
    idle
fi
if row 'a folder whose name is not UTF-8 as the top'; then
    strange=$top/$(printf 'n\351')
    mkdir "$strange" && cd "$strange" || exit 1
    echo a > a
    echo ': |> cat a > o |> o' > Tupfile
    "$tup" init --proc "$sh" > /dev/null
    timeout 60 "$tup" > "$top/said" 2> "$top/err"
    case $? in 0) holds o a ;; *) untold "the program's log is bad" ;; esac
fi

printf '%s rows as %s%s, %s wrong\n' "$all" "$(id -un 2> /dev/null || id -u)" "$([ $mounts = yes ] || echo ', without mounts')" "$failures"
[ "$failures" = 0 ]
