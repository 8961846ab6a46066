#!/bin/sh
# The edge of the program, where only strace can show it: which folders a removal makes durable, that no want of memory in a
# call that may have changed something passes for a mere want of memory, what a program that gets too little of it leaves, that
# a file that has its content is left alone, what a project without syncs asks the system for, what a file system that doesn't
# tell case apart would do, that a second update looks at nothing, and streams and limits that a user's shell may take away. Where calls are traced
# the update has one runner. Word: the program. It ends with 1 where something else came. It is no part of the gate.
set -u
. "$(dirname "$0")/../lib.sh"
tup=$(realpath "$1")
tests=$(realpath "$(dirname "$0")")
if ! strace -o /dev/null true 2> /dev/null; then
    echo "passed over: there is no strace, or it may not trace"
    exit 0
fi
work=$(mktemp -d)
trap 'cd /; rm -rf "$work"' EXIT
failures=0
count=0

folder() {
    count=$((count + 1))
    mkdir "$work/$count" && cd "$work/$count" || exit 1
    printf 'hi\n' > a
    printf '%s\n' "$@" > Tupfile
}

project() {
    folder "$@"
    "$tup" init > /dev/null || exit 1
}

copy=': a |> cp a b |> b'

# The last line of the next update: how far the one before it came is free, so what it reads and runs isn't told.
next_update() { "$tup" | tail -1 | sed 's/[01] read, [01] run/.. read, .. run/'; }
done_then='done: .. read, .. run, 0 removed'

# An update once more, in which one call is refused for want of memory: it ends with 7 and the reason; what only reads may
# end with 12, as the system then changed nothing, and what prints with 9. Closing a file that was read or synced is nothing, and
# where a call of what is known of unchanged files fails, all files are read; one of the note of emptied folders changes nothing.
once_more() {
    project "$copy"
    "$tup" > /dev/null
    printf 'ho\n' > a
}
once_more
strace -y -o "$work/trace" "$tup" -j 1 > /dev/null
awk '{ name = $0; sub(/\(.*/, "", name); count[name]++ } /"\.["\/]/ { begun = 1 }
    begun && name ~ /^[a-z]/ && name !~ /^mmap|^exit/ {
        print name, count[name], /\/proc\/|^getcwd|\/\.tup\/(stamps|emptied)|"\.", AT_STATX_SYNC_AS_STAT, / ? "stamps" : "needed"
    }' "$work/trace" > "$work/list"
while read -r call number use; do
    what="$call number $number without memory"
    once_more
    strace -o /dev/null -e trace="$call" -e inject="$call:error=ENOMEM:when=$number" "$tup" -j 1 > "$work/told" 2> "$work/said"
    case "$call $? $(tail -1 "$work/said")$use" in
        'close 0 '* | *' 0 stamps' | *' 7 tup: '*'(os error 12)'* | 'write 9 '* | 'read 12 '* | 'openat 12 '*) ;;
        *) same "$what" "$? $(tail -1 "$work/told") $(tail -1 "$work/said")" "7 and the reason" ;;
    esac
    same "$what, the source" "$(cat a)" ho
    same "$what, the next update" "$(next_update) $(cat b)" "$done_then ho"
done < "$work/list"
[ -s "$work/list" ] || same "calls of an update" none some

# Less and less memory for the program itself: an update is done, or it ends with 12 and leaves the old output or the new one,
# as it takes all its memory before a file goes. With less than `least` the system can't load the program, or kills it before its
# first call.
wanted_large=$(head -c 1000000 /dev/zero | tr '\0' x | cksum)
least=2500
until prlimit --as=$((least * 1024)) "$tup" --version > /dev/null 2>&1 || [ "$least" -ge 9000 ]; do least=$((least + 50)); done
[ "$least" -lt 6000 ] || same "the memory that the program asks for to begin" "$least kilobytes" "less than 6000"
for limit in $(seq "$least" 250 9000); do
    what="$limit kilobytes of memory"
    project "$copy"
    "$tup" > /dev/null
    head -c 1000000 /dev/zero | tr '\0' x > a
    prlimit --as=$((limit * 1024)) "$tup" > "$work/told" 2> /dev/null
    case "$? $(tail -1 "$work/told")" in
        '0 done: 0 read, 1 run, 0 removed' | '12 fault: no memory' | '12 ') ;;
        *) same "$what" "$? $(tail -1 "$work/told")" "done, or no memory" ;;
    esac
    same "$what, the source" "$(cksum < a)" "$wanted_large"
    case "$(cksum < b)" in "$wanted_large" | "$(echo hi | cksum)") ;; *) same "$what, the output" torn whole ;; esac
    same "$what, the next update" "$(next_update) $(cksum < b)" "$done_then $wanted_large"
done

# A removal that a killed update left where no sync came: the next one syncs the folder before its list forgets the file.
project "$copy"
"$tup" > /dev/null
: > Tupfile
cp -a . "$work/killed"
strace -o "$work/trace" -e trace=unlink,fsync "$tup" -j 1 > /dev/null
number=$(awk '/^unlink\("\.\/b"/ { gone = 1 } /^fsync/ { count++; if (gone) { print count; exit } }' "$work/trace")
cd "$work/killed" || exit 1
strace -o /dev/null -e trace=fsync -e inject=fsync:signal=KILL:when="$number" "$tup" -j 1 > /dev/null 2>&1
same "a removal without a sync" "$(ls | tr '\n' ' ')" 'Tupfile a '
strace -y -o "$work/trace" "$tup" -j 1 > /dev/null
same "its folder is synced in time" "$(awk '
    /^fsync\([0-9]+<[^>]*\/killed>\) += 0/ { synced = 1 }
    /^pwrite64\([0-9]+<[^>]*\/\.tup\/db>/ { last = synced }
    END { print last }' "$work/trace")" 1

# The calls of an update from the first that names its folder on, by their names. Word: what is counted of them.
calls_of() {
    awk -v counted="$1" '
        /"\.["\/]/ { begun = 1 }
        { sub(/\(.*/, "") }
        begun && $0 ~ "^(" counted ")$" { count[$0]++ }
        END { n = split(counted, name, "|"); for (i = 1; i <= n; i++) printf "%s %d ", name[i], count[name[i]] }' "$work/trace"
}

# Where nothing is to be done nothing is written, and the store alone is made durable, with its name: the file, its folder and
# the one above. A commit writes the store twice, each time with a sync: one notes what was seen, one has the readings and
# rules, two are of each command that is run. An output that has its content is left alone, and synced; another is made anew,
# and never renamed into its place. Each command has its output and the folder of that synced.
changes='unlink|rename|pwrite64|write|fdatasync|fsync'
project "$copy"
"$tup" > /dev/null
touch -d @9 a b Tupfile
strace -o "$work/trace" "$tup" -j 1 > "$work/told"
same "nothing is to be done" "$(cat "$work/told") $(stat -c %Y b) $(calls_of "$changes")" 'done: 0 read, 0 run, 0 removed 9 unlink 0 rename 0 pwrite64 0 write 1 fdatasync 0 fsync 3 '
echo ': a |> cat a > b |> b' > Tupfile
strace -o "$work/trace" "$tup" -j 1 > "$work/told"
same "an output that has its content" "$(tail -1 "$work/told") $(stat -c %Y b) $(calls_of "$changes")" 'done: 1 read, 1 run, 0 removed 9 unlink 0 rename 0 pwrite64 8 write 1 fdatasync 8 fsync 5 '
printf 'ho\n' > a
strace -o "$work/trace" "$tup" -j 1 > /dev/null
same "an output that is made anew" "$(cat b) $(calls_of "$changes")" 'ho unlink 1 rename 0 pwrite64 6 write 2 fdatasync 6 fsync 5 '
printf '%s\n' ': b |> cp b c |> c' >> Tupfile
strace -o "$work/trace" "$tup" -j 1 > /dev/null
same "a command more" "$(cat c) $(calls_of "$changes")" 'ho unlink 0 rename 0 pwrite64 8 write 2 fdatasync 8 fsync 5 '

# A project without syncs asks the system for none, and is killed like any other.
folder "$copy"
strace -o "$work/trace" "$tup" init --no-sync > "$work/told"
same "a project without syncs begins" "$? $(cat "$work/told") $(cat .tup/options) $(calls_of 'rename|fdatasync|fsync')" '0 initialized --no-sync rename 1 fdatasync 0 fsync 0 '
strace -o "$work/trace" "$tup" -j 1 > "$work/told"
same "it is updated" "$? $(tail -1 "$work/told") $(cat b) $(calls_of 'pwrite64|fdatasync|fsync')" '0 done: 1 read, 1 run, 0 removed hi pwrite64 8 fdatasync 0 fsync 0 '
: > Tupfile
strace -o "$work/trace" "$tup" --proc true -j 1 > "$work/told"
same "through a program" "$? $(tail -1 "$work/told") $(calls_of 'pwrite64|fdatasync|fsync')" '0 done: 1 read, 0 run, 1 removed pwrite64 8 fdatasync 0 fsync 0 '
echo "$copy" > Tupfile
for write in 1 2 3 4; do
    strace -o /dev/null -e trace=pwrite64 -e inject=pwrite64:signal=KILL:when=$write "$tup" -j 1 > /dev/null 2>&1
    same "it is killed" "$? $(ls | tr '\n' ' ')" '137 Tupfile a '
done
same "and goes on" "$(next_update) $(cat b)" "$done_then hi"

# A file that several commands ask for is read once for all of them, beside once when the files are listed; after a change again.
for jobs in 1 4; do
    folder
    for i in 1 2 3 4 5 6 7 8; do printf ': a |> cat a a > b%d |> b%d\n' $i $i; done > Tupfile
    "$tup" init > /dev/null
    strace -f -o "$work/trace" -e trace=openat "$tup" -j $jobs > "$work/told"
    same "a file that eight commands ask for, -j $jobs" "$? $(tail -1 "$work/told") $(cat b8 | tr '\n' ' ') $(grep -c '"\./a"' "$work/trace")" '0 done: 1 read, 8 run, 0 removed hi hi  2'
    printf 'ho\n' > a
    strace -f -o "$work/trace" -e trace=openat "$tup" -j $jobs > "$work/told"
    same "once it changed, -j $jobs" "$? $(tail -1 "$work/told") $(cat b8 | tr '\n' ' ') $(grep -c '"\./a"' "$work/trace")" '0 done: 0 read, 8 run, 0 removed ho ho  2'
done

# A file that is listed and gone before it is read, as an editor's or a compiler's temporary one, is passed over.
project "$copy" && "$tup" > /dev/null && touch 4913
strace --quiet=path-resolution -o /dev/null -P ./4913 -e trace=openat,statx -e inject=openat:error=ENOENT -e inject=statx:error=ENOENT:when=2+ "$tup" > "$work/told" 2> "$work/said"
same "a file that is gone before it is read" "$?: $(cat "$work/told" "$work/said")" '0: done: 0 read, 0 run, 0 removed'

# A file system that doesn't tell case apart shows a file under a name that its folder doesn't list.
project "$copy" && "$tup" > /dev/null && mkdir .TUP && printf 'ho\n' > a
listings=$(strace -e trace=getdents64 "$tup" -j 1 2>&1 > /dev/null | grep -c '^getdents64')
printf 'hu\n' > a
strace -o /dev/null -e trace=getdents64 -e inject=getdents64:retval=0:when=$((listings - 1)) "$tup" -j 1 > "$work/told" 2> "$work/said"
same "a file of another spelling" "$?: $(cat "$work/said")" '7: tup: look at ./b: a file of another spelling stands here'
same "it stays" "$(cat b)" ho
project && mkdir sub && printf 'hi\n' > sub/a && echo "$copy" > sub/Tupfile && "$tup" > /dev/null && mkdir .TUP && printf 'ho\n' > sub/a
listings=$(strace -e trace=getdents64 "$tup" -j 1 2>&1 > /dev/null | grep -c '^getdents64')
printf 'hu\n' > sub/a
strace -o /dev/null -e trace=getdents64 -e inject=getdents64:retval=0:when=$((listings - 3)) "$tup" -j 1 > "$work/told" 2> "$work/said"
same "a file below a folder of another spelling" "$?: $(cat "$work/said")" '7: tup: look at ./sub/b: a file of another spelling stands here'
same "it stays" "$(cat sub/b)" ho

# The same over a library that lets the calls ignore case, for the program and for its site alone.
if cc -O1 -shared -fPIC -o "$work/ignores-case.so" "$tests/ignores-case.c" 2> /dev/null; then
    ignoring() { LD_PRELOAD=$work/ignores-case.so "$@"; }
    project "$copy"
    same "its own spelling" "$(ignoring "$tup" | tail -1) $(cat b)" 'done: 1 read, 1 run, 0 removed hi'
    printf 'ho\n' > a
    same "once more" "$(ignoring "$tup" | tail -1) $(cat b)" 'done: 0 read, 1 run, 0 removed ho'
    mv b x && mv x B && echo mine > B
    same "an output that was renamed by case" "$(ignoring "$tup" 2>&1 | tail -1): $(cat B)" 'tup: look at ./b: a file of another spelling stands here: mine'
    : > Tupfile
    # The site listed B and no b, and is asked for b.
    same "its rule is gone" "$(ignoring "$tup" 2>&1 | tail -1): $(cat B)" 'tup: look at ./b: a file of another spelling stands here: mine'
    mv B mine
    same "it has another name" "$(ignoring "$tup" 2>&1 | tail -1): $(cat mine)" 'done: 0 read, 0 run, 0 removed: mine'
    rows=$(realpath -m "$(dirname "$tup")/../../tup_outside_rows/out/tup_outside_rows")
    if [ -x "$rows" ]; then
        project && touch memory.rows path.rows stamp.rows rule.rows differing.rows
        sed 's/^ *//' > fs.rows << 'END'
            # a folder above a file was renamed by case: what is in it is another's now
            begin folder = ok
            put Sub/x one = ok
            settle = ok
            shell "mv Sub y && mv y sub" = ok
            again = ok
            remove Sub/x = fault
            said = "look at folder/Sub/x: a file of another spelling stands here"
            put Sub/x other = fault
            file sub/x = one
            put sub/x other = ok
            file sub/x = other
            remove sub/x = ok
            stands sub/x = no
            # before there is a folder of the program
            begin first = ok
            write b mine = ok
            remove B = fault
            file b = mine
            put B x = fault
            file b = mine
            remove b = ok
            put B x = ok
            list = B
END
        same "the rows of the site" "$(ignoring "$rows" | head -1)" 'fs.rows: 0 differ'
    else
        echo "passed over: rows of the site, as tup_outside_rows isn't built in the folder beside"
    fi
else
    echo "passed over: a library that ignores case, as there is no compiler for C"
fi

# A second update looks at nothing: somebody holds the lock of the folder.
project "$copy"
flock . strace -o "$work/trace" -e trace=%file,%desc "$tup" > "$work/told" 2> "$work/said"
same "a second update" "$?: $(cat "$work/told") $(cat "$work/said")" '7: fault: the file tree or the store failed tup: lock .: another tup is at work here'
same "it looks at nothing" "$(grep -c '"\./' "$work/trace")" 0
same "it makes nothing" "$(ls -A | tr '\n' ' ')" '.tup Tupfile a '

# An error of the lock is its own cause, unless the file system knows no locks.
project "$copy"
strace -o /dev/null -e trace=flock -e inject=flock:error=ENOLCK "$tup" > "$work/told" 2> "$work/said"
same "a lock that fails" "$?: $(cat "$work/told") $(cat "$work/said")" '7: fault: the file tree or the store failed tup: lock .: No locks available (os error 37)'
strace -o /dev/null -e trace=flock -e inject=flock:error=EOPNOTSUPP "$tup" > "$work/told" 2> "$work/said"
same "no locks" "$?: $(tail -1 "$work/told") $(cat "$work/said")" '0: done: 1 read, 1 run, 0 removed '

# A file system that may only be read: what needs no write works.
if unshare -m true 2> /dev/null; then
    project "$copy" && "$tup" > /dev/null
    unshare -m sh -c 'mount --bind . . && mount -o remount,bind,ro . && cd "$PWD" && { touch x; "$1"; "$1" todo; "$1" verify; }' sh "$tup" > "$work/told" 2> "$work/said"
    same "a file system that may only be read" "$? $(tr '\n' ';' < "$work/told") $(grep -vc 'Read-only' "$work/said")" '0 done: 0 read, 0 run, 0 removed;done: 0 read, 0 run, 0 removed;same; 0'
    printf 'ho\n' > a
    unshare -m sh -c 'mount --bind . . && mount -o remount,bind,ro . && cd "$PWD" && "$1"' sh "$tup" > "$work/told" 2> "$work/said"
    same "something to do there" "$? $(cat "$work/told"): $(cat "$work/said")" '7 fault: the file tree or the store failed: tup: open ./.tup/db: Read-only file system (os error 30)'
else
    echo "passed over: a file system that may only be read"
fi

# What a command prints goes where standard error is closed too, with one runner as with several.
printf '%s\n' '#!/bin/sh' 'echo one && echo two >&2 && echo good > "$3/w0" && printf "W 0 b\nE 0\n" > "$3/log"' > "$work/prints"
chmod +x "$work/prints"
for jobs in 1 4; do
    project "$copy"
    "$tup" --proc "$work/prints" -j $jobs > "$work/told" 2>&-
    same "standard error is closed, -j $jobs" "$? $(tail -1 "$work/told") $(cat b)" '0 done: 1 read, 1 run, 0 removed good'
    project "$copy"
    "$tup" --proc "$work/prints" -j $jobs >&- 2> "$work/said"
    same "standard output is closed, -j $jobs" "$? $(tr '\n' ';' < "$work/said") $(cat b)" '9 one;two; good'
done

# Closed streams, and few open files.
project "$copy"
"$tup" <&- >&- 2>&-
same "no stream is open" "$?" 9
same "no stream is open, what was made" "$(cat b)" hi
same "no stream is open, what else stands there" "$(ls -A . .tup | tr '\n' ' ')" '.: .tup Tupfile a b  .tup: .gitignore db '
same "no stream is open, the next update" "$("$tup" | tail -1)" 'done: 0 read, 0 run, 0 removed'
for files in 4 5 6; do
    project "$copy"
    prlimit --nofile=$files "$tup" > "$work/told" 2> "$work/said"
    case "$? $(cat "$work/said")" in
        '0 ' | '7 tup: '*'Too many open files (os error 24)') ;;
        *) same "$files files may be open" "$(tail -1 "$work/told") $(cat "$work/said")" "0, or 7 and the reason" ;;
    esac
    same "$files files may be open, the source" "$(cat a)" hi
    same "$files files may be open, the next update" "$(next_update) $(cat b)" "$done_then hi"
done

# A pipe that nobody reads any more, and a shell that allows no large files: the update is killed, and the next one is done.
project "$copy"
{ sleep 0.2; "$tup"; echo "$?" > "$work/ended"; } | true
same "a pipe that nobody reads" "$(cat "$work/ended") $(cat b)" '9 hi'
project "$copy"
"$tup" > /dev/null
head -c 100000 /dev/zero > a
(ulimit -c 0; ulimit -f 8; "$tup") > "$work/told" 2>&1
same "a file that the shell doesn't allow" "$?" 153
same "the next update" "$("$tup" | tail -1) $(ls -A . .tup | tr '\n' ' ')" 'done: 0 read, 1 run, 0 removed .: .tup Tupfile a b  .tup: .gitignore db '
same "what it makes" "$(cmp a b && wc -c < a)" 100000

if [ "$failures" -gt 0 ]; then
    echo "$failures differ"
    exit 1
fi
echo "all is as it has to be"
