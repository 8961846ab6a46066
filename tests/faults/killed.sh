#!/bin/sh
# Each system call of an update over real files, of the beginning of a project, of a comparison and of a list of what is to be done is failed and killed in turn, by strace:
# whatever stops the program, no source may be lost, and the next update has to end with `done` and leave just the files of a clean build. A call that
# failed is told with its error; only where nothing is lost by it may the update go on. Before, the order of its syncs is
# looked at: which calls of the system make a file durable no clause says. Then the store is torn in the range of each of its
# writes, in each way that a cut of power may leave it: by a change of the file, in place of the cut. So are the outputs, at each
# sync from the moment on at which one came or went until that is durable. Words: the program, and the projects to try (none:
# all). With ONCE=1 the projects sync once an update: the order of their syncs is another one, and what a cut of power leaves of
# them is laid by power.py. It ends with 1 where something else came, and says so. It takes half an hour, and is no part of the gate.
set -u
. "$(dirname "$0")/../lib.sh"
tup=$(realpath "$1")
shift
if ! strace -o /dev/null true 2> /dev/null; then
    echo "passed over: there is no strace, or it may not trace"
    exit 0
fi
work=$(mktemp -d)
trap 'cd /; rm -rf "$work"' EXIT
trap 'exit 1' INT TERM
calls=%file,%desc
once=${ONCE:+--sync-once}
own=$([ -z "$once" ] && echo db || printf 'db\noptions')
failures=0
all=0

# The projects: each makes itself in a working folder where a project has begun, up to the update that is to be stopped. A
# user's files have names that aren't outputs of any rule that ever stood there.

three_rules() {
    printf 'head\n' > head
    printf 'body\n' > body
    printf '%s\n' ': head |> cp head top |> top' ': top body |> cat top body > page |> page' ': page |> cp page index |> index' > Tupfile
}

# A folder without a project, whose beginning is stopped.
beginning() { three_rules; }

# A project that is up to date, whose comparison is stopped.
comparison() {
    three_rules
    "$tup" > /dev/null
}

# One rule has vanished, one command and a source have changed, and a user has written over an output and deleted another.
after_changes() {
    three_rules
    printf '%s\n' ': body |> cp body old |> old' >> Tupfile
    "$tup" > /dev/null
    printf 'new body\n' > body
    printf '%s\n' ': body |> cp body top |> top' ': top body |> cat top body > page |> page' ': page |> cp page index |> index' > Tupfile
    printf 'mine\n' > page
    rm index
}

# The same, and what is stopped is the list of what an update would do.
listing() { after_changes; }

# Of the owned paths `a`, `az` the first is given up; beside them stands a file of the user's with a name like theirs.
fewer_paths() {
    printf 'source\n' > source
    printf 'of the user\n' > z
    printf '%s\n' ': source |> cp source a |> a' ': source |> cat source > az |> az' > Tupfile
    "$tup" > /dev/null
    printf '%s\n' ': source |> cat source > az |> az' > Tupfile
}

# An earlier update was killed: bytes of a store that it was making, and a half of an output, are still there.
after_a_kill() {
    three_rules
    "$tup" > /dev/null
    printf 'tup-db2' > .tup/db.new
    printf 'bo' > page
    printf '%s\n' ': body |> cp body page |> page' > Tupfile
}

# A header that no rule declares has changed: the rule that reads it is to be run, and the one above it.
header_edited() {
    printf '#define A\n' > inc.h
    printf '#include "inc.h"\nbody\n' > body
    printf '%s\n' ': body |> incl body top |> top' ': top |> cp top page |> page' ': body |> cp body index |> index' > Tupfile
    "$tup" > /dev/null
    printf '#define B\n' > inc.h
}

# Folders below the top: one whose file changes, and one that loses its Tupfile and so its only file.
folders_below() {
    mkdir -p kept/deep gone/deep
    printf 'body\n' > kept/deep/body
    printf 'head\n' > gone/deep/head
    printf '%s\n' ': body |> cp body page |> page' > kept/deep/Tupfile
    printf '%s\n' ': head |> cp head top |> top' > gone/deep/Tupfile
    "$tup" > /dev/null
    printf 'new body\n' > kept/deep/body
    rm gone/deep/head gone/deep/Tupfile
}

# All files but the program's own, hidden ones too.
names() { find . -path ./.tup -prune -o ! -type d -print | sort; }

# The names without the outputs of now and before.
names_of_sources() { names | grep -v '/\(top\|page\|index\|old\|a\|az\)$'; }

# The files of these names, with their contents.
contents() { while read -r file; do printf '%s: ' "$file"; cat "$file"; done; }
sources() { names_of_sources | contents; }
files() { names | contents; }

# What an update says that ends because of this error.
told_why() {
    case $1 in EIO) errno=5 ;; EACCES) errno=13 ;; ENOSPC) errno=28 ;; esac
    [ "$(tail -1 "$work/told")" = 'fault: the file tree or the store failed' ] || wrong "exit 7, and it prints: $(tail -1 "$work/told")"
    grep -q "^tup: .*(os error $errno)\$" "$work/said" || wrong "exit 7, and nobody says why: $(cat "$work/said")"
}

# Calls by whose failure nothing is lost: a file is closed that was only read, or is synced later by its name; a lock isn't to
# be had; an empty folder stays, or isn't noted; what is known of unchanged files isn't had; an output that may not be read is made
# anew. Words: the call, what was done to it, and `note` where it was one of the last two kinds of notes.
may_go_on() {
    case $1,$3 in
        close,* | flock,* | rmdir,* | *,note) ;;
        openat,*) [ "$2" = error=EACCES ] || wrong "exit 0, though this call failed" ;;
        *) wrong "exit 0, though this call failed" ;;
    esac
}

made_all() {
    case $order in
        init) [ -s .tup/db ] || wrong "exit $exit, and there is no store" ;;
        verify) [ "$exit $(tail -1 "$work/told")" = '0 same' ] || [ $exit = 9 ] || wrong "exit $exit: $(tail -1 "$work/told")" ;;
        todo) [ "$exit $(tail -1 "$work/told")" = '0 done: 1 read, 0 run, 0 removed' ] || [ $exit = 9 ] || wrong "exit $exit: $(tail -1 "$work/told")" ;;
        *) [ "$(files)" = "$wanted_files" ] || wrong "exit $exit, and the files aren't those of a clean build" ;;
    esac
}

# A comparison that was stopped has changed nothing.
unchanged() {
    [ "$(files)" = "$wanted_files" ] || wrong "a comparison changed a file"
    cmp -s .tup/db "$work/project/.tup/db" || wrong "a comparison changed the store"
    [ "$(ls .tup)" = "$own" ] || wrong "a comparison left more than the store in .tup: $(ls .tup | tr '\n' ' ')"
}

# A project that may have begun begins, or says that it has.
begin_again() {
    again=$("$tup" init 2>&1)
    case "$? $again" in
        '0 initialized' | '3 fault: already a tup project') ;;
        *) wrong "the next beginning: $again" ;;
    esac
}

# Stops the update of a project, or its beginning, at one call, and looks at what is left. Words: the project, the call, its
# number, what is done to it, and whether it is one of a note.
stop() {
    rm -rf "$work/now" && cp -a "$work/project" "$work/now" && cd "$work/now" || exit 1
    what="$1, $2 number $3, $4"
    strace -o /dev/null -e trace="$2" -e inject="$2:$4:when=$3" "$tup" $words > "$work/told" 2> "$work/said"
    exit=$?
    all=$((all + 1))
    case $4 in error*) what_was_done=failed ;; *) what_was_done=killed ;; esac
    printf '%s, exit %s\n' "$what_was_done" "$exit" >> "$work/exits"
    [ "$(sources)" = "$wanted_sources" ] || wrong "a source is lost"
    case "$2 $4 $exit" in
        *' signal=KILL 137') ;;
        *' error='*' 7') told_why "${4#error=}" ;;
        *' error='*' 0') may_go_on "$2" "$4" "$5" && made_all ;;
        'write error='*' 9') made_all ;;
        *) wrong "exit $exit: $(tail -1 "$work/told")" ;;
    esac
    case $order in
        init) begin_again ;;
        verify) unchanged ;;
        todo) [ "$(files)" = "$files_before" ] || wrong "a list of what is to be done changed a file" ;;
    esac
    go_on
}

# The next update is done, and leaves just the files of a clean build.
go_on() {
    next=$("$tup" 2>&1)
    case "$? $next" in
        '0 '*'done: '*) ;;
        *) wrong "the next update: $next" ;;
    esac
    [ "$(sources)" = "$wanted_sources" ] || wrong "a source is lost in the next update"
    [ "$(files)" = "$wanted_files" ] || wrong "the next update's files aren't those of a clean build"
    [ "$(ls .tup)" = "$own" ] || wrong "more than the store is left in .tup: $(ls .tup | tr '\n' ' ')"
}

# The bytes that a cut of power may leave in the range of a write. Words: which, their number, and a file of those written.
left_in_range() {
    half=$(($2 / 2))
    case $1 in
        none) ;;
        all) cat "$3" ;;
        zeros) head -c "$2" /dev/zero ;;
        ones) head -c "$2" /dev/zero | tr '\0' '\377' ;;
        gates) head -c "$2" /dev/zero | tr '\0' '\001' ;;
        front) head -c "$half" "$3" ;;
        front_and_zeros) head -c "$half" "$3" && head -c $(($2 - half)) /dev/zero ;;
        zeros_and_end) head -c "$half" /dev/zero && tail -c $(($2 - half)) "$3" ;;
    esac
}

# Tears the store in the range of one write: an update is killed before it, and another behind it, before the sync; the store
# of the one takes bytes of that of the other. Words: the project, the number of the write, its length, its place in the store,
# and the number of the next sync.
tear() {
    for way in none all zeros ones gates front front_and_zeros zeros_and_end; do
        # A byte that opens a gate has no halves; that it came whole is `gates`.
        case "$3 $way" in '1 all' | '1 front' | '1 '*_and_*) continue ;; esac
        what="$1, write $2 of the store, torn: $way"
        killed_at pwrite64 "$2" before
        head -c "$4" .tup/db > "$work/torn"
        tail -c +$(($4 + 1)) .tup/db > "$work/behind"
        killed_at fdatasync "$5" now
        tail -c +$(($4 + 1)) .tup/db | head -c "$3" > "$work/written"
        left_in_range "$way" "$3" "$work/written" > "$work/left"
        [ "$way" != all ] || cmp -s "$work/written" "$work/left" || wrong "the write isn't in the store"
        cat "$work/left" >> "$work/torn"
        tail -c +$(($(wc -c < "$work/left") + 1)) "$work/behind" >> "$work/torn"
        cp "$work/torn" .tup/db
        torn=$((torn + 1))
        go_on
    done
}

# Kills an update before a sync, and leaves a file that came or went before it as a cut of power may leave it. Words: the
# project, the number of the sync, the file.
cut() {
    for way in gone empty zz; do
        what="$1, $3 before sync $2: $way"
        killed_at fsync "$2" now
        mkdir -p "$(dirname "$3")"
        case $way in gone) rm -f "$3" ;; empty) : > "$3" ;; zz) echo zz > "$3" ;; esac
        cuts=$((cuts + 1))
        go_on
    done
}

# The files of a trace that came or went, each with the number of each sync of a file or a folder between that and the next
# write of the store.
not_durable() {
    awk '
        / = -1 / { next }
        { split($0, part, "\"") }
        /^openat\(.*"\.\/[^.].*O_CREAT/ || /^unlink\("\.\/[^.]/ { waiting[part[2]] }
        /^pwrite64\(/ { delete waiting }
        /^fsync\(/ { syncs++; for (path in waiting) print syncs, path }' "$work/trace"
}

# Kills the update of a project before one call. Words: the call, its number, the folder in which.
killed_at() {
    rm -rf "${work:?}/$3" && cp -a "$work/project" "$work/$3" && cd "$work/$3" || exit 1
    strace -o /dev/null -e trace="$1" -e inject="$1:error=EIO:signal=KILL:when=$2" "$tup" $words > /dev/null 2>&1
    [ $? = 137 ] || wrong "it wasn't killed at $1 number $2"
}

# A store that was being made is none, whatever was written of it.
half_made() {
    for bytes in '' 'tup-' 'tup-db2\001' 'tup-db2\001\000\000\000\000\000\000\000\000\000\000' '\001\001\001\001\001\001\001\001\001\001\001\001\001\001\001\001\001\001'; do
        what="beginning, a store half made: $bytes"
        rm -rf "$work/now" && cp -a "$work/project" "$work/now" && cd "$work/now" && mkdir .tup || exit 1
        printf "$bytes" > .tup/db.new
        torn=$((torn + 1))
        begin_again
        go_on
    done
}

# The writes of the store in a trace: the number of each, its length, its place, and the number of the sync behind it.
writes_of_store() {
    awk '
        / = -1 / { next }
        /^fdatasync\(/ { syncs++ }
        /^pwrite64\(.*\/\.tup\/db>/ { sub(/\) *= .*/, ""); n = split($0, word, ", "); print ++writes, word[n - 1], word[n], syncs + 1 }' "$work/trace"
}

# What a trace of an update shows of its syncs. Before a file comes or goes the store is durable, with its folder and the one
# above. Before the store is written, or gets its name, each file that came and all folders above a name that came or went are
# synced, and so they are in the end. A store that is made is synced before it gets its name, and its folder behind that; each
# write of a store is synced before the next one. Where a project syncs once an update, that holds up to where the epoch gets its
# name, and again when its file goes: between them files only come, and nothing has to be synced. Word: how often the store is written, or gets its name: once where it is made,
# and twice for each commit.
unsynced() {
    awk -v wanted="$1" -v once="$once" '
        function above(path) { while (sub(/\/[^\/]*$/, "", path)) waiting[path] }
        function durable(when,   path) {
            for (path in waiting) print path " isn\047t durable " when
            if (dirty["./.tup/db"]) print "the store isn\047t durable " when
            if (!("./.tup" in synced) || !("." in synced)) print "the folders of the store aren\047t synced " when
        }
        function file_changes(path) {
            if (!open && (dirty["./.tup/db"] || !("./.tup" in synced) || !("." in synced))) print path " comes or goes before the store is durable"
            above(path)
        }
        function store_changes(   path) {
            if (!open) for (path in waiting) print path " isn\047t durable before the store says so"
            stores++
        }
        function place(   path) {
            path = $0
            sub(/^[a-z0-9]*\([0-9]*</, "", path)
            sub(/>[,)].*/, "", path)
            sub(/^.*\/now/, ".", path)
            return path
        }
        / = -1 / { next }
        { split($0, part, "\"") }
        /^openat\(.*"\.\/[^.].*O_CREAT/ {
            if (once && !open) print part[2] " comes where no epoch is open"
            if (open && !("./.tup" in synced)) print part[2] " comes before the epoch is durable"
            file_changes(part[2])
            waiting[part[2]]
            delete gone[part[2]]
        }
        /^unlink\("\.\/[^.]/ {
            if (open) gone[part[2]]
            file_changes(part[2])
            delete waiting[part[2]]
        }
        /^rmdir\(/ { above(part[2]); delete waiting[part[2]] }
        /^f(data)?sync\(/ { delete waiting[place()]; delete dirty[place()]; synced[place()] }
        /^pwrite64\(/ && place() ~ /^\.\/\.tup\/epoch/ { dirty["head"] = dirty["head"] || place() ~ /new$/; next }
        /^f(data)?sync\(/ && place() == "./.tup/epoch.new" { delete dirty["head"] }
        /^pwrite64\(/ {
            if (dirty[place()] && !open) print "the store is written twice without a sync"
            dirty[place()] = 1
            if (place() == "./.tup/db") store_changes()
        }
        /^rename\("\.\/\.tup\/db\.new", / {
            if (dirty["./.tup/db.new"]) print "the new store isn\047t durable before it gets its name"
            delete synced["./.tup"]
            delete synced["."]
            store_changes()
        }
        /^rename\("\.\/\.tup\/epoch\.new", / {
            if (dirty["head"]) print "the epoch isn\047t durable before it gets its name"
            durable("before the epoch gets its name")
            delete synced["./.tup"]
            open = 1
        }
        /^unlink\("\.\/\.tup\/epoch"/ {
            if (!open) print "an epoch goes that wasn\047t open"
            for (path in gone) print path " went in the epoch and didn\047t come again"
            durable("before the epoch goes")
            delete synced["./.tup"]
            open = 0
        }
        /^rename/ && !/^rename\("\.\/\.tup\/(db|epoch)\.new", / { print "a file is renamed" }
        END {
            if (stores != wanted) print "the store was written, or got its name, " stores + 0 " times, not " wanted
            if (open) print "the epoch is open in the end"
            durable("in the end")
        }' "$work/trace"
}

# How often the update of a project commits: what it saw; the readings and rules; before and behind what it removes; before and
# behind what each command makes. A list commits the first two.
commits_of() {
    case $1 in
        three_rules) echo 8 ;;
        after_changes) echo 10 ;;
        listing) echo 2 ;;
        fewer_paths) echo 4 ;;
        header_edited) echo 5 ;;
        after_a_kill | folders_below) echo 6 ;;
    esac
}

# All calls of the update of a project, or of its beginning, from the first that names its folder on. A beginning gives the
# store its name; a commit writes it twice.
try() {
    rm -rf "$work/project" "$work/clean" && mkdir "$work/project" "$work/clean" && cd "$work/project" || exit 1
    case $1 in
        beginning) order=init stores=1 && [ -z "$once" ] || return 0 ;;
        comparison) order=verify stores=0 && "$tup" init $once > /dev/null ;;
        listing) order=todo stores=$(($(commits_of "$1") * 2)) && "$tup" init $once > /dev/null ;;
        *) order=upd stores=$(($(commits_of "$1") * 2)) && "$tup" init $once > /dev/null ;;
    esac
    # One command after another: else the calls of the threads are counted apart.
    words=$order
    [ $order != upd ] || words='upd -j 1'
    "$1"
    wanted_sources=$(sources)
    files_before=$(files)
    names_of_sources | xargs -d '\n' cp --parents -t "$work/clean"
    cd "$work/clean" && "$tup" init > /dev/null && "$tup" > /dev/null || echo "the clean build of $1 isn't done"
    wanted_files=$(files)
    rm -rf "$work/now" && cp -a "$work/project" "$work/now" && cd "$work/now" || exit 1
    strace -y -o "$work/trace" -e trace="$calls" "$tup" $words > /dev/null
    awk '{ name = $0; sub(/\(.*/, "", name); count[name]++ } /"\.["\/]/ { begun = 1 } begun && name ~ /^[a-z]/ && name !~ /^mmap/ {
        print name, count[name], /\/proc\/|^getcwd|\/\.tup\/(stamps|emptied)|"\.", AT_STATX_SYNC_AS_STAT, / || taking ? "note" : "needed"
        if (/\/\.tup\/emptied", O_RDONLY/) taking = 1
    }' "$work/trace" > "$work/list"
    what=$1
    [ -s "$work/list" ] || wrong "no call of the update was found"
    case $order in
        verify) late=$(grep -v ' = -1 ' "$work/trace" | grep -E '^(rename|unlink|mkdir|rmdir)|O_WRONLY|O_RDWR|O_CREAT') ;;
        *) late=$(unsynced "$stores") ;;
    esac
    [ -z "$late" ] || wrong "$late"
    : > "$work/exits"
    while read -r call number use; do
        for error in EIO EACCES ENOSPC; do stop "$1" "$call" "$number" "error=$error" "$use"; done
        stop "$1" "$call" "$number" signal=KILL "$use"
    done < "$work/list"
    writes_of_store > "$work/writes"
    torn=0
    [ -z "$once" ] || : > "$work/writes"
    while read -r number length at sync; do tear "$1" "$number" "$length" "$at" "$sync"; done < "$work/writes"
    not_durable > "$work/cuts"
    [ -z "$once" ] || : > "$work/cuts"
    cuts=0
    while read -r number file; do cut "$1" "$number" "$file"; done < "$work/cuts"
    [ $order != init ] || half_made
    printf '%s: %s calls, each failed by three errors and killed:\n' "$1" "$(wc -l < "$work/list")"
    sort "$work/exits" | uniq -c | sed 's/^ *\([0-9]*\) /  \1 times /'
    printf '  %s torn stores of %s writes, %s outputs cut off\n' "$torn" "$(wc -l < "$work/writes")" "$cuts"
}

# A bad rule: of its end nothing is committed, and what was made before it is synced all the same.
behind_a_bad_rule() {
    rm -rf "$work/now" && mkdir -p "$work/now/sub" && cd "$work/now" || exit 1
    what="behind a bad rule"
    "$tup" init $once > /dev/null
    printf 'head\n' > sub/head
    printf '%s\n' ': head |> cp head top |> top' ': head |> fail 3 |> page' > sub/Tupfile
    strace -y -o "$work/trace" -e trace="$calls" "$tup" -j 1 > /dev/null
    exit=$?
    [ $exit = 1 ] || wrong "exit $exit, not 1"
    late=$(unsynced 8)
    [ -z "$late" ] || wrong "$late"
}

# Several runners: an update is killed, or a call of it fails, at one call of any of its threads. The calls are counted by thread, and
# which thread comes where differs from run to run: so what is left may be of any moment. Of each kind of call those are taken that
# come at and behind the first that one runner makes in the project.
by_several_runners() {
    rm -rf "$work/project" "$work/clean" && mkdir "$work/project" "$work/clean" && cd "$work/project" || exit 1
    what="several runners"
    "$tup" init $once > /dev/null
    printf 'head\n' > head
    awk 'BEGIN { for (i = 1; i <= 8; i++) { print ": head |> cp head top" i " |> top" i; print ": top" i " |> cp top" i " page" i " |> page" i } }' > Tupfile
    wanted_sources=$(sources_of_several)
    cp head Tupfile "$work/clean" && cd "$work/clean" && "$tup" init > /dev/null || exit 1
    strace -o "$work/trace" -e trace="$calls" "$tup" upd -j 1 > /dev/null || echo "the clean build of several runners isn't done"
    wanted_files=$(files)
    awk '{ name = $0; sub(/\(.*/, "", name); count[name]++ } /"\.["\/]/ { begun = 1 }
        begun && name ~ /^[a-z]/ && name !~ /^mmap/ && !(name in first) { print name, first[name] = count[name] }' "$work/trace" > "$work/list"
    [ -s "$work/list" ] || wrong "no call of the update was found"
    before=$all
    while read -r call first; do
        for more in 0 1 2 3 5 8 13 21; do
            for fault in signal=KILL error=EIO; do stop_several "$call" $((first + more)) "$fault"; done
        done
    done < "$work/list"
    printf 'several runners: %s updates killed, or failed at a call\n' $((all - before))
}

# Stops an update by several runners at a call of this number, if a thread makes so many, and looks at what is left.
stop_several() {
    rm -rf "$work/now" && cp -a "$work/project" "$work/now" && cd "$work/now" || exit 1
    jobs=$((all % 15 + 2))
    what="several runners, -j $jobs, $1 number $2, $3"
    all=$((all + 1))
    timeout 60 strace -f -o /dev/null -e trace="$1" -e inject="$1:$3:when=$2" "$tup" upd -j $jobs > "$work/told" 2> "$work/said"
    exit=$?
    case "$3 $exit" in
        'signal=KILL 137' | 'signal=KILL 0' | 'error=EIO 0' | 'error=EIO 7' | 'error=EIO 9') ;;
        *) wrong "exit $exit: $(tail -1 "$work/told")" ;;
    esac
    [ "$(sources_of_several)" = "$wanted_sources" ] || wrong "a source is lost"
    next=$("$tup" 2>&1)
    case "$? $next" in
        '0 '*'done: '*) ;;
        *) wrong "the next update: $next" ;;
    esac
    [ "$(files)" = "$wanted_files" ] || wrong "the next update's files aren't those of a clean build"
}

sources_of_several() { cat head Tupfile; }

behind_a_bad_rule
[ $# -gt 0 ] || by_several_runners
for project in ${*:-beginning comparison listing three_rules after_changes header_edited fewer_paths after_a_kill folders_below}; do try "$project"; done

if [ "$failures" -gt 0 ]; then
    echo "$failures of $all updates that were stopped went wrong"
    exit 1
fi
echo "$all updates were stopped; no source was lost, and each next update was done"
