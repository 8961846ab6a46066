#!/bin/sh
# Which files an update reads, by strace, and that it is right whatever it doesn't read: after each way to change a file or its
# looks, in another boot, by another user, on other file systems, with the clock set back, and with `.tup/stamps` torn, made of
# zeros or gone. One row waits for a minute; in the others the program's clock is two minutes ahead of the system's, so that the
# files seem to have been changed a while ago. Rows that mount something need a superuser. Word: the program. It ends with 1 where
# something else came. It is no part of the gate.
set -u
tup=$(realpath "$1")
tests=$(realpath "$(dirname "$0")")
if ! strace -o /dev/null true 2> /dev/null; then
    echo "passed over: there is no strace, or it may not trace"
    exit 0
fi
work=$(mktemp -d -p "${STAMPS_IN:-.}")
work=$(realpath "$work")
trap 'cd /; umount "$work/project/m" 2> /dev/null; rm -rf "$work"' EXIT
case $(stat -f -c %T "$work") in
    ext2/ext3 | xfs | btrfs | f2fs) ;;
    *)
        echo "passed over: no stamps are kept on this file system ($(stat -f -c %T "$work")); STAMPS_IN=FOLDER names another"
        exit 0
        ;;
esac
cc -shared -fPIC -O1 -o "$work/clock.so" "$tests/clock.c" || exit 1
failures=0
rows=0

same() {
    rows=$((rows + 1))
    if [ "$2" = "$3" ]; then return; fi
    failures=$((failures + 1))
    printf 'differs: %s\n  wanted: %s\n  found:  %s\n' "$1" "$3" "$2"
}

# An update, so many seconds ahead; leaves its last line in `told`, and the files that it opened, in order, in `opened`.
update() {
    ahead=$1
    shift
    told=$(cd project && LD_PRELOAD="$work/clock.so" CLOCK_AHEAD="$ahead" strace -f -qq -e trace=openat -e signal=none -o "$work/trace" \
        "$@" "$tup" -j 2 $words | tail -1)
    opened=$(sed -n 's/.*openat(AT_FDCWD, "\.\/\([^."][^"]*\)", O_RDONLY.*) = [0-9].*/\1/p' "$work/trace" | grep -v '/$' | sort -u | tr '\n' ' ')
}

words=
nothing='done: 0 read, 0 run, 0 removed'
all='Tupfile d/a d/b d/e/c out '

# The project, of which all stamps are kept.
project() {
    rm -rf project
    mkdir -p project/d/e
    printf 'one\n' > project/d/a
    printf 'two\n' > project/d/b
    printf 'six\n' > project/d/e/c
    printf ': d/a d/b d/e/c |> cat d/a d/b d/e/c > out |> out\n' > project/Tupfile
    (cd project && "$tup" init > /dev/null && "$tup" > /dev/null) || exit 1
    update 120
    update 120
}
cd "$work" || exit 1

# A row: what is done to the project, the files that are opened then, and what is told. One call later what was made is opened, and
# then nothing is.
row() {
    what=$1
    wanted=$2
    then=$3
    shift 3
    (cd project && eval "$@") || same "$what" "can't be done" ""
    update 120
    same "$what: what is told" "$told" "$then"
    same "$what: what is opened" "$opened" "$wanted"
    if [ "$then" = "$ran" ]; then update 120; fi
    update 120
    same "$what: once more" "$told, $opened" "$nothing, "
}
ran='done: 0 read, 1 run, 0 removed'

# Each file is read where that is asked for, by a word or for good.
project
words=--digest
update 120
same '--digest' "$told, $opened" "$nothing, $all"
words=
echo --digest > project/.tup/options
update 120
same '--digest for good' "$told, $opened" "$nothing, $all"
: > project/.tup/options
update 120
same 'without it' "$told, $opened" "$nothing, "

# Without a clock that is ahead: young files are read each time, and known a minute later.
project
rm project/.tup/stamps
update 0
same "young files" "$told, $opened" "$nothing, $all"
update 0
same "young files, once more" "$told, $opened" "$nothing, $all"
same "no stamp of a young file is kept" "$(ls project/.tup/stamps 2>&1 | grep -c 'No such')" 1
if [ -z "${QUICK:-}" ]; then
    sleep 61
    update 0
    same "a minute later" "$told, $opened" "$nothing, $all"
    update 0
    same "a minute later, once more" "$told, $opened" "$nothing, "
fi

project
row "nothing" "" "$nothing" true
row "touch" "d/a " "$nothing" 'touch d/a'
row "chmod" "d/a " "$nothing" 'chmod 600 d/a'
row "another name" "d/a " "$nothing" 'ln d/a .name'
row "a name less" "d/a " "$nothing" 'rm .name'
row "another time" "d/b " "$nothing" 'touch -d 2001-02-03 d/b'
row "the same content, made anew" "d/a " "$nothing" 'cp d/a .a && rm d/a && cp .a d/a'
row "the same content, in its place" "d/a " "$nothing" 'cp -p d/a .a && mv .a d/a'
row "git checkout of the same content" "d/b " "$nothing" \
    'git init -q . && git add d && git -c user.name=a -c user.email=a@b commit -qm a && rm d/b && git checkout -q d/b && rm -rf .git'
row "an edit" "d/a d/b d/e/c out " "$ran" 'printf "ONE\n" > d/a'
row "an edit that keeps the times" "d/a d/b d/e/c out " "$ran" 'cp -p d/a .t && printf "One\n" > d/a && touch -r .t d/a'
row "cp -p over it" "d/a d/b d/e/c out " "$ran" 'printf "oNe\n" > .n && touch -r d/a .n && cp -p .n d/a'
row "mv onto it" "d/a d/b d/e/c out " "$ran" 'printf "onE\n" > .n && touch -r d/a .n && mv .n d/a'
row "through another name" "d/a d/b d/e/c out " "$ran" 'ln d/a .n && printf "1ne\n" > .n && rm .n'
row "two files change places" "d/a d/b d/e/c out " "$ran" 'mv d/a .t && mv d/b d/a && mv .t d/b'
row "through a map" "d/a d/b d/e/c out " "$ran" \
    'python3 -c "import mmap; f = open(\"d/a\", \"r+b\"); m = mmap.mmap(f.fileno(), 0); m[:1] = b\"?\"; m.flush()"'
row "cp -a of the folder in its place" "d/a d/b d/e/c " "$nothing" 'cp -a d .d && rm -r d && mv .d d'
row "the file is torn" "$all" "$nothing" 'truncate -s -9 .tup/stamps'
row "the file is of zeros" "$all" "$nothing" 'dd if=/dev/zero of=.tup/stamps bs=1 seek=90 count=40 conv=notrunc status=none'
row "the file is gone" "$all" "$nothing" 'rm .tup/stamps'
row "others may write the file" "$all" "$nothing" 'chmod 666 .tup/stamps'
row "the file has another name" "$all" "$nothing" 'ln .tup/stamps .tup/other'
rm -f project/.tup/other

# A store through a map that finds its page dirty gives no new time: so what was changed a moment ago is read.
project
(cd project && python3 - "$tup" << 'P') > mapped
import mmap, subprocess, sys
file = open('d/a', 'r+b')
pages = mmap.mmap(file.fileno(), 0)
for byte in b'123':
    pages[:1] = bytes([byte])
    subprocess.run([sys.argv[1]], stdout=subprocess.DEVNULL)
    print(open('out').read(1), end='')
P
same "stores through a map, one after the other" "$(cat mapped)" 123

# The clock: back before the call that wrote the file, and a file of the future.
project
update 60
same "the clock is set back" "$told, $opened" "$nothing, $all"
update 120
update 120
same "the clock is right again" "$told, $opened" "$nothing, "
(cd project && printf 'One\n' > d/a)
update -3600
same "a file of the future" "$told" "$ran"
update -3600
same "a file of the future, once more" "$told, $opened" "$nothing, $all"

# Copies: all has other inodes.
project
for copy in 'cp -a project other' 'mkdir other && tar cf - -C project . | tar xf - -C other' 'rsync -a project/ other' 'git clone -q project other'; do
    case $copy in
        rsync*) command -v rsync > /dev/null || continue ;;
        git*) (cd project && git init -q . && git add -A . && git -c user.name=a -c user.email=a@b commit -qm a) ;;
    esac
    eval "$copy" || continue
    mv project kept && mv other project
    case $copy in git*) (cd project && "$tup" init > /dev/null; rm -f out) ;; esac
    update 120
    same "$copy: what is told" "${told%,*}" "$(case $copy in git*) echo 'done: 1 read, 1 run' ;; *) echo "${nothing%,*}" ;; esac)"
    case $copy in git*) ;; *) same "$copy: what is opened" "$opened" "$all" ;; esac
    rm -rf project && mv kept project
done

# No stamps where there is no such file system.
if mkdir /dev/shm/stamps.$$ 2> /dev/null && [ "$(stat -f -c %T /dev/shm)" = tmpfs ]; then
    cp -r project/Tupfile project/d /dev/shm/stamps.$$
    mv project kept && ln -s /dev/shm/stamps.$$ project
    (cd project && "$tup" init > /dev/null && "$tup" > /dev/null)
    update 120
    update 120
    same "a file system in memory" "$opened$(ls project/.tup)" "${all}db"
    rm project && mv kept project && rm -r /dev/shm/stamps.$$
fi

# Another boot, by a file bound over that of the kernel; and a file system of another device below.
if unshare -m true 2> /dev/null; then
    project
    echo 01234567-89ab-cdef-0123-456789abcdef > boot
    update 120 unshare -m sh -c 'mount --bind "$0" /proc/sys/kernel/random/boot_id && exec "$@"' "$work/boot"
    same "another boot" "$told, $opened" "$nothing, $all"
    mkdir project/m project/n
    printf 'low\n' > project/n/l
    (cd project && "$tup" > /dev/null)
    update 120
    update 120
    same "a folder more" "$told, $opened" "$nothing, "
    update 120 unshare -m sh -c 'mount -t tmpfs none "$0" && echo low > "$0/l" && exec "$@"' "$work/project/m"
    same "a disk in memory below" "$told, $opened" "$nothing, m/l "
    update 120 unshare -m sh -c 'mount --bind n m && exec "$@"' sh
    same "a folder bound below" "$told, $opened" "$nothing, m/l "
    chown 1 project/.tup/stamps 2> /dev/null && update 120 && same "another user's file" "$told, $opened" "$nothing, ${all%out }n/l out "
fi

if [ $failures -gt 0 ]; then
    echo "stamps.sh: $failures of $rows rows differ"
    exit 1
fi
echo "stamps.sh: $rows rows, as they should be"
