#!/bin/sh
# The commands of tup_sh where people build: as root and as a user, as root of a user namespace, as root who may not mount, with the
# project on an overlay as in an image layer, in a root of its own, and where a container's filter refuses mounts, namespaces or the
# tracer. Where a command can run apart all rows of shell.sh have to come out, and an update of examples/c; but for the rows of file
# systems in the project where root of a user namespace may lay no overlay over them, and the row of the mark that a project keeps
# where an overlay can't hold it: these are passed over, and it is said. Else one line says why a command can't run apart, and the
# project is as it was. Last, what the CI files of examples/ci call. Each way is made on the spot, without
# Docker; what can't be made is passed over. Words: tup and tup_sh, and a folder with a Debian of its own (none: without). It ends with 1
# where something else came, and says so.
set -u
. "$(dirname "$0")/../lib.sh"
tup=$(realpath "$1")
sh=$(realpath "$2")
debian=${3:-}
here=$(realpath "$(dirname "$0")")
if ! strace -o /dev/null true 2> /dev/null; then
    echo "passed over: there is no strace, or it may not trace"
    exit 0
fi
# Mounts of this test are in a namespace of its own, and end with it.
if [ "$(id -u)" = 0 ] && [ "${APART:-no}" = no ] && unshare -m true 2> /dev/null; then APART=yes exec unshare -m sh "$0" "$@"; fi
work=$(mktemp -d "${WORK:-/tmp}/containers.XXXXXX")
chmod 755 "$work"
clean() {
    cd /
    for it in "$work"/overlay "$work"/memory "${debian:-/nowhere}"/mnt "${debian:-/nowhere}"/proc "${debian:-/nowhere}"/dev; do umount -l "$it" 2> /dev/null; done
    chmod -R u+rwx "$work" 2> /dev/null
    rm -rf --one-file-system "$work"
}
trap clean EXIT
trap 'exit 1' INT TERM
failures=0
all=0
only=${ONLY:-}
cp "$tup" "$sh" "$work" && cp "$here/shell.sh" "$here/c-example.sh" "$work" && cp -r "$here/../../examples" "$work/examples"
tup=$work/$(basename "$tup") sh=$work/$(basename "$sh")
compiler=$(command -v gcc || command -v clang)
[ -z "$compiler" ] || "$compiler" -o "$work/confined" "$here/confined.c" || exit 1
user="setpriv --reuid 65534 --regid 65534 --clear-groups"
weak="setpriv --bounding-set -sys_admin --inh-caps -sys_admin"

# way NAME COMMAND ..: whether this way can be had; `COMMAND ..` runs a program so.
way() {
    what=$1
    case "$what" in *"$only"*) ;; *) return 1 ;; esac
    shift
    if ! "$@" true 2> /dev/null; then
        echo "passed over: $what"
        return 1
    fi
    all=$((all + 1))
}

# tells: how many commands were right, and what was passed over.
tells() { printf '%s: %s\n' "$what" "$({ grep '^passed over' "$work/said"; tail -n 1 "$work/said"; } | paste -sd ';')"; }

# whole NAME COMMAND ..: all rows of shell.sh, and examples/c, in a folder that anybody may write to.
whole() {
    way "$@" || return
    shift
    place=${place:-$work}/in$all
    mkdir "$place" && chmod 777 "$place"
    WORK=$place "$@" sh "$work/shell.sh" "$sh" > "$work/said" 2>&1 || wrong "shell.sh: $(cat "$work/said")"
    tail -n 1 "$work/said" | grep -q ' commands, 0 wrong$' || wrong "shell.sh: $(tail -n 3 "$work/said")"
    builds "$@"
    tells
    place=
}

# builds COMMAND ..: examples/c is built there, and built again behind an edit.
builds() {
    rm -rf "$place/c" && cp -r "$work/examples/c" "$place/c" && chmod -R a+rwX "$place/c" && cd "$place/c" || exit 1
    "$@" "$tup" init --proc "$sh" > /dev/null 2>&1 || wrong 'init failed'
    timeout 100 "$@" "$tup" > "$work/made" 2> "$work/err" || wrong "examples/c: $(tail -n 1 "$work/made") $(cat "$work/err")"
    [ "$(src/greet 2>&1 | head -n 1)" = 'Hello from version 1.2' ] || wrong "examples/c: it prints '$(src/greet 2>&1)'"
    sed -i 's/Hello/Good day/' lib/words.h
    timeout 100 "$@" "$tup" > "$work/made" 2> "$work/err"
    [ "$(tail -n 1 "$work/made")" = 'done: 0 read, 2 run, 0 removed' ] || wrong "examples/c behind an edit: $(cat "$work/made" "$work/err")"
    [ "$(src/greet | head -n 1)" = 'Good day from version 1.2' ] || wrong "examples/c behind an edit: it prints '$(src/greet)'"
    cd "$work" || exit 1
}

# refused NAME TEXT COMMAND ..: no command can run so. The only line of standard error says so, and the project is as it was.
refused() {
    text=$2
    name=$1
    shift 2
    way "$name" "$@" || return
    place=$work/in$all
    mkdir "$place" && chmod 777 "$place" && cd "$place" || exit 1
    echo a > a
    echo ': |> cat a > o |> o' > Tupfile
    chmod -R a+rwX "$place"
    "$@" "$tup" init --proc "$sh" > /dev/null
    timeout 100 "$@" "$tup" > "$work/made" 2> "$work/err"
    status=$?
    [ $status = 8 ] || wrong "exit number $status: $(cat "$work/made" "$work/err")"
    grep -q "^tup_sh: .*$text.*\`tup_sh --check\` says how" "$work/err" && [ "$(wc -l < "$work/err")" = 1 ] || wrong "it said: $(cat "$work/err")"
    [ "$(ls)" = "$(printf 'Tupfile\na')" ] && [ "$(cat a)" = a ] || wrong "there is $(ls | tr '\n' ' ')"
    printf '%s: refused: %s\n' "$what" "$(tail -n 1 "$work/err")"
    place=
    cd "$work" || exit 1
}
place=

# checked NAME COMMAND ..: the table of --check says which way commands go.
checked() { "$@" "$sh" --check > "$work/table" 2>&1; }

if [ "$(id -u)" = 0 ]; then
    whole 'root' env
    whole 'a user' $user
    whole 'root without CAP_SYS_ADMIN' $weak
    whole 'root of a user namespace' unshare -r
    whole 'root of a user namespace of a user' $user unshare -r
    whole 'root of a user namespace with mounts and processes of its own' $user unshare -rmpf --mount-proc
    # -- an image layer: the project, with its stage, lies on an overlay
    mkdir "$work/overlay" "$work/memory"
    if mount -t tmpfs none "$work/memory" && mkdir "$work/memory/low" "$work/memory/up" "$work/memory/wk" &&
        mount -t overlay overlay -o "lowerdir=$work/memory/low,upperdir=$work/memory/up,workdir=$work/memory/wk" "$work/overlay" && chmod 777 "$work/overlay"; then
        place=$work/overlay whole 'root, on an overlay' env
        place=$work/overlay whole 'a user, on an overlay' $user
        place=$work/overlay whole 'root without CAP_SYS_ADMIN, on an overlay' $weak
        place=$work/overlay whole 'root of a user namespace, on an overlay' unshare -r
    fi
    # -- Debian in a root of its own
    if [ -n "$debian" ] && mount --bind "$debian" "$debian" && mount -t proc proc "$debian/proc" && mount --rbind /dev "$debian/dev"; then
        mkdir -p "$debian/mnt" && mount --bind "$work" "$debian/mnt"
        inside="chroot $debian"
        tup=/mnt/$(basename "$tup") sh=/mnt/$(basename "$sh")
        debian_rows() {
            way "$@" || return
            shift
            mkdir "$work/in$all" && chmod 777 "$work/in$all"
            "$@" env WORK=/mnt/in$all sh /mnt/shell.sh "$sh" > "$work/said" 2>&1 || wrong "shell.sh: $(cat "$work/said")"
            tells
        }
        debian_rows 'Debian in a root of its own' $inside
        debian_rows 'a user of Debian in a root of its own' $inside $user
        tup=$work/$(basename "$tup") sh=$work/$(basename "$sh")
    fi
else
    whole 'a user' env
    whole 'root of a user namespace' unshare -r
fi

# -- where a filter refuses what a command needs
if [ -n "$compiler" ]; then
    refused 'no namespaces, as Docker has it for a user' 'namespace' $([ "$(id -u)" != 0 ] || echo "$user") "$work/confined" unshare,namespaces,mount
    [ "$(id -u)" != 0 ] || refused "no mounts and no namespaces, Docker's defaults for root" 'namespace' $weak "$work/confined" unshare,namespaces,mount
    refused 'no tracer' 'trace' "$work/confined" ptrace
fi

# -- what the CI files call, but for what installs
for file in github.yml gitlab-ci.yml; do
    what=examples/ci/$file
    case "$what" in *"$only"*) ;; *) continue ;; esac
    all=$((all + 1))
    rm -rf "$work/ci" && cp -r "$work/examples/c" "$work/ci" && mkdir "$work/ci/.tools" && cp "$tup" "$work/ci/.tools/tup" && cp "$sh" "$work/ci/.tools/tup_sh" && cd "$work/ci" || exit 1
    case $file in
        github.yml) sed -n '/- name: Build/,/^  [a-z]/p' "$work/examples/ci/$file" | sed -n '/export/,/greet/s/^ *//p' | sed '/greet/q' ;;
        *) sed -n '/^  script:/,$s/^    - //p' "$work/examples/ci/$file" | sed "s/^'\(.*\)'\$/\1/" ;;
    esac > "$work/script"
    for _ in once again; do
        sh -e "$work/script" > "$work/made" 2> "$work/err" || wrong "it ended with $?: $(cat "$work/made" "$work/err")"
        grep -q '^Hello from version 1.2$' "$work/made" || wrong "it printed $(cat "$work/made")"
    done
    grep -q 'done: 0 read, 0 run, 0 removed' "$work/made" || wrong "what was built before is built again: $(cat "$work/made")"
    cd "$work" || exit 1
done

printf '%s ways, %s wrong\n' "$all" "$failures"
[ "$failures" = 0 ]
