#!/bin/sh
# Tries what dist/ has in a bare Debian tree: the package and the archive are installed, build examples/c and are removed, the package
# also beside Debian's other tup. Words: a tree as `debootstrap --variant=minbase bookworm FOLDER` makes it; it is copied first. It has to
# be run by root, with a network, and ends with 1 where something isn't as it has to be.
set -u
cd "$(dirname "$0")/.."
if [ "${APART:-no}" = no ]; then APART=yes exec unshare -m sh "$0" "$@"; fi
tree=$(mktemp -d "${WORK:-/tmp}/bare.XXXXXX")
clean() { umount -R "$tree" 2> /dev/null; rm -rf --one-file-system "$tree"; }
trap clean EXIT
trap 'exit 1' INT TERM
cp -a "$1/." "$tree"
cp dist/* "$tree/root"
# A root of its own is a mount: else no command can make it private.
mount --bind "$tree" "$tree" && mount -t proc proc "$tree/proc" && mount --rbind /dev "$tree/dev" || exit 1
failures=0
inside() { chroot "$tree" /usr/bin/env -i PATH=/usr/local/bin:/usr/bin:/bin:/usr/sbin:/sbin HOME=/root DEBIAN_FRONTEND=noninteractive sh -c "$1"; }
wanted() { if [ "$3" != "$2" ]; then failures=$((failures + 1)); printf 'differs: %s\n  wanted: %s\n  found:  %s\n' "$1" "$2" "$3"; fi; }
files() { inside 'find / -xdev "(" -path /proc -o -path /dev -o -path /tmp -o -path /var -o -path /root ")" -prune -o ! -type d -print' | sort; }
builds() {
    inside "rm -rf /root/c && cp -r $2 /root/c && cd /root/c && tup init --proc tup_sh" > "$tree/root/said" 2>&1
    wanted "$1: init" initialized "$(cat "$tree/root/said")"
    inside 'cd /root/c && tup' > "$tree/root/said" 2>&1
    wanted "$1: the update" 'done: 2 read, 6 run, 0 removed' "$(grep -v '^r' "$tree/root/said")"
    wanted "$1: the program" "$3" "$(inside /root/c/src/greet | xargs)"
    inside 'cd /root/c && tup' > "$tree/root/said" 2>&1
    wanted "$1: nothing to do" 'done: 0 read, 0 run, 0 removed' "$(tail -1 "$tree/root/said")"
}
quiet() { inside "$1" > "$tree/root/log" 2>&1 || { failures=$((failures + 1)); echo "failed: $1"; tail -5 "$tree/root/log"; }; }

quiet 'apt-get update && apt-get install -y --no-install-recommends gcc libc6-dev make strace mount man-db zsh && rm -f /root/log'
# What the other tup needs comes and stays, so that it isn't taken for what ours left.
quiet 'apt-get install -y --no-install-recommends tup && apt-get purge -y tup'
files > "$tree/root/before"

# The package.
quiet 'apt-get install -y /root/mudflatsieve_*.deb'
wanted 'where tup is' /usr/local/bin/tup "$(inside 'command -v tup')"
wanted 'the manual' mudflatsieve "$(inside 'man -w tup' | xargs -r basename | cut -d. -f1)"
builds package /usr/share/doc/mudflatsieve/examples/c 'Hello from version 1.2 Bye'
quiet 'apt-get install -y --no-install-recommends tup'
wanted 'the other tup beside it' 'tup 0.7.11-3 [debian] /usr/local/bin/tup' "$(inside '/usr/bin/tup --version') $(inside 'command -v tup')"
builds 'package beside the other tup' /usr/share/doc/mudflatsieve/examples/c 'Hello from version 1.2 Bye'
quiet 'apt-get purge -y tup'
quiet 'apt-get purge -y mudflatsieve'
files > "$tree/root/after"
wanted 'the package left' '' "$(comm -13 "$tree/root/before" "$tree/root/after")"

# The archive.
quiet 'cd /root && tar -xzf mudflatsieve-*.tar.gz && cd mudflatsieve-*/ && make install'
builds archive /usr/local/share/doc/mudflatsieve/examples/c 'Hello from version 1.2 Bye'
quiet 'cd /root/mudflatsieve-*/ && make uninstall'
files > "$tree/root/after"
wanted 'the archive left' '' "$(comm -13 "$tree/root/before" "$tree/root/after")"

if [ "$failures" != 0 ]; then echo "$failures differ"; exit 1; fi
echo 'the package and the archive are installed, build and are removed as they have to be'
