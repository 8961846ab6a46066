#!/bin/sh
# fetch.sh FOLDER NAME..: the sources of these packages of Debian, each unpacked as FOLDER/NAME. They are fetched through an
# apt that keeps its lists in FOLDER, so nothing of the system changes. It ends with 1 where one can't be had.
set -eu
folder=$(realpath "$1")
shift
command -v apt-get > /dev/null && command -v dpkg-source > /dev/null
mkdir -p "$folder/apt/lists/partial" "$folder/apt/archives/partial"
cd "$folder"
echo 'deb-src [signed-by=/usr/share/keyrings/debian-archive-keyring.gpg] http://deb.debian.org/debian bookworm main' > apt/sources.list
debian() {
    apt-get -q -o Dir::State="$folder/apt" -o Dir::Cache="$folder/apt" -o Dir::Etc::sourcelist="$folder/apt/sources.list" \
        -o Dir::Etc::sourceparts=/dev/null -o APT::Sandbox::User=root "$@"
}
[ -e apt/fetched ] || debian update
for name in "$@"; do
    [ -d "$name" ] && continue
    debian source --download-only "$name"
    dpkg-source --no-check -x "$name"_*.dsc "$name"
done
: > apt/fetched
