#!/bin/sh
# Builds and edits real projects. Words: tup, tup_sh, a folder for their sources, and the projects (all, if none is named).
# Where they can't be had it says so and passes.
set -u
here=$(dirname "$0")
tup=$1 sh=$2 folder=$3
shift 3
[ $# -gt 0 ] || set -- lua5.4 zlib brotli ninja-build
for program in strace ninja cc c++ ar python3; do
    command -v "$program" > /dev/null || { echo "passed over: there is no $program"; exit 0; }
done
mkdir -p "$folder" || exit 1
if ! sh "$here/fetch.sh" "$folder" "$@" > "$folder/fetched" 2>&1; then
    tail -n 3 "$folder/fetched"
    echo 'passed over: the sources of Debian can not be fetched'
    exit 0
fi
exec python3 -B "$here/real.py" "$tup" "$sh" "$folder" "$@"
