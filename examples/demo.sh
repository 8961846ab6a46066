#!/bin/sh
# Builds the example projects in a new folder, step by step. Words: tup, and tup_sh for the program in C.
set -u
tup=$(realpath "$1")
sh=$(realpath -m "${2:-none}")
folder=$(mktemp -d)
trap 'rm -rf "$folder"' EXIT
cp -r "$(dirname "$0")"/hello "$(dirname "$0")"/tree "$(dirname "$0")"/c "$folder"
cd "$folder/tree" || exit 1

say() { printf '\n-- %s\n' "$*"; }
begin() { say "it begins"; "$tup" init; }
update() { "$tup" upd "$@"; printf '   exit %s\n' "$?"; }

say "a project of three folders"
find . -type f | sort
cat Tuprules.tup lib/Tupfile Tupfile

begin
say "its first update"
update
cat app app.stamp

say "the files are those of a clean build"
"$tup" verify

say "a header is edited: what includes it is made anew, and what is made of that"
sed -i 's/3/4/' inc/size.h
update

say "without what tup.config sets"
rm tup.config
update

cd ../hello || exit 1
say "a project of one folder"
ls
cat Tupfile
begin

say "the first update"
update
cat index.html

say "nothing is to be done"
update

say "a source is edited: the rule that reads it runs"
echo 'h1 { color: green }' >> style.css
update

say "a rule that fails: what ran before it stands"
echo ': index.html |> fail 3 |> checked.html' >> Tupfile
update

say "its repair"
sed -i 's/fail 3/cp index.html checked.html/' Tupfile
update

say "a command that reads what its rule doesn't name as an input"
echo ': head.html |> cat head.html index.html > all.html |> all.html' >> Tupfile
update

say "its repair"
sed -i 's/^: head.html |>/: head.html index.html |>/' Tupfile
update

say "a rule vanishes, and so does its output"
sed -i '/site.css/d' Tupfile
update
ls

say "an output that would overwrite a source is refused"
echo ': head.html |> cp head.html body.html |> body.html' >> Tupfile
update
cat body.html

cd ../c || exit 1
say "a library and a program in C, with shell commands: tup upd --proc tup_sh"
find . -type f | sort
cat lib/Tupfile src/Tupfile
begin
if ! command -v cc > /dev/null || ! command -v ar > /dev/null; then
    echo "   passed over: there is no C compiler (cc and ar)"
    exit 0
fi
if ! strace -o /dev/null true 2> /dev/null; then
    echo "   passed over: there is no strace, or it may not trace here"
    exit 0
fi
if [ ! -x "$sh" ]; then
    echo "   passed over: there is no tup_sh"
    exit 0
fi
say "the first update"
update --proc "$sh"
src/greet

say "a header is edited that no rule names"
sed -i 's/Hello/Good day/' lib/words.h
update --proc "$sh"
src/greet

say "another of its name stands earlier on the include path"
echo '#define GREETING "Good morning"' > src/words.h
update --proc "$sh"
src/greet

say "a header that a rule makes isn't named"
sed -i 's/ | version.h//' src/Tupfile
update --proc "$sh"

say "its repair"
sed -i 's/foreach \*.c/& | version.h/' src/Tupfile
update --proc "$sh"

say "a command that would overwrite a source"
sed -i 's/-c %f -o %o/& \&\& echo x > main.c/' src/Tupfile
update --proc "$sh"
cat src/main.c
