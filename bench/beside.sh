#!/bin/sh
# What tup does beside make, ninja and Debian's other tup: small projects of one or two shell commands, written for each of the four, are
# built, edited and built again, and a row of README's table is printed for each. Words: tup, tup_sh, and the other tup, if it is there.
# It measures and wants nothing: what is printed is what was seen. Bazel's column is by its manual.
set -u
tup=$(realpath "$1")
runner=$(realpath "$2")
other=${3:-none}
work=$(mktemp -d "${WORK:-/tmp}/beside.XXXXXX")
trap 'cd /; rm -rf "$work"' EXIT
tools=${TOOLS:-"make ninja tup here"}

# The project's rules from now on, each as `OUTPUT: INPUTS: COMMAND`; `flags` is what a rule of ninja or of tup has besides.
rules() {
    case $tool in
        make)
            printf 'all: %s\n' "$(printf '%s\n' "$@" | cut -d: -f1 | tr '\n' ' ')" > Makefile
            printf '%s\n' "$@" | sed 's/^\([^:]*\):\([^:]*\): *\(.*\)/\1:\2\n\t\3/' >> Makefile ;;
        ninja)
            : > build.ninja
            number=0
            for line in "$@"; do
                number=$((number + 1))
                printf 'rule r%s\n  command = %s\n' $number "${line#*:*: }" >> build.ninja
                if [ "${flags:-}" ]; then printf '  restat = 1\n' >> build.ninja; fi
                printf 'build %s: r%s%s\n' "${line%%:*}" $number "$(printf %s "$line" | cut -d: -f2)" >> build.ninja
            done ;;
        *)
            printf '%s\n' "$@" | sed "s/^\([^:]*\):\([^:]*\): *\(.*\)/:\2 |> ${flags:-} \3 |> \1/" > Tupfile ;;
    esac
}

begin() {
    cd "$(mktemp -d "$work/p.XXXXXX")" || exit 1
    pwd > "$work/last"
    echo old > a && echo old > b
    rules "$@"
    # A time of change in the past, so that no edit falls into the tick of a clock.
    touch -d '1 minute ago' a b
    case $tool in
        tup) "$other" init > /dev/null 2>&1 ;;
        here) "$tup" init --proc "$runner" > /dev/null 2>&1 ;;
    esac
    first
    # An edit comes later than in the same second, which some tools take for the same time.
    sleep 1.1
}

build() {
    case $tool in
        make) make -s all ;;
        ninja) ninja ;;
        tup) "$other" upd ;;
        here) "$tup" ;;
    esac > "$work/said" 2>&1
}

# A build that has to be done, else the row says nothing.
first() { build || { printf 'not built: %s: ' "$tool"; tail -3 "$work/said" | tr '\n' ' '; exit; }; }

# What a row says: its words for yes and for no.
says() { if [ "$1" = 0 ]; then echo "$2"; else echo "$3"; fi; }
has() { grep -q "$1" one 2> /dev/null; }

stale() {
    begin 'one: a: cp a one' 'two: a: cp a two'
    rules 'one: a: cp a one'
    build
    test ! -e two
    says $? removed stays
}

generated() {
    begin 'one: a: cp a one'
    rules 'one: a: cp a one' 'two: a: cat one > two'
    build
    says $? taken refused
}

read_undeclared() {
    begin 'one: a: cat a b > one'
    echo new > b
    build
    has new
    says $? followed missed
}

absent() {
    begin 'one: a: cat early 2> /dev/null > one || cat a > one'
    echo new > early
    build
    has new
    says $? followed missed
}

touched() {
    begin 'one: a: cat a > one; date -Ins >> one'
    cp one "$work/before"
    touch a
    build
    cmp -s one "$work/before"
    says $? skipped 'runs again'
}

backward() {
    begin 'one: a: cat a > one'
    echo new > a
    touch -d '2001-01-01' a
    build
    has new
    says $? seen missed
}

command() {
    begin 'one: a: cat a > one'
    rules 'one: a: cat a > one; echo new >> one'
    build
    has new
    says $? 'runs again' missed
}

killed() {
    rm -f "$work/mark"
    # The tool and its command are ended in the middle of the command's output.
    text="one: a: echo half > one; if [ ! -e $work/again ]; then touch $work/mark; sleep 60; fi; echo whole >> one"
    rm -f "$work/again"
    (begin "$text") &
    for _ in $(seq 1 3000); do if [ -e "$work/mark" ]; then break; fi; sleep 0.1; done
    for process in $(descend $!); do kill -9 "$process" 2> /dev/null; done
    wait
    cd "$(cat "$work/last")" || exit 1
    touch "$work/again"
    if [ "$tool" = tup ]; then fusermount3 -uz .tup/mnt 2> /dev/null; fi
    first
    has whole
    says $? 'made anew' 'half a file'
}

# A process of this script with all that it started.
descend() {
    echo "$1"
    for child in $(cat /proc/"$1"/task/*/children 2> /dev/null); do descend "$child"; done
}

cut_off() {
    begin 'one: a: grep -v "^#" a > one' 'two: one: cat one > two; date -Ins >> two'
    cp two "$work/before"
    echo '# a comment' >> a
    build
    cmp -s two "$work/before"
    says $? stops 'goes on'
}

cut_off_flagged() {
    case $tool in
        ninja) flags=restat; begin 'one: a: grep -v "^#" a > one.new; cmp -s one one.new || cp one.new one; rm one.new' 'two: one: cat one > two; date -Ins >> two' ;;
        tup) flags='^o^'; begin 'one: a: grep -v "^#" a > one' 'two: one: cat one > two; date -Ins >> two' ;;
        *) echo ; return ;;
    esac
    flags=
    cp two "$work/before"
    echo '# a comment' >> a
    build
    cmp -s two "$work/before"
    says $? "stops (restat, ^o^)" 'goes on'
}

row() {
    printf '| %s |' "$1"
    for tool in $tools; do
        if [ "$tool" = tup ] && [ "$other" = none ]; then printf ' not tried |'; continue; fi
        printf ' %s |' "$($2)"
    done
    printf '\n'
}

echo '| | make | ninja | tup | here |'
echo '|---|---|---|---|---|'
row 'an output whose rule is gone' stale
row 'a command reads an output that its rule does not name' generated
row 'a source that no rule names is edited' read_undeclared
row 'a file comes that was looked for and not found' absent
row 'a source gets another time and the same content' touched
row 'a source gets another content and an older time' backward
row 'the text of a command is changed' command
row 'build and command are killed, half an output is there' killed
row 'an output comes out as it was: do its readers run?' cut_off
row 'the same, where a rule asks for it' cut_off_flagged
