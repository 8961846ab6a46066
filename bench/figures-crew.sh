#!/bin/sh
# What `-j N` gains and costs over real files, each once, with the load of the machine beside it: four commands that sleep a second;
# what seven workers use of a processor while the eighth's command sleeps ten seconds; a project in C beside ninja; how many
# asks a second an update answers, of commands that read the same headers. Words: tup, tup_sh, how many files the project in C
# has (none: 200), and how many commands read headers (none: 1000). It is no part of the gate.
set -eu
export LC_ALL=C
tup=$(realpath "$1")
runner=$(realpath "$2")
files=${3:-200}
commands=${4:-1000}
for program in strace ninja cc python3; do
    command -v $program > /dev/null || { echo "passed over: there is no $program"; exit 0; }
done
work=$(mktemp -d "${WORK:-/tmp}/figures.XXXXXX")
trap 'cd /; rm -rf "$work"' EXIT
trap 'exit 1' INT TERM

# An empty folder, which is the working one from then on.
folder() { rm -rf "${work:?}/$1" && mkdir "$work/$1" && cd "$work/$1"; }

load() { cut -d ' ' -f 1 /proc/loadavg; }

# The seconds by the clock, and of a processor with all that they start, that these words take.
seconds() {
    python3 -c 'if 1:
        import os, subprocess, sys, time
        begun = time.perf_counter()
        run = subprocess.Popen(sys.argv[1:], stdout=subprocess.DEVNULL)
        _, status, used = os.wait4(run.pid, 0)
        if status != 0: sys.exit(1)
        print("%.2f %.2f" % (time.perf_counter() - begun, used.ru_utime + used.ru_stime))' "$@"
}

# row WHAT WORDS..: a row of a table, of the call with these words.
row() {
    what=$1 load=$(load)
    shift
    took=$(seconds "$@")
    printf '| %s | %s | %s | %s |\n' "$what" "${took% *}" "${took#* }" "$load"
}

head_of() {
    printf '\n%s\n\n' "$1"
    echo '| | Seconds by the clock | of a processor | Load before |'
    echo '|---|--:|--:|--:|'
}

# ---- commands that sleep
sleeps() {
    folder "sleeps$1"
    echo hi > a
    printf ': a |> sleep 1; cat a > %s |> %s\n' b b c c d d e e > Tupfile
    "$tup" init --proc "$runner" > /dev/null
    row "-j $1" "$tup" -j "$1"
}
head_of 'Four commands that sleep a second, under tup_sh'
sleeps 1
sleeps 4

# ---- what waits: the threads of an update whose only command sleeps ten seconds, from the first second on to the ninth
folder waits
echo hi > a
echo ': a |> sleep 10; cat a > b |> b' > Tupfile
"$tup" init --proc "$runner" > /dev/null
printf '\nEight workers, and one command that sleeps ten seconds (load %s): ' "$(load)"
python3 -c 'if 1:
    import glob, subprocess, sys, time
    def used(pid):
        threads = glob.glob("/proc/%d/task/*/schedstat" % pid)
        return len(threads), sum(int(open(thread).read().split()[0]) for thread in threads)
    update = subprocess.Popen([sys.argv[1], "-j", "8"], stdout=subprocess.DEVNULL)
    time.sleep(1)
    threads, before = used(update.pid)
    time.sleep(8)
    now, after = used(update.pid)
    if update.wait() != 0 or threads != now:
        sys.exit("it ended with %s, %d threads, then %d" % (update.returncode, threads, now))
    print("%d threads used %.3f ms of a processor in eight seconds" % (threads, (after - before) / 1e6))' "$tup"

# ---- a project in C: each file includes five of twenty headers
sources() {
    awk -v files="$files" 'BEGIN {
        for (h = 0; h < 20; h++) {
            name = "h" h ".h"
            printf "#ifndef H%d\n#define H%d\n", h, h > name
            for (f = 0; f < 10; f++) printf "static inline int h%d_%d(int x) { return x * %d + %d; }\n", h, f, h + 2, f > name
            print "#endif" > name
        }
        for (i = 0; i < files; i++) {
            name = "f" i ".c"
            print "#include <stdio.h>\n#include <stdlib.h>\n#include <string.h>" > name
            for (h = 0; h < 5; h++) printf "#include \"h%d.h\"\n", (i + 4 * h) % 20 > name
            for (f = 0; f < 40; f++)
                printf "int f%d_%d(int x) { int y = 0; for (int i = 0; i < x; i++) y += h%d_%d(i ^ y); return y; }\n", i, f, (i + 4 * (f % 5)) % 20, f % 10 > name
            close(name)
        }
        print "#include <stdio.h>" > "main.c"
        for (i = 0; i < files; i++) printf "int f%d_0(int x);\n", i > "main.c"
        print "int main(void) { int y = 0;" > "main.c"
        for (i = 0; i < files; i++) printf "    y += f%d_0(3);\n", i > "main.c"
        print "    printf(\"%d\\n\", y); return 0; }" > "main.c"
    }'
}

by_tup() {
    folder "$1"
    sources
    printf '%s\n' ': foreach *.c |> cc -O2 -c %f -o %o |> %B.o' ': *.o |> cc %f -o %o |> app' > Tupfile
    shift
    "$tup" init --proc "$runner" "$@" > /dev/null
}

by_ninja() {
    folder "$1"
    sources
    {
        printf 'rule cc\n  command = cc -O2 -MD -MF $out.d -c $in -o $out\n  depfile = $out.d\n  deps = gcc\nrule link\n  command = cc $in -o $out\n'
        for file in *.c; do echo "build ${file%.c}.o: cc $file"; done
        echo "build app: link $(ls -- *.c | sed 's/c$/o/' | tr '\n' ' ')"
    } > build.ninja
}

# The first build, one with nothing to do, and one after an edit of a header, in the working folder.
builds() {
    of=$1
    shift
    row "$of, first build" "$@"
    row "$of, nothing to do" "$@"
    sed -i 's/x \* 2/x * 7/' h0.h
    row "$of, after an edit of a header" "$@"
    ./app > said
}

head_of "A project in C of $files files and a link"
by_tup c1
builds 'tup -j 1' "$tup" -j 1
by_tup c4
builds 'tup -j 4' "$tup" -j 4
by_tup c4fast --no-sync
builds 'tup --no-sync -j 4' "$tup" -j 4
by_ninja n1
builds 'ninja -j 1' ninja -j 1
by_ninja n4
builds 'ninja -j 4' ninja -j 4
for other in c4 c4fast n1 n4; do cmp "$work/c1/app" "$work/$other/app"; done

# ---- asks: each command reads its source and 100 headers, by a program of --proc that digests them all at once
cat > "$work/digests" <<'END'
#!/bin/sh
stage=$3
set -- $4
sha256sum -- *.h "$2" | sed 's/^\(.\{64\}\)  /R \1 /' > "$stage/log"
cat "$2" > "$stage/w0"
printf 'W 0 %s\nE 0\n' "$3" >> "$stage/log"
END
chmod +x "$work/digests"

# asking NAME BYTES: so many commands over 100 headers of so many bytes each.
asking() {
    folder "$1"
    awk -v commands="$commands" -v bytes="$2" 'BEGIN {
        for (h = 0; h < 100; h++) {
            name = "h" h ".h"
            for (b = 0; b < bytes; b += 16) printf "/* %9d */\n", h + b > name
            close(name)
        }
        for (i = 0; i < commands; i++) {
            print i > ("a" i)
            close("a" i)
            printf ": a%d |> x a%d o%d |> o%d\n", i, i, i, i > "Tupfile"
        }
    }'
    "$tup" init --no-sync --proc "$work/digests" > /dev/null
}

printf '\n%d commands, each of which reads 100 headers (without syncs)\n\n' "$commands"
echo '| Headers | | Seconds by the clock | of a processor, with the commands | Asks a second | Load before |'
echo '|---|---|--:|--:|--:|--:|'
for bytes in 1024 16384; do
    for jobs in 1 4; do
        asking asks $bytes
        load=$(load)
        took=$(seconds "$tup" -j $jobs)
        printf '| %d bytes | -j %d | %s | %s | %.0f | %s |\n' $bytes $jobs "${took% *}" "${took#* }" \
            "$(awk -v asks=$((101 * commands)) -v seconds="${took% *}" 'BEGIN { print asks / seconds }')" "$load"
    done
done
