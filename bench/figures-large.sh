#!/bin/sh
# What `tup large N` costs, each once: seconds by the clock and of a processor, and the most memory it had. Words: the program, and
# numbers of folders (none: 10 100 300 1000). It is no part of the gate.
set -eu
tup=$(realpath "$1")
shift
if [ $# -eq 0 ]; then set -- 10 100 300 1000; fi
for folders; do
    python3 -c 'if 1:
        import os, subprocess, sys, time
        begun = time.perf_counter()
        run = subprocess.Popen(sys.argv[1:], stdout=subprocess.DEVNULL)
        _, status, used = os.wait4(run.pid, 0)
        if status != 0: sys.exit(1)
        print("| %s | %d | %.2f | %.2f | %d |" % (sys.argv[3], 11 * int(sys.argv[3]) + 1, time.perf_counter() - begun,
            used.ru_utime + used.ru_stime, used.ru_maxrss / 1024))' "$tup" large "$folders"
done
