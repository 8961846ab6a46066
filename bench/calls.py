# For gdb: the seconds of a processor of each call of `tup large N`, and of the steps of the second one, for figures-second.sh.
# The variable FOLDERS is N, NAMES the output of nm, OUT the file that gets a line for each.
import gdb, os, time

CALLS = ["0 init", "1 the first update", "2 nothing to do", "3 a header was edited", "4 a source was edited", "5 a source is new",
         "6 a source is gone", "7 the comparison with a clean build"]
# Functions at which a step begins, by the front of their names, in the order in which a step may come. A name that isn't there,
# since the compiler put it into its caller, is passed over, and its step counts to the one before it.
CALL = "tup_top::call::tup::"
STEPS = [
    ("tup_stored_graph::graph::Graph::open::", "the store is opened"),
    ("tup_site::memory_calls::MemSiteSite::list", "the files are listed and digested"),
    ("tup_scan_diff::scan::note_scan::", "the scan is compared with what was kept"),
    ("tup_refresh::outline::outline", "the outline of the readings"),
    ("tup_stale::looking::refuse_users", "the rules that may have to run"),
]
marks = []


def used():
    """The seconds of a processor that the program had, all its threads together."""
    return time.clock_gettime((~gdb.selected_inferior().pid << 3) | 2)


class Mark(gdb.Breakpoint):
    def __init__(self, address, name):
        super().__init__("*" + hex(address), internal=True)
        self.name = name

    def stop(self):
        marks.append((used(), self.name))
        return False


def base(program):
    """Where the program begins in memory."""
    for line in open("/proc/%d/maps" % gdb.selected_inferior().pid):
        if line.rstrip().endswith(program):
            return int(line.split("-")[0], 16)
    raise SystemExit("the program isn't in memory")


def main():
    gdb.execute("set pagination off")
    gdb.execute("set confirm off")
    gdb.execute("set args large %s > /dev/null" % os.environ["FOLDERS"])
    gdb.execute("starti")
    first = base(os.path.realpath(gdb.current_progspace().filename))
    for line in open(os.environ["NAMES"]):
        address, _, name = line.rstrip("\n").split(" ", 2) if line[0] != " " else ("", "", "")
        for front in [CALL] + [front for front, _ in STEPS]:
            if name.startswith(front):
                Mark(first + int(address, 16), front)
    gdb.execute("catch syscall exit_group")
    gdb.execute("continue")
    marks.append((used(), CALL))
    write()
    gdb.execute("kill")


def write():
    begins = [at for at, (_, name) in enumerate(marks) if name == CALL]
    with open(os.environ["OUT"], "w") as out:
        for number in range(len(begins) - 1):
            first, past = begins[number], begins[number + 1]
            out.write("%.4f %s\n" % (marks[past][0] - marks[first][0], CALLS[number]))
            if number != 2:
                continue
            steps, since = {}, ("the call begins", marks[first][0])
            for at, name in marks[first + 1:past + 1]:
                steps[since[0]] = steps.get(since[0], 0) + at - since[1]
                since = (dict(STEPS).get(name), at)
            for name, seconds in steps.items():
                out.write("%.4f   from where %s\n" % (seconds, name))


main()
