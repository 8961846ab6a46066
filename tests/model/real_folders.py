"""The same deeds in a real folder, with the program itself; and what it leaves where it is killed on the way."""
import os
import re
import shutil
import subprocess
import tempfile
import time
from collections import Counter

from commands import outputs_of
from language import Project, show
from reasons import unexplained


def tree_of(top):
    """The visible files below a folder."""
    tree = {}
    for folder, folders, names in os.walk(os.fsencode(top)):
        folders[:] = [name for name in folders if not name.startswith(b'.')]
        for name in names:
            if not name.startswith(b'.'):
                place = os.path.join(folder, name)
                with open(place, 'rb') as file:
                    tree[tuple(os.path.relpath(place, os.fsencode(top)).split(b'/'))] = file.read()
    return tree


def deeds(lines):
    """What lines say was removed and run, whether well or not, or is to be."""
    told = re.findall(rb'^(?:todo )?(remove|run|bad) (.*)', lines, re.MULTILINE)
    return Counter((b'run' if deed == b'bad' else deed, of) for deed, of in told)


def same_lines(found, wanted):
    """Whether the same is told in any order, up to the last line."""
    found, wanted = found.splitlines(), wanted.splitlines()
    return sorted(found) == sorted(wanted) and found[-1:] == wanted[-1:]


class Folder:
    """A project in a folder of its own; `problems` are the calls that came out otherwise."""

    def __init__(self, program, options, lot, kills, problems):
        self.program, self.options, self.lot = os.path.abspath(program), options, lot
        self.kills, self.problems = kills, problems
        self.top, self.calls, self.killed = tempfile.mkdtemp(), 0, 0
        self.listed = None  # what `todo` listed, while nothing is edited

    def place(self, path):
        return os.path.join(os.fsencode(self.top), *path)

    def start(self, words, jobs=1):
        """A call, with the options behind its words where it is an update, by so many runners."""
        options = [] if words in (['init'], ['todo'], ['verify']) else [*self.options, '-j', str(jobs)]
        return subprocess.Popen([self.program, *words, *options], cwd=self.top, stdout=subprocess.PIPE,
                                stderr=subprocess.DEVNULL)

    def run(self, words, jobs=1):
        process = self.start(words, jobs)
        lines, _ = process.communicate()
        return process.returncode, lines

    def begin(self, has_begun):
        if has_begun:
            self.run(['init'])

    def write(self, path, content):
        self.listed = None
        if os.path.isdir(self.place(path)):
            shutil.rmtree(self.place(path))  # it has empty folders alone
        os.makedirs(os.path.dirname(self.place(path)), exist_ok=True)
        with open(self.place(path), 'wb') as file:
            file.write(content)

    def delete(self, path):
        self.listed = None
        os.remove(self.place(path))
        for depth in range(len(path) - 1, 0, -1):
            if not os.listdir(self.place(path[:depth])):
                os.rmdir(self.place(path[:depth]))

    def call(self, words, status, lines, before, world):
        is_update = words in ([], ['upd']) and status in (0, 1)
        jobs = self.lot.choice([1, self.lot.randint(2, 16)])
        was_killed = self.kills and is_update and self.kill(words, before, jobs)
        found_status, found_lines = self.run(words, jobs)
        self.calls += 1
        wrong, listed = [], self.listed
        if world.opening:
            found_lines, wrong = unexplained(found_lines, world.opening, world.ended if jobs == 1 else None)
        if not self.is_as_listed(words, found_status, found_lines):
            wrong.append('todo listed %s' % listed)
        tree = tree_of(self.top)
        # several runners may begin rules behind the bad one's, and another bad rule may end first
        is_open = status == 1 and (was_killed or jobs > 1 and '-k' not in words)
        if is_open:
            # what the killed one, or the runners beside the bad rule's, made of rules behind it, or what an edit left at an output, stays
            owned = before.owned | outputs_of(Project(before.sources()).rules())
            same_tree = {path: tree[path] for path in tree if path not in owned} == before.sources()
        else:
            same_tree = tree == world.tree
        is_told = was_killed or is_open or (same_lines if jobs > 1 else bytes.__eq__)(found_lines, lines)
        if wrong or found_status != status or not is_told or not same_tree:
            paths = sorted(set(tree) | set(world.tree))
            differ = [show(path).decode() for path in paths if tree.get(path) != world.tree.get(path)]
            self.problems.append((self.top, [*words, '-j', jobs], (status, lines), (found_status, found_lines), differ, wrong))
            return False
        return not is_open

    def is_as_listed(self, words, status, lines):
        """Whether an update removes and runs what `todo` listed, if nothing was edited between: all of it where it is done."""
        listed, did = self.listed, deeds(lines)
        if words in (['init'], ['verify']):
            return True
        self.listed = did if words == ['todo'] and status == 0 else None
        return listed is None or did == listed or status and not did - listed

    def kill(self, words, before, jobs):
        """Ends a call at some moment; no source may be lost by that."""
        process = self.start(words, jobs)
        time.sleep(self.lot.random() * .006)
        process.kill()
        process.communicate()
        self.killed, self.listed = self.killed + 1, None
        tree = tree_of(self.top)
        lost = [show(path).decode() for path, content in before.sources().items() if tree.get(path) != content]
        if lost:
            self.problems.append((self.top, words, 'killed', 'sources lost', lost))
        return True

    def remove(self):
        shutil.rmtree(self.top)
