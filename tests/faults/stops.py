"""Histories of edits drawn by lot, in which updates are stopped on the way: `make killed`.

    stops.py killed PROGRAM [SEED [COUNT]]   so many updates (none: 100) are killed, or fail, at a system call drawn by lot
    stops.py full PROGRAM [SEED [COUNT]]     so many updates (none: 100) find a file system that is almost full

With ONCE=1 the projects sync once an update. A project has up to 40 rules in four folders. Between two updates that are done somebody edits sources, rules and outputs. Each
update is tried up to three times, by 1 to 4 runners, before it is left in peace. Then

- no source has changed, whatever stopped the updates,
- an update that failed says so, and the system's reason,
- the last update is done, its files are those of a clean build in another folder, and no update has run a command that no edit
  leads to,
- one more update has nothing to do.

What went wrong is printed, its folder is kept, and the end is then 1. The first needs strace, the second a mount of its own; each
is passed over where it can't be had. They are no part of the gate.
"""
import os
import random
import re
import shutil
import subprocess
import sys
import tempfile

FOLDERS = ['', 'lib/', 'src/', 'src/deep/']
# The calls at which an update is killed; and those that fail, from which on the program makes them and not the loader.
KILLED = ['%file', '%desc', '%file,%desc', 'write,pwrite64', 'openat', 'fsync,fdatasync', 'unlink,rmdir,mkdir']
FAILED = {'openat': 12, 'read': 12, 'statx': 3, 'getdents64': 1, 'pwrite64': 1, 'fsync': 1, 'fdatasync': 1, 'unlink': 1, 'mkdir': 1}
DONE_NOTHING = 'done: 0 read, 0 run, 0 removed'


class Rule:
    """A rule of a folder: how it makes its output of its inputs; `header` is only looked for. `height` counts the rules below it."""

    def __init__(self, folder, output, inputs, header, verb, height):
        self.folder, self.output, self.inputs, self.header, self.verb, self.height = folder, output, inputs, header, verb, height

    def way(self, path):
        """A path as the rule's folder names it."""
        return os.path.relpath(path, self.folder or '.')

    def text(self):
        inputs, output = ' '.join(map(self.way, self.inputs)), self.way(self.output)
        if self.verb == 'cp':
            return 'cp %s %s' % (self.way(self.inputs[0]), output)
        if self.verb == 'incl':
            return 'incl %s %s' % (self.way(self.inputs[0]), output)
        if self.verb == 'ifexists':
            return 'ifexists %s %s %s' % (self.way(self.header), self.way(self.inputs[0]), output)
        return 'cat %s > %s' % (inputs, output)

    def line(self):
        return ': %s |> %s |> %s\n' % (' '.join(map(self.way, self.inputs)), self.text(), self.way(self.output))

    def name(self):
        """What an update prints of it."""
        return '%s: %s' % (self.folder.rstrip('/') or '.', self.text())


class Project:
    """Sources and rules in a folder, as an editor leaves them; `rules` is in an order in which each comes behind what it reads."""

    def __init__(self, lot, top):
        self.lot, self.top, self.sources, self.rules, self.count = lot, top, {}, [], 0
        self.edited, self.named = set(), set()
        os.makedirs(top)
        for folder in FOLDERS:
            for name in lot.sample(['a.c', 'b.c', 'h.h', 'k'], lot.randint(2, 4)):
                self.write(folder + name)
        for _ in range(lot.choice([1, 3, 8, 20, 40])):
            self.add_rule()

    def content(self, path):
        """A content of a source, which may include another one."""
        headers = sorted(other for other in self.sources if other.endswith('.h') and other != path)
        lines = ['%s %d\n' % (path, self.lot.randint(0, 3)) * self.lot.choice([1, 1, 1, 60])]
        if headers and path.endswith('.c') and self.lot.random() < .6:
            other = self.lot.choice(headers)
            lines.insert(0, '#include "%s"\n' % os.path.relpath(other, os.path.dirname(path) or '.'))
        return ''.join(lines)

    def place(self, path):
        return os.path.join(self.top, path)

    def put(self, path, content):
        os.makedirs(os.path.dirname(self.place(path)), exist_ok=True)
        with open(self.place(path), 'w') as file:
            file.write(content)

    def write(self, path):
        self.sources[path] = self.content(path)
        self.put(path, self.sources[path])
        self.edited.add(path)

    def delete(self, path):
        del self.sources[path]
        os.remove(self.place(path))
        self.edited.add(path)

    def write_rules(self):
        for folder in FOLDERS:
            lines = ''.join(rule.line() for rule in self.rules if rule.folder == folder)
            self.sources[folder + 'Tupfile'] = lines
            self.put(folder + 'Tupfile', lines)

    def add_rule(self):
        """A rule that may read what the rules of its folder and of those before it make: no folder then waits for a later one."""
        if len(self.rules) == 40:
            return
        lot, depth = self.lot, self.lot.randrange(len(FOLDERS))
        made = [rule.output for rule in self.rules if FOLDERS.index(rule.folder) <= depth and rule.height < 5]
        known = sorted(path for path in self.sources if not path.endswith('Tupfile'))
        inputs = [lot.choice(made if made and lot.random() < .6 else known) for _ in range(lot.choice([1, 1, 1, 2, 3]))]
        inputs = sorted(set(inputs))
        verb = lot.choice(['cp', 'cat', 'cat', 'incl', 'ifexists'])
        if verb == 'incl' and inputs[0] not in known:
            verb = 'cat'
        header = lot.choice(FOLDERS) + lot.choice(['k', 'n.c']) if verb == 'ifexists' else None
        height = 1 + max([rule.height for rule in self.rules if rule.output in inputs] + [0])
        self.count += 1
        rule = Rule(FOLDERS[depth], '%so%d' % (FOLDERS[depth], self.count), inputs, header, verb, height)
        self.rules.append(rule)
        self.rules.sort(key=lambda rule: FOLDERS.index(rule.folder))
        self.named.add(rule.output)

    def drop_rule(self):
        """A rule goes, with all that read what it makes."""
        gone = {self.lot.choice(self.rules).output}
        for _ in self.rules:
            gone |= {rule.output for rule in self.rules if gone & set(rule.inputs)}
        if not gone & self.edited:  # what a user wrote over stays
            self.rules = [rule for rule in self.rules if rule.output not in gone]

    def touch_output(self):
        """A user deletes an output, or writes over it; the rule is still there."""
        made = sorted(rule.output for rule in self.rules if os.path.exists(self.place(rule.output)))
        if made:
            path = self.lot.choice(made)
            self.edited.add(path)
            os.remove(self.place(path))
            if self.lot.random() < .5:
                self.put(path, 'mine\n')

    def edit(self):
        lot, drawn = self.lot, self.lot.random()
        free = sorted(path for path in self.sources if not path.endswith(('.h', 'Tupfile'))
                      and not any(path in rule.inputs for rule in self.rules))
        if drawn < .5:
            self.write(lot.choice(sorted(path for path in self.sources if not path.endswith('Tupfile'))))
        elif drawn < .6:
            self.touch_output()
        elif drawn < .7:
            self.write(lot.choice(FOLDERS) + lot.choice(['a.c', 'b.c', 'h.h', 'k', 'n.c']))
        elif drawn < .75 and free:
            self.delete(lot.choice(free))
        elif drawn < .85 and self.rules:
            self.drop_rule()
        else:
            self.add_rule()

    def due(self):
        """The names of the rules to which the edits since the last update lead."""
        edited, names = set(self.edited), set()
        for rule in self.rules:
            included = {path for path in edited if path.endswith('.h')} if rule.verb == 'incl' else set()
            if included or rule.output in self.named or edited & {*rule.inputs, rule.header, rule.output}:
                edited.add(rule.output)
                names.add(rule.name())
        return names

    def is_done(self):
        self.edited, self.named = set(), set()


class History:
    """Updates of one project, each stopped up to three times before it is left in peace."""

    def __init__(self, program, lot, top, stopper):
        self.program, self.lot, self.stopper = program, lot, stopper
        self.project, self.clean = Project(lot, os.path.join(top, 'p')), tempfile.mkdtemp()
        self.wrong, self.stops = [], 0
        self.call('init', *(['--sync-once'] if os.environ.get('ONCE') else []))

    def call(self, *words, before=()):
        return subprocess.run([*before, self.program, *words], cwd=self.project.top, stdout=subprocess.PIPE, stderr=subprocess.PIPE,
                              text=True, errors='replace')

    def update(self, before=()):
        """An update by 1 to 4 runners; no source changes, and only what is due is run."""
        ended = self.call('upd', '-j', str(self.lot.randint(1, 4)), before=before)
        for path, content in self.project.sources.items():
            if self.read(path) != content:
                self.wrong.append('the source %s changed' % path)
        ran = set(re.findall(r'^(?:run|bad) (.*)$', ended.stdout, re.MULTILINE))
        for name in sorted(ran - self.project.due()):
            self.wrong.append('it was not to be run: ' + name)
        return ended

    def read(self, path):
        try:
            with open(self.project.place(path)) as file:
                return file.read()
        except OSError:
            return None

    def turn(self):
        """Edits, updates that are stopped, and one that is done."""
        for _ in range(self.lot.randint(0, 3)):
            self.project.edit()
        self.project.write_rules()
        for _ in range(self.lot.randint(1, 3)):
            self.stops += self.stopper(self)
        ended = self.update()
        if ended.returncode != 0:
            self.wrong.append('left in peace: exit %d: %s%s' % (ended.returncode, ended.stdout, ended.stderr))
        self.compare()
        nothing = self.call('upd')
        if nothing.stdout != DONE_NOTHING + '\n':
            self.wrong.append('with nothing to do: ' + nothing.stdout)
        self.project.is_done()

    def compare(self):
        """The files are those of a clean build in another folder."""
        shutil.rmtree(self.clean, ignore_errors=True)
        for path, content in self.project.sources.items():
            os.makedirs(os.path.dirname(os.path.join(self.clean, path)), exist_ok=True)
            with open(os.path.join(self.clean, path), 'w') as file:
                file.write(content)
        for words in ['init'], ['upd', '-j', '1']:
            built = subprocess.run([self.program, *words], cwd=self.clean, stdout=subprocess.PIPE, text=True)
            if built.returncode != 0:
                self.wrong.append('the clean build: ' + built.stdout)
            with open(os.path.join(self.clean, '.tup', 'options'), 'a') as options:
                options.write('--no-sync\n')
        found, wanted = files_of(self.project.top), files_of(self.clean)
        for path in sorted(set(found) | set(wanted)):
            if found.get(path) != wanted.get(path):
                self.wrong.append('differs from the clean build: ' + path)


def files_of(top):
    """The visible files below a folder."""
    files = {}
    for folder, folders, names in os.walk(top):
        folders[:] = [name for name in folders if not name.startswith('.')]
        for name in names:
            with open(os.path.join(folder, name), 'rb') as file:
                files[os.path.relpath(os.path.join(folder, name), top)] = file.read()
    return files


def killed(history):
    """Has an update killed, or one of its calls fail, at a system call drawn by lot; each thread counts its own."""
    lot, many = history.lot, 3 + 4 * len(history.project.due())
    if lot.random() < .75:
        calls, way, least = lot.choice(KILLED), 'signal=KILL', 1
        most = 30 + 4 * many if calls.startswith('%') else many
    else:
        calls, way = lot.choice(sorted(FAILED)), 'error=EIO'
        least, most = FAILED[calls], FAILED[calls] + many
    inject = '%s:%s:when=%d' % (calls, way, lot.randint(least, most))
    ended = history.update(['strace', '-f', '-qq', '-o', '/dev/null', '-e', 'trace=' + calls, '-e', 'inject=' + inject])
    is_told = '(os error 5)' in ended.stderr
    if ended.returncode not in (0, -9, 137, 9) and not (ended.returncode == 7 and is_told):
        history.wrong.append('%s: exit %d: %s%s' % (inject, ended.returncode, ended.stdout[-300:], ended.stderr))
    return ended.returncode != 0


def full(history):
    """Has an update find a file system with little room."""
    ballast, room = os.path.join(os.path.dirname(history.project.top), 'ballast'), history.lot.randint(0, 2 + len(history.project.due())) * 4096
    held = os.statvfs(history.project.top)
    with open(ballast, 'wb') as file:
        file.write(bytes(max(0, held.f_bavail * held.f_frsize - room)))
    ended = history.update()
    os.remove(ballast)
    is_full = ended.returncode == 7 and '(os error 28)' in ended.stderr
    if not is_full and ended.returncode != 0:
        history.wrong.append('%d bytes of room: exit %d: %s%s' % (room, ended.returncode, ended.stdout[-300:], ended.stderr))
    return is_full


def histories(program, seed, count, stopper):
    """Histories up to so many stops; whether all went well."""
    work, stops, turns, number = tempfile.mkdtemp(), 0, 0, 0
    if stopper is full:
        subprocess.run(['mount', '-t', 'tmpfs', '-o', 'size=1m', 'none', work], check=True)
    while stops < count and turns < 20 * count:
        number += 1
        history = History(program, random.Random('%d %d' % (seed, number)), os.path.join(work, str(number)), stopper)
        goes_on = True
        while goes_on and not history.wrong and stops + history.stops < count:
            history.turn()
            turns += 1
            # room lacks for outputs that are new
            goes_on = history.lot.random() < (.4 if stopper is full else .9)
        stops += history.stops
        if history.wrong:
            print('wrong: seed %d, history %d, in %s' % (seed, number, os.path.dirname(history.project.top)), *history.wrong, sep='\n    ')
            return False
        shutil.rmtree(os.path.join(work, str(number)))
        shutil.rmtree(history.clean)
    if stopper is full:
        subprocess.run(['umount', work], check=True)
    shutil.rmtree(work)
    print('%d updates stopped in %d histories of %d turns: no source changed, each next update was done' % (stops, number, turns))
    return stops >= count


def passed_over(kind):
    """Why this can't be tried here; with a mount of its own it begins anew."""
    if kind == 'killed':
        may = shutil.which('strace') and not subprocess.run(['strace', '-o', '/dev/null', 'true'], stderr=subprocess.DEVNULL).returncode
        return '' if may else 'there is no strace, or it may not trace'
    if os.environ.get('TUP_MOUNT'):
        return ''
    for way in (['unshare', '--mount'], ['unshare', '--mount', '--map-root-user']):
        if subprocess.run([*way, 'true'], stderr=subprocess.DEVNULL).returncode == 0:
            os.execvpe(way[0], [*way, sys.executable, '-B', *sys.argv], {**os.environ, 'TUP_MOUNT': 'own'})
    return 'a mount of its own is not to be had'


def main(words):
    if len(words) < 2 or words[0] not in ('killed', 'full'):
        print(__doc__)
        return False
    why = passed_over(words[0])
    if why:
        print('passed over: ' + why)
        return True
    numbers = [int(word) for word in words[2:]] + [1, 100][len(words) - 2:]
    return histories(os.path.abspath(words[1]), *numbers, killed if words[0] == 'killed' else full)


if __name__ == '__main__':
    sys.exit(0 if main(sys.argv[1:]) else 1)
