"""Projects of shell commands drawn by lot, under tup_sh: `make lot`.

    lot.py PROGRAM RUNNER [SEED [EDITS]]   draws projects from this seed on (none: 1) until so many edits (none: 300) were tried
    lot.py --again FILE                    tries the history in such a file again
    lot.py --small FILE                    looks for a smaller history that goes wrong too, and leaves it in FILE

A project has 3 to 8 folders, 5 to 12 files and links, and 2 to 6 rules, whose commands look for files and folders in all ways that
the writer knew of. Then somebody edits it, in each way that changes what a path is. After each edit `tup` is called. Then

- it is done, the sources are as they were, and each output is what the plain shell makes in a fresh folder of the same name,
- one more call has nothing to do.

While some updates run, a file is changed and changed back. Such an update may end with 7 or 8, and say which file it was; the next
one is done.

As root, some edits lay another file system over a folder of the project, or another file over a file, and take it away. A command
that meets a link to a folder fails by design: what comes of that isn't compared.

Not drawn, as USING says that a command isn't run again for them: a folder that is listed and gets or loses a name, an empty folder or
one that has only outputs, what is missed through a link into /proc that the command made and removed, modes, that a folder can't be
written since something is mounted there, and names that tup doesn't see.

What went wrong is printed with its seed, and the history is kept as a file for --again and --small. The end is then 1.
"""
import json
import os
import random
import re
import shutil
import stat
import subprocess
import sys
import tempfile
import threading
import time

FOLDERS = ['p', 'q', 'r', 'p/s', 'p/q', 'q/s', 'r/s', 'p/s/t', 'v']
NAMES = ['f', 'g', 'k', 'x.h', 'y.h', 's']
# What is listed: its names stay. And the folder of rules below the top.
LISTED = ['l/f', 'l/g', 'l/m/f', 'l/m/x.h']
BELOW = 'w'
NOTHING = 'done: 0 read, 0 run, 0 removed'
THROUGH_LINK = "a folder can't be reached through a link"
# What the first thread of a program does: it waits while another one runs the words.
THREAD = r'''
#include <pthread.h>
#include <stdio.h>
#include <stdlib.h>
#include <unistd.h>
static void *run(void *words) { execv(((char **)words)[1], (char **)words + 1); puts("none"); exit(0); }
int main(int count, char **words) { pthread_t it; if (count < 2) return 2; pthread_create(&it, 0, run, words); pthread_join(it, 0); return 3; }
'''


def joined(folder, name):
    return folder + '/' + name if folder else name


class Drawing:
    """Draws projects. `lot` is the source of chances."""

    def __init__(self, lot, tools):
        self.lot, self.tools, self.count = lot, tools, 0
        self.folders = sorted(lot.sample(FOLDERS, lot.randint(3, 8)))
        self.rules, self.listed = [], lot.random() < 0.4
        # Where a command makes something.
        self.makes = []
        # Half of what is asked for and edited is one of a few paths.
        self.few = [self.any_path() for _ in range(6)]
        # A file that one command reads slowly, if there is one.
        self.slow = self.lot.choice(self.few) if lot.random() < 0.4 else None

    def fresh(self):
        self.count += 1
        return self.count

    # -- files
    def path(self):
        """A path that a file, a folder or nothing may be at."""
        return self.lot.choice(self.few) if self.lot.random() < 0.5 else self.any_path()

    def any_path(self):
        folder = self.lot.choice([''] + self.folders * 2)
        return joined(folder, self.lot.choice(NAMES)) if self.lot.random() < 0.8 or not folder else folder

    def asked(self):
        """A path that a command asks for: also one whose middle is lacking."""
        kind = self.lot.random()
        if kind < 0.25:
            return self.lot.choice(self.folders)
        if kind < 0.33:
            return joined(self.path(), self.lot.choice(NAMES))
        return self.path()

    def text(self, path):
        """A content of a file. Some have the same size, and a header may ask for another one."""
        if self.lot.random() < 0.15:
            return 'same\n'
        lines = ['%s %d\n' % (self.lot.choice(['one', 'two', 'three']), self.fresh())]
        if path.endswith('.h'):
            for _ in range(self.lot.randint(0, 2)):
                name = self.lot.choice(['x.h', 'y.h', 's/x.h', 's/y.h', '../x.h'])
                lines.append('#if __has_include("%s") && __INCLUDE_LEVEL__ < 5\n#include "%s"\n#endif\n' % (name, name))
        return ''.join(lines)

    def thing(self, path, kinds):
        """What is put at a path: a kind, and a text or where a link leads."""
        kind = self.lot.choice(kinds)
        if kind == 'link':
            to = self.asked() if self.lot.random() < 0.4 else self.path()
            if to.startswith(path + '/'):
                to = self.lot.choice(NAMES)
            return [kind, os.path.relpath(to, os.path.dirname(path) or '.')]
        if kind == 'script':
            return [kind, '#!/bin/sh\necho script %d\n' % self.fresh()]
        return ['file', self.text(path)]

    def put(self, path, kinds=('file', 'file', 'file', 'file', 'script', 'link')):
        return ['put', path] + self.thing(path, kinds)

    def first(self):
        """The edits that make the project."""
        edits = [self.put(joined(folder, self.lot.choice(NAMES))) for folder in self.folders if self.lot.random() < 0.7]
        while len(edits) < 5 or len(edits) < 12 and self.lot.random() < 0.8:
            edits.append(self.put(self.path()))
        edits.append(['put', 'main.c', 'file', self.source()])
        if self.slow:
            edits += [self.put(self.slow, ['file']), ['put', 'turn', 'file', 'turn %d\n' % self.fresh()]]
        if self.listed:
            edits += [['put', path, 'file', 'listed %d\n' % self.fresh()] for path in LISTED]
        return edits

    def source(self):
        """A source in C. It is only preprocessed."""
        lines = ['main %d\n' % self.fresh()]
        for _ in range(self.lot.randint(1, 4)):
            name = self.lot.choice(['x.h', 'y.h', 's/x.h', 'q/x.h', 's/y.h', 't/x.h'])
            quoted = self.lot.choice(['"%s"', '<%s>']) % name
            if self.lot.random() < 0.6:
                lines.append('#if __has_include(%s)\n#include %s\n#else\nno %s\n#endif\n' % (quoted, quoted, name))
            else:
                lines.append('#include %s\n' % quoted)
        return ''.join(lines)

    # -- commands
    def named(self, folder, path):
        """A path as a command in a folder may name it."""
        way = os.path.relpath(path, folder or '.')
        kind = self.lot.random()
        if kind < 0.62:
            return way
        if kind < 0.7:
            return self.around(folder, path)
        front = ['./', '/proc/self/cwd/', '/proc/thread-self/cwd/', '$PWD/', '/usr/..$PWD/', '/proc/self/root$PWD/']
        return self.lot.choice(front) + way

    def around(self, folder, path):
        """A path through a folder and out of it again."""
        by = self.lot.choice(self.folders)
        return joined(os.path.relpath(by, folder or '.'), os.path.relpath(path, by))

    def step(self, folder):
        """A step of a command in a folder."""
        path = self.asked()
        at, n = self.named(folder, path), self.fresh()
        kind = self.lot.choice([
            'cat', 'cat', 'cat', 'test', 'test', 'test', 'readlink', 'realpath', 'mkdir', 'cd', 'find', 'gcc', 'clang', 'isdir', 'thread',
            'moved', 'movedin', 'linked', 'made', 'size', 'kind', 'same', 'run', 'sleep'])
        if kind == 'cat':
            return 'cat %s' % at
        if kind == 'test':
            return 'test -%s %s && echo y%d' % (self.lot.choice('edfL'), at, n)
        if kind == 'readlink':
            return self.lot.choice(['readlink %s', 'timeout 9 readlink -f %s']) % at
        if kind == 'realpath':
            # It goes round for ever at a link that leads below itself.
            return 'timeout 9 realpath %s' % at
        if kind in ('mkdir', 'made'):
            self.makes.append(path)
        if kind == 'mkdir':
            return 'mkdir %s && echo m%d && rmdir %s' % (at, n, at)
        if kind == 'made':
            return self.making(at, n)
        if kind == 'cd':
            return self.entering(folder, self.lot.choice(self.folders), path)
        if kind == 'find':
            return self.listing(folder)
        if kind in ('gcc', 'clang'):
            return self.compiling(kind, folder)
        if kind == 'isdir':
            return "%s -IES -c 'import os, sys; print(os.path.is%s(sys.argv[1]))' %s" % (self.tools['python'], self.lot.choice(['dir', 'file']), at)
        if kind == 'thread':
            return '%s %s' % (self.tools['thread'], self.lot.choice(['/bin/cat ' + at, at if '/' in at else './' + at]))
        if kind == 'moved':
            return 'cp %s m%d.a && mv m%d.a m%d.b && cat m%d.b; rm -f m%d.a m%d.b' % (at, n, n, n, n, n, n)
        if kind == 'movedin':
            return 'mkdir n%d && { cp %s n%d/z; mv n%d o%d; cat o%d/z; rm -rf o%d; }' % (n, at, n, n, n, n, n)
        if kind == 'linked':
            # What is missed through a link into /proc that the command takes away again isn't known: so it is asked for besides.
            asked = 'test -e %s; ' % at if at.startswith('/proc/') else ''
            return 'ln -s %s k%d && { %scat k%d; rm k%d; }' % (at, n, asked, n, n)
        if kind == 'size':
            return '(wc -c < %s)' % at
        if kind == 'kind':
            return 'stat -c %%%%F %s' % at
        if kind == 'same':
            return 'cmp -s %s %s && echo same%d' % (at, self.named(folder, self.asked()), n)
        if kind == 'run':
            return self.lot.choice(['sh %s', '%s']) % (at if '/' in at else './' + at)
        return 'sleep 0.1'

    def making(self, at, n):
        """Makes something at a path where nothing is, and takes it away again."""
        make = self.lot.choice(['echo t%d > %s', 'ln -s t%d %s', 'cp main.c m%d && ln m%d %s', 'cp main.c m%d && mv m%d %s', 'echo t%d >> %s'])
        make = make % ((n,) * (make.count('%') - 1) + (at,))
        return '{ test -e %s || test -L %s || { %s && echo m%d && rm %s; rm -f m%d; }; }' % (at, at, make, n, at, n)

    def entering(self, folder, into, path):
        at = self.named(folder, into)
        inner = os.path.relpath(path, into)
        return self.lot.choice(['(cd %s && cat %s)' % (at, inner), '(cd %s && test -e %s && echo y)' % (at, inner), '(cd %s && pwd)' % at])

    def listing(self, folder):
        if not self.listed:
            return 'cat ' + self.named(folder, self.path())
        at = os.path.relpath('l', folder or '.')
        return self.lot.choice(['find %s -name f | sort' % at, 'ls %s' % at, 'cat %s/*' % at, 'find %s -type f | sort | xargs cat' % at])

    def compiling(self, program, folder):
        if not self.tools[program]:
            return 'cat ' + self.named(folder, self.path())
        words = [program, '-E', '-P']
        for by in self.lot.sample(self.folders, self.lot.randint(1, min(3, len(self.folders)))):
            words.append(self.lot.choice(['-I', '-I', '-isystem ', '-iquote ']) + self.named(folder, by))
        return ' '.join(words + [self.named(folder, 'main.c')])

    def command(self, folder, inputs):
        """The steps of a command with what stands between them."""
        steps = [['', self.step(folder)]]
        for _ in range(self.lot.randint(0, 4)):
            steps.append([self.lot.choice([';', ';', '&&', '||']), self.step(folder)])
        for it in inputs:
            steps.insert(self.lot.randint(1, len(steps)), [';', 'cat ' + os.path.relpath(it, folder or '.')])
        return steps

    def draw_rules(self):
        if self.slow:
            steps = [['', 'cat turn'], [';', 'sleep 0.3'], [';', self.lot.choice(['cat ', 'test -e ', 'wc -c < ']) + self.slow + ' && echo y'], [';', 'sleep 0.4']]
            self.rules.append({'folder': '', 'output': 'slowly', 'inputs': [], 'steps': steps, 'end': 'true', 'off': False})
        for n in range(min(self.lot.randint(2, 6), self.lot.randint(2, 6))):
            folder = self.lot.choice(['', '', BELOW])
            inputs = [it['output'] for it in self.rules if it['folder'] in (BELOW, folder) and self.lot.random() < 0.2]
            self.rules.append({'folder': folder, 'output': joined(folder, 'out%d' % n), 'inputs': inputs, 'steps': self.command(folder, inputs),
                               'end': self.lot.choice(['true'] * 79 + ['test -e ' + self.named(folder, self.asked())]), 'off': False})

    # -- edits
    def edit(self, tree, mounts, rules):
        """An edit of a project whose sources are these."""
        files = [path for path, it in sorted(tree.items()) if it[0] != 'folder' and not path.startswith('l/') and path != 'main.c']
        folders = [path for path, it in sorted(tree.items()) if it[0] == 'folder' and path not in ('l', 'l/m', BELOW)]
        some = self.lot.choice(files) if files else 'f'
        kind = self.lot.choice(['write', 'write', 'write', 'same', 'remove', 'remove', 'come', 'come', 'go', 'turn', 'turn', 'turn', 'link', 'link', 'move',
                                'move', 'touch', 'chmod', 'source', 'header', 'header', 'listed', 'rules', 'two', 'mount', 'mount'])
        if kind == 'write':
            return [self.put(some)]
        if kind == 'same':
            return [['put', some, 'file', 'same\n']]
        if kind == 'remove':
            return [['remove', some]]
        if kind == 'come':
            return [self.put(joined(self.lot.choice(self.folders), self.lot.choice(NAMES))) for _ in range(self.lot.randint(1, 2))]
        if kind == 'go' and folders:
            return [['remove', self.lot.choice(folders)]]
        if kind == 'turn':
            return [self.turned(self.lot.choice(files + folders + self.folders))]
        if kind == 'link':
            return [self.put(self.path(), ['link'])]
        if kind == 'move' and files + folders:
            return [['move', self.lot.choice(files + folders), self.lot.choice([self.path(), self.lot.choice(self.folders)])]]
        if kind == 'touch':
            return [['touch', some]]
        if kind == 'chmod':
            return [['chmod', some]]
        if kind == 'source':
            return [['put', 'main.c', 'file', self.source()]]
        if kind == 'header':
            return [self.put(joined(self.lot.choice([''] + self.folders), self.lot.choice(['x.h', 'y.h', 's/x.h'])), ['file'])]
        if kind == 'listed' and self.listed:
            return [['put', self.lot.choice(LISTED), 'file', 'listed %d\n' % self.fresh()]]
        if kind == 'rules':
            used = {it for rule in rules if not rule['off'] for it in rule['inputs']}
            free = [n for n, rule in enumerate(rules) if rule['off'] or rule['output'] not in used]
            free = [n for n in free if not rules[n]['off'] or all(not it['off'] for it in rules if it['output'] in rules[n]['inputs'])]
            return [['switch', self.lot.choice(free)]]
        if kind == 'mount' and self.tools['mounts']:
            return [self.mounting(mounts, files, folders)]
        return self.edit(tree, mounts, rules) + self.edit(tree, mounts, rules)

    def is_made_in(self, folder):
        return any(it == folder or it.startswith(folder + '/') for it in self.makes)

    def mounting(self, mounts, files, folders):
        if mounts and self.lot.random() < 0.5:
            return ['unmount', self.lot.choice(mounts)]
        # Nothing is mounted above what a command makes: what is there can't be written, and that isn't tracked.
        free = [it for it in folders if not self.is_made_in(it) and not any(it == m or m.startswith(it + '/') or it.startswith(m + '/') for m in mounts)]
        if files and self.lot.random() < 0.3:
            return ['over', self.lot.choice(files), 'over %d\n' % self.fresh()]
        at = self.lot.choice(free or [it for it in self.folders if not self.is_made_in(it)] or ['mounted'])
        content = [[self.lot.choice(NAMES), 'mounted %d\n' % self.fresh()] for _ in range(self.lot.randint(1, 2))]
        return ['mount', at, self.lot.choice(['tmpfs', 'bind']), content]

    def turned(self, path):
        """Something of another kind at a path."""
        if self.lot.random() < 0.5:
            return self.put(joined(path, self.lot.choice(NAMES)))
        return self.put(path)

    def meanwhile(self, tree):
        """What somebody does while an update runs: a file is another one for a time."""
        files = [path for path, it in sorted(tree.items()) if it[0] == 'file']
        if not files:
            return []
        return [self.away(self.lot.choice(files), 0, 0.3) for _ in range(self.lot.randint(1, 3))]

    def away(self, path, least, most):
        return ['away', path, 'away %d\n' % self.fresh(), round(self.lot.uniform(least, most), 3), round(self.lot.uniform(least, most), 3)]

    def slowly(self):
        """An edit of what the slow command reads first, and what somebody does meanwhile to what it reads next."""
        return [['put', 'turn', 'file', 'turn %d\n' % self.fresh()]], [self.away(self.slow, 0.1, 0.5)]


class Place:
    """A project on the disk."""

    def __init__(self, base, words):
        self.base, self.top, self.words = base, base + '/project', words
        self.rules, self.outside, self.mounts = [], 0, []
        shutil.rmtree(base, ignore_errors=True)
        os.makedirs(self.top)

    def at(self, path):
        return self.top + '/' + path

    def begin(self, rules):
        self.rules = rules
        self.write_rules()
        return self.tup('init', '--proc', self.words['runner'])

    def write_rules(self):
        for folder in ('', BELOW):
            lines = [line_of(it) for it in self.rules if it['folder'] == folder and not it['off']]
            os.makedirs(self.at(folder), exist_ok=True)
            with open(self.at(joined(folder, 'Tupfile')), 'w') as file:
                file.write(''.join(lines))

    def tup(self, *words):
        call = ['timeout', '600', self.words['program'], *words]
        done = subprocess.run(call, cwd=self.top, stdin=subprocess.DEVNULL, stdout=subprocess.PIPE, stderr=subprocess.PIPE)
        return done.returncode, done.stdout.decode(errors='replace'), done.stderr.decode(errors='replace')

    def outputs(self):
        return {it['output'] for it in self.rules}

    # -- sources
    def tree(self):
        """Each source by its path: a kind, its content or where it leads, and its mode."""
        found, own = {}, self.outputs()
        for folder, folders, files in os.walk(self.top):
            below = os.path.relpath(folder, self.top)
            below = '' if below == '.' else below
            folders[:] = [it for it in folders if it != '.tup']
            for name in folders + files:
                path = joined(below, name)
                if path not in own and name != 'Tupfile':
                    found[path] = thing_at(os.path.join(folder, name))
        return found

    def apply(self, edit):
        verb, path = edit[0], edit[1] if len(edit) > 1 else ''
        if verb == 'put':
            self.clear(path)
            make(self.at(path), edit[2], edit[3])
        elif verb == 'remove':
            self.clear(path)
            self.prune(path)
        elif verb == 'move':
            self.move(path, edit[2])
        elif verb == 'touch' and os.path.isfile(self.at(path)):
            os.utime(self.at(path))
        elif verb == 'chmod' and os.path.isfile(self.at(path)) and not os.path.islink(self.at(path)):
            mode = stat.S_IMODE(os.stat(self.at(path)).st_mode)
            os.chmod(self.at(path), mode ^ 0o044)
        elif verb == 'switch':
            if path < len(self.rules):
                self.rules[path]['off'] = not self.rules[path]['off']
                self.write_rules()
        elif verb == 'mount':
            self.mount(path, edit[2], edit[3])
        elif verb == 'over':
            self.cover(path, edit[2])
        elif verb == 'unmount':
            self.unmount(path)
            self.prune(joined(path, 'what was mounted'))

    def clear(self, path):
        """Takes away what stands at a path, and each file or link that stands where a folder above it has to be."""
        names = path.split('/')
        for n in range(1, len(names)):
            above = self.at('/'.join(names[:n]))
            if os.path.lexists(above) and not (os.path.isdir(above) and not os.path.islink(above)):
                self.unmount('/'.join(names[:n]))
                if os.path.lexists(above) and not (os.path.isdir(above) and not os.path.islink(above)):
                    os.remove(above)
        self.unmount(path)
        place = self.at(path)
        if os.path.isdir(place) and not os.path.islink(place):
            shutil.rmtree(place)
        elif os.path.lexists(place):
            os.remove(place)
        os.makedirs(os.path.dirname(place), exist_ok=True)

    def prune(self, path):
        """Removes the folders above a path that have no file any more, and takes away what is mounted at one."""
        above = os.path.dirname(path)
        while above and above != BELOW:
            if above in self.mounts and not os.listdir(self.at(above)):
                self.unmount(above)
            try:
                os.rmdir(self.at(above))
            except OSError:
                return
            above = os.path.dirname(above)

    def move(self, old, new):
        if old == new or new.startswith(old + '/') or old.startswith(new + '/') or not os.path.lexists(self.at(old)):
            return
        self.unmount(old)
        self.clear(new)
        # What was under a mount alone is an empty folder now, and commands don't learn of those.
        self.prune(joined(old, 'what was mounted'))
        if os.path.lexists(self.at(old)):
            shutil.move(self.at(old), self.at(new))
        self.prune(old)
        self.prune(new)

    def mount(self, path, kind, content):
        place = self.at(path)
        if not os.path.isdir(place) or os.path.islink(place):
            self.clear(path)
            os.makedirs(place)
        self.unmount(path)
        if kind == 'tmpfs':
            subprocess.run(['mount', '-n', '-t', 'tmpfs', 'none', place], check=True)
        else:
            self.outside += 1
            other = '%s/outside%d' % (self.base, self.outside)
            os.makedirs(other)
            subprocess.run(['mount', '-n', '--bind', other, place], check=True)
        for name, text in content:
            make(joined(place, name), 'file', text)
        self.mounts.append(path)

    def cover(self, path, text):
        if os.path.isfile(self.at(path)) and not os.path.islink(self.at(path)):
            self.outside += 1
            other = '%s/outside%d' % (self.base, self.outside)
            make(other, 'file', text)
            subprocess.run(['mount', '-n', '--bind', other, self.at(path)], check=True)
            self.mounts.append(path)

    def unmount(self, path):
        """Takes away all that is mounted at a path and below it, the last first."""
        for it in [it for it in reversed(self.mounts) if it == path or it.startswith(path + '/')]:
            subprocess.run(['umount', '-n', '-l', self.at(it)], check=False, stderr=subprocess.DEVNULL)
            self.mounts.remove(it)

    def mounted(self):
        return sorted(set(self.mounts))

    # -- what the plain shell makes
    def plain(self, tree):
        """What each command ends with and makes, in a fresh folder of the same name without tup."""
        kept = self.top + '.kept'
        os.rename(self.top, kept)
        try:
            os.mkdir(self.top)
            for path, it in sorted(tree.items()):
                if it[0] == 'folder':
                    os.makedirs(self.at(path), exist_ok=True)
                else:
                    make(self.at(path), it[0], it[1], it[2])
            self.write_rules()
            self.close_mounts()
            return [(it, *self.plainly(it)) for it in self.rules if not it['off']]
        finally:
            for it in reversed(self.mounted()):
                subprocess.run(['umount', '-n', '-l', self.at(it)], check=False, stderr=subprocess.DEVNULL)
            shutil.rmtree(self.top)
            os.rename(kept, self.top)

    def close_mounts(self):
        """Lets nothing be written where another file system is mounted in the project: so it is for a command."""
        for it in self.mounted():
            subprocess.run(['mount', '-n', '--bind', self.at(it), self.at(it)], check=True)
            subprocess.run(['mount', '-n', '-o', 'remount,bind,ro', self.at(it)], check=True)

    def plainly(self, rule):
        os.makedirs(self.at(rule['folder']), exist_ok=True)
        environment = {**os.environ, 'PWD': self.at(rule['folder']).rstrip('/')}
        done = subprocess.run(['sh', '-c', text_of(rule).replace('%%', '%')], cwd=self.at(rule['folder']), stdin=subprocess.DEVNULL, stdout=subprocess.PIPE,
                              stderr=subprocess.STDOUT, env=environment)
        try:
            with open(self.at(rule['output']), 'rb') as file:
                return done.returncode, file.read()
        except OSError:
            return done.returncode, None

    def away(self, edit):
        """A file is another one for a time."""
        _, path, text, before, between = edit
        place = self.at(path)
        time.sleep(before)
        if not os.path.isfile(place) or os.path.islink(place):
            return
        with open(place, 'rb') as file:
            old = file.read()
        with open(place, 'w') as file:
            file.write(text)
        time.sleep(between)
        with open(place, 'wb') as file:
            file.write(old)

    def end(self):
        self.unmount_all()
        shutil.rmtree(self.base, ignore_errors=True)

    def unmount_all(self):
        for it in reversed(self.mounts):
            subprocess.run(['umount', '-n', '-l', self.at(it)], check=False, stderr=subprocess.DEVNULL)
        self.mounts = []


def make(place, kind, text, mode=None):
    os.makedirs(os.path.dirname(place), exist_ok=True)
    if kind == 'link':
        os.symlink(text, place)
        return
    with open(place, 'wb') as file:
        file.write(text if isinstance(text, bytes) else text.encode())
    os.chmod(place, mode if mode is not None else 0o755 if kind == 'script' else 0o644)


def thing_at(place):
    if os.path.islink(place):
        return 'link', os.readlink(place), None
    if os.path.isdir(place):
        return 'folder', None, None
    with open(place, 'rb') as file:
        return 'file', file.read(), stat.S_IMODE(os.stat(place).st_mode)


def text_of(rule):
    words = ''.join(' %s %s' % (between, step) if between else step for between, step in rule['steps'])
    return '{ %s; %s; } > %s' % (words, rule['end'], os.path.basename(rule['output']))


def line_of(rule):
    inputs = ' '.join(os.path.relpath(it, rule['folder'] or '.') for it in rule['inputs'])
    return ': %s |> %s |> %s\n' % (inputs, text_of(rule), os.path.basename(rule['output']))


class Wrong(Exception):
    """What isn't as it has to be."""


class Trial:
    """A history over a project: `edits` is what was drawn so far, or what is tried again."""

    def __init__(self, place, first, rules):
        self.place, self.first, self.rules, self.history = place, first, [dict(it) for it in rules], []
        self.counts = {'edits': 0, 'compared': 0, 'linked': 0, 'failed': 0, 'beside': 0, 'run': 0}

    def begin(self):
        for edit in self.first:
            self.place.apply(edit)
        status, said, err = self.place.begin(self.rules)
        if status:
            raise Wrong('init ended with %d: %s%s' % (status, said, err))
        self.check([])

    def go(self, edits, beside):
        self.history.append([edits, beside])
        for edit in edits:
            self.place.apply(edit)
        self.counts['edits'] += 1
        self.check(beside)

    def check(self, beside):
        tree = self.place.tree()
        status, said, err = self.update(beside)
        if self.place.tree() != tree:
            raise Wrong('an update changed a source: ' + said + err)
        wanted = self.place.plain(tree)
        links = any(it[0] == 'link' and os.path.isdir(self.place.at(path)) for path, it in tree.items())
        if THROUGH_LINK in err and links:
            self.counts['linked'] += 1
            return
        if any(it[1] for it in wanted):
            self.counts['failed'] += 1
            if status != 1:
                raise Wrong('a command fails in the plain shell, and the update ended with %d: %s%s' % (status, said, err))
            return
        if status:
            raise Wrong('the update ended with %d: %s%s' % (status, said, err))
        self.compare(wanted, said + err)
        status, again, err = self.place.tup()
        if status or not again.endswith(NOTHING + '\n'):
            raise Wrong('one more update ended with %d: %s%s' % (status, again, err))
        self.counts['compared'] += 1

    def update(self, beside):
        """An update, with what somebody does meanwhile; behind that, until one is left in peace."""
        if beside:
            self.counts['beside'] += 1
            hands = [threading.Thread(target=self.hand, args=(beside,))]
            for it in hands:
                it.start()
            status, said, err = self.place.tup()
            for it in hands:
                it.join()
            if status not in (0, 1, 7, 8):
                raise Wrong('beside an edit the update ended with %d: %s%s' % (status, said, err))
            if status in (7, 8) and not any(edit[1] in err for edit in beside):
                raise Wrong("beside an edit the update ended with %d, and doesn't name the file: %s%s" % (status, said, err))
        status, said, err = self.place.tup()
        self.counts['run'] += sum(line.startswith('run ') for line in said.splitlines())
        return status, said, err

    def hand(self, beside):
        for edit in beside:
            self.place.away(edit)

    def compare(self, wanted, said):
        for rule, _, content in wanted:
            try:
                with open(self.place.at(rule['output']), 'rb') as file:
                    found = file.read()
            except OSError:
                found = None
            if found != content:
                raise Wrong('%s differs\n  command: %s\n  found:   %r\n  wanted:  %r\n  the update said: %s' % (
                    rule['output'], text_of(rule), found, content, said))
        there = {it for it in self.place.outputs() if os.path.lexists(self.place.at(it))}
        if there != {it['output'] for it, _, _ in wanted}:
            raise Wrong('the outputs %s are there' % sorted(there))

    def kept(self):
        rules = [dict(it, off=False) for it in self.rules]
        return {'first': self.first, 'rules': rules, 'history': self.history}


def again(words, base, story):
    """Tries a history again. What goes wrong, or nothing."""
    place = Place(base, words)
    trial = Trial(place, story['first'], story['rules'])
    try:
        trial.begin()
        for edits, beside in story['history']:
            trial.go(edits, beside)
        return None
    except Wrong as wrong:
        return str(wrong)
    finally:
        place.end()


def smaller(story):
    """Histories with less: whole pieces first, then one thing."""
    for key in ('rules', 'history', 'first'):
        size = len(story[key]) // 2
        while size:
            for n in range(0, len(story[key]), size):
                if size < len(story[key]) or key == 'history':
                    other = story
                    for k in reversed(range(n, min(n + size, len(story[key])))):
                        other = without(other, key, k)
                    yield other
            size //= 2
    for n, rule in enumerate(story['rules']):
        for k in reversed(range(len(rule['steps']))):
            if len(rule['steps']) > 1:
                other = json.loads(json.dumps(story))
                del other['rules'][n]['steps'][k]
                other['rules'][n]['steps'][0][0] = ''
                yield other
    for n, (edits, beside) in enumerate(story['history']):
        if beside:
            other = json.loads(json.dumps(story))
            other['history'][n][1] = beside[1:]
            yield other
        for k in range(len(edits) if len(edits) > 1 else 0):
            other = json.loads(json.dumps(story))
            del other['history'][n][0][k]
            yield other


def without(story, key, n):
    other = json.loads(json.dumps(story))
    gone = other[key].pop(n)
    if key == 'rules':
        for rule in other['rules']:
            if gone['output'] in rule['inputs']:
                rule['inputs'].remove(gone['output'])
                name = ' ' + os.path.relpath(gone['output'], rule['folder'] or '.')
                rule['steps'] = [it for it in rule['steps'] if not it[1].endswith(name)] or [['', 'true']]
                rule['steps'][0][0] = ''
        for edits, _ in other['history']:
            edits[:] = [it for it in edits if it[0] != 'switch' or it[1] != n]
            for it in edits:
                if it[0] == 'switch' and it[1] > n:
                    it[1] -= 1
    return other


def make_small(words, base, story):
    """The smallest history that goes wrong, found by leaving out one thing after another."""
    wrong = again(words, base, story) or again(words, base, story)
    if not wrong:
        return story, None
    shrunk = True
    while shrunk:
        shrunk = False
        for other in smaller(story):
            found = again(words, base, other)
            if found and kind_of(found) == kind_of(wrong):
                story, wrong, shrunk = other, found, True
                break
    return story, wrong


def kind_of(wrong):
    return re.sub(r'\d+', '', wrong)[:12]


def told(story):
    """A history as a person reads it."""
    lines = ['  ' + show(edit) for edit in story['first']]
    lines += ['  %s/Tupfile: %s' % (it['folder'] or '.', line_of(it).strip()) for it in story['rules']]
    lines.append('  tup')
    for edits, beside in story['history']:
        lines += ['  ' + show(edit) for edit in edits] + ['  meanwhile: ' + show(edit) for edit in beside] + ['  tup']
    return '\n'.join(lines)


def show(edit):
    return ' '.join(it if isinstance(it, str) and it == it.strip() else json.dumps(it) for it in edit)


def tools_in(base):
    """The programs that commands use: one whose second thread runs its words, compilers and python."""
    thread = shutil.which('none')
    compiler = shutil.which('gcc') or shutil.which('clang')
    if compiler:
        thread = base + '/thread'
        with open(thread + '.c', 'w') as file:
            file.write(THREAD)
        subprocess.run([compiler, '-pthread', '-o', thread, thread + '.c'], check=True)
    return {'thread': thread or '/usr/bin/env', 'gcc': shutil.which('gcc'), 'clang': shutil.which('clang'),
            'python': '/usr/bin/python3' if os.path.exists('/usr/bin/python3') else 'python3', 'mounts': may_mount()}


def may_mount():
    """Whether this is the system's own root, which may mount; then it does so apart from others."""
    with open('/proc/self/uid_map') as file:
        return os.geteuid() == 0 and file.read().split() == ['0', '0', '4294967295'] and not os.environ.get('LOT_NO_MOUNTS')


def draw(words, base, tools, seed, most):
    """One project with up to so many edits. What came of it, and what went wrong."""
    lot = random.Random(seed)
    drawing = Drawing(lot, tools)
    first = drawing.first()
    drawing.draw_rules()
    place = Place('%s/%d' % (base, seed), words)
    trial = Trial(place, first, drawing.rules)
    try:
        trial.begin()
        for _ in range(min(most, lot.randint(8, 16))):
            tree = place.tree()
            if drawing.slow and lot.random() < 0.15:
                edits, beside = drawing.slowly()
            else:
                edits = drawing.edit(tree, place.mounted(), trial.rules)
                beside = drawing.meanwhile(tree) if lot.random() < 0.05 else []
            trial.go(edits, beside)
        return trial, None
    except Wrong as wrong:
        return trial, str(wrong)
    finally:
        place.end()


def main(arguments):
    if may_mount() and not os.environ.get('LOT_APART'):
        os.environ['LOT_APART'] = '1'
        os.execvp('unshare', ['unshare', '-m', sys.executable, '-B', *sys.argv])
    work = tempfile.mkdtemp(prefix='lot.', dir=os.environ.get('WORK'))
    try:
        if arguments[0] in ('--again', '--small'):
            return look(arguments, work)
        return many(arguments, work)
    finally:
        shutil.rmtree(work, ignore_errors=True)


def look(arguments, work):
    with open(arguments[1]) as file:
        story = json.load(file)
    words = story['words']
    if len(arguments) > 3:
        words = {'program': os.path.realpath(arguments[2]), 'runner': os.path.realpath(arguments[3])}
    text = json.dumps(story)
    tools = tools_in(work)
    text = text.replace(story['thread'], tools['thread'])
    story = dict(json.loads(text), words=words)
    if arguments[0] == '--small':
        story, wrong = make_small(words, work + '/1', story)
        with open(arguments[1], 'w') as file:
            json.dump(dict(story, thread=tools['thread']), file, indent=1)
    else:
        wrong = again(words, work + '/1', story)
    print(told(story) + '\n' + (wrong or 'nothing is wrong'))
    return 1 if wrong else 0


def many(arguments, work):
    words = {'program': os.path.realpath(arguments[0]), 'runner': os.path.realpath(arguments[1])}
    seed = begun = int(arguments[2]) if len(arguments) > 2 else 1
    wanted = int(arguments[3]) if len(arguments) > 3 else 300
    tools = tools_in(work)
    counts, differ = {}, 0
    while counts.get('edits', 0) < wanted:
        trial, wrong = draw(words, work, tools, seed, wanted - counts.get('edits', 0))
        for key, n in trial.counts.items():
            counts[key] = counts.get(key, 0) + n
        if wrong:
            differ += 1
            kept = os.path.join(os.environ.get('KEEP', tempfile.gettempdir()), 'lot.%d.json' % seed)
            with open(kept, 'w') as file:
                json.dump(dict(trial.kept(), words=words, thread=tools['thread']), file, indent=1)
            print('seed %d: %s\n  history: %s' % (seed, wrong, kept), flush=True)
        seed += 1
        if seed % 10 == 0:
            print('seeds to %d, %d edits' % (seed - 1, counts['edits']), file=sys.stderr, flush=True)
    print('lot: seeds %d to %d as %s: %d edits, %d updates compared, %d commands run after them, %d stopped at a link to a folder, %d at a command that '
          'fails, %d beside an edit; %d differ' % (begun, seed - 1, 'root' if os.geteuid() == 0 else 'a user', counts['edits'], counts['compared'],
                                                   counts['run'], counts['linked'], counts['failed'], counts['beside'], differ))
    return 1 if differ else 0


if __name__ == '__main__':
    if len(sys.argv) < 3:
        sys.exit(__doc__)
    sys.exit(main(sys.argv[1:]))
