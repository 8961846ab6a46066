"""Projects drawn by lot, edited and updated again and again: a user's calls, with what the model says of each."""
from drawn import Drawn, grown
from language import show
from project import Kept, World
from reasons import explained
from random_rows import path_of, row, way_up

FILES = ['a.c', 'b.c', 'h.h', 'lib/l.c', 'lib/m.h', 'src/m.c', 'src/n.c', 'lib/x/y.c', 'k']
FOLDERS = ['', 'lib', 'src', 'lib/x']
# folders of outputs, in which a Tupfile seldom comes and goes
MADE = ['obj', 'lib/gen']
CONTENTS = [b'', b'int a;\n', b'#include "h.h"\nx\n', b'#include "../h.h"\ny\n', b'1', b'#include "k"\n',
            b'#include "../lib/m.h"\n#include "../h.h"\nz', b'#include "l.o"\n', b'q\n#include "none"\n']
GLOBS = ['*.o', '*.c', '*.h', 'lib/*.o', '../*.o', '../lib/*.c', 'src/*.o', 'obj/*.o', '../obj/*', 'gen/*.h', 'src/*.c']
LOOKED_FOR = ['k', 'h.h', '../k', 'none', 'o1', 'l.o', '%o', 'x', '../x', 'lib', '../lib', 'src', '../src', 'obj', 'obj/p.o']
OUTPUTS = ['o1', 'o2', 'p.o', 'all', 'x.o', 'g.h', 'log'] * 2 + ['obj/o1', 'obj/p.o', 'gen/g.h', 'obj/s/x.o', 'src/q.o', 'x/o2', 'obj', 'o1/y']
IN_THE_WAY = ['o1/z', 'lib/o2', 'src/all/q', 'x.o', 'none/y/z', 'obj', 'obj/o1/z', 'obj/h', 'gen', 'lib/gen/h']
CONFIGS = [b'CONFIG_S=1\n', b'CONFIG_S=two\n', b'# CONFIG_S is not set\n', b'', b'S=1\n']
SHARED = [b'!m = |> ^ M %f^ cp %f %o |> m.o\n', b'V = $(TUP_CWD)/v\n', b'V = r\n!m = | h.h |> incl %f %o |> %B.m\n']
COMMANDS = ['cat a.c h.h > %o', 'cp k %o', 'cp o1 %o', 'cat o1 o2 > %o', 'cp UPlib/l.o %o',
            'echo a > o1 && cat o1 o1 > %o', 'echo 1 > %o && cp %o o2', 'cp a.c %o && fail 2', 'echo z > none']
STATEMENTS = ['include_rules', 'V = v', 'V += w', 'V := @(S)$(V)', 'ifdef S\nRULE\nelse\nRULE\nendif', 'nonsense',
              'ifndef S\nRULE\nendif', 'ifeq (@(S),1)\nRULE\nelse\nRULE\nendif', 'error stop', 'include none',
              '!m = |> cp %f %o |> m.o']

# three storeys, so that an edit leads over several rules
LIBRARY = [': |> ifexists UPk UPh.h %o |> made.h', ': foreach *.c | made.h |> ^ CC %b^ incl %f %o |> %B.o {o}',
           ': {o} |> ^ AR^ cat %f > %o |> all.a UP<all>']
STOREYS = {'': [': <all> |> ^ LINK^ cat %<all> > %o |> app', ': app |> cp %f %o |> app.x'],
           'lib': [line.replace('UP', '../') for line in LIBRARY], 'lib/x': [line.replace('UP', '../../') for line in LIBRARY]}
MORE = [': app |> ^ MORE^ cat app app > %o |> more', ': lib/all.a |> cp %f %o |> more', ': lib/made.h app |> cat %f > %o |> more']
SOURCES = {'lib/l.c': 1, 'lib/x/y.c': 1, 'lib/x/z.c': .5, 'h.h': .8, 'k': .5, 'lib/m.h': .5}
INCLUDING = [b'int a;\n', b'int b;\n', b'y', b'#include "made.h"\nz', b'#include "made.h"\n', b'#include "made.h"\nv', b'#include "m.h"\n',
             b'#include "../h.h"\nx\n', b'#include "none"\n']

CALLS = [['upd'], ['upd'], [], ['upd', '-k'], ['-k'], ['--explain'], ['upd', '-k', '--explain'], ['todo'], ['verify'], ['init']]


def tupfile_line(drawn, folder):
    one_of, up = drawn.one_of, way_up(folder)
    if drawn.is_drawn(.11):
        line = one_of(STATEMENTS)
        while 'RULE' in line:
            line = line.replace('RULE', tupfile_rule(drawn, up), 1)
        return line
    return tupfile_rule(drawn, up)


def tupfile_rule(drawn, up):
    one_of = drawn.one_of
    out, gift = one_of(OUTPUTS), one_of(['', ' {b}', ' %s<g>' % up])
    forms = [
        (22, 'foreach %s%s |> %s %%f %%o |> %s%%B.o%s' % (one_of(['*.c', '*.c', '*.c', 'src/*.c']), one_of(['', '', ' | %sh.h' % up, ' | %s<g>' % up]),
                                                          one_of(['cp', 'incl', 'incl']), one_of(['', '', '', 'obj/', 'obj/s/']), gift)),
        (12, '{b} |> cat %f > %o |> ' + out),
        (10, up + '<g> |> ^ JOIN %o^ cat %<g> > %o |> ' + out),
        (12, one_of(GLOBS) + ' |> cat %f > %o |> ' + out + gift),
        (8, '|> echo ' + one_of(['@(S)', '$(V)', 'x y', '%o', '%d', '$(TUP_CWD)']) + ' > %o |> ' + out + gift),
        (6, '|> ifexists %s %s %%o |> %s%s' % (one_of(LOOKED_FOR),
                                              one_of(['a.c', 'h.h', 'k', 'l.c', 'm.c']), out, gift)),
        (5, one_of(['a.c', 'l.c', 'm.c', '*.c']) + ' |> fail ' + one_of(['1', '3', '0', '255']) + ' |> ' + out + gift),
        (6, '|> ' + one_of(COMMANDS).replace('UP', up) + ' |> ' + out + one_of(['', ' | o2'])),
        (5, 'k |> !m |> '),
        (5, one_of(['o1', 'p.o', 'x.o', 'all']) + ' |> cp %f %o |> ' + out + gift),
    ]
    return ': ' + drawn.lot.choices([form for _, form in forms], [weight for weight, _ in forms])[0]


class Player:
    """Somebody who edits a project and calls `tup`; each deed is told to `does`, which carries it out."""
    sources, contents, calls, turns = [path_of(path) for path in FILES], CONTENTS, CALLS, (2, 6)

    def __init__(self, lot, does):
        self.drawn, self.lot, self.does, self.world = Drawn(lot), lot, does, World()
        self.past = None

    def begin(self):
        if self.drawn.is_drawn(.95):
            self.world.call(['init'])
        self.does.begin(self.world.owned is not None)
        for path in FILES:
            if self.drawn.is_drawn(.6):
                self.write(path_of(path), self.lot.choice(CONTENTS))
        if self.drawn.is_drawn(.5):
            self.write((b'tup.config',), self.lot.choice(CONFIGS[:4]))
        if self.drawn.is_drawn(.4):
            self.write((b'Tuprules.tup',), self.lot.choice(SHARED))
        for folder in FOLDERS + MADE:
            if self.drawn.is_drawn(.08 if folder in MADE else .6):
                self.write_tupfile(folder)

    def write(self, path, content):
        tree = {**self.world.tree, path: content}
        is_above = lambda one, other: len(one) < len(other) and other[:len(one)] == one
        if not any(is_above(path, other) or is_above(other, path) for other in tree):
            self.world.tree = tree
            self.does.write(path, content)

    def delete(self, path):
        del self.world.tree[path]
        self.does.delete(path)

    def write_tupfile(self, folder):
        path = path_of(folder + '/Tupfile') if folder else (b'Tupfile',)

        def is_refused(content):
            world = self.world.copy()
            world.kept = world.kept or Kept()
            world.tree[path] = content
            status, lines = world.call(['upd'])
            return lines is None or status == 5 or status == 1 and self.lot.random() < .75
        line = lambda: tupfile_line(self.drawn, folder).encode() + b'\n'
        self.write(path, grown(self.drawn, line, is_refused, self.lot.randint(0, 4), keep=.06))

    def empty_tupfile(self, path):
        """The rule that makes a file vanishes, with all others of its folder."""
        folders = [path[:depth] for depth in range(len(path)) if path[:depth] + (b'Tupfile',) in self.world.tree]
        if folders:
            self.write(folders[-1] + (b'Tupfile',), b'')

    def edit_source(self):
        """Another content of a file, or that which the last such edit changed."""
        if self.past and self.drawn.is_drawn(.35):
            self.write(*self.past)
            self.past = None
            return
        read = {path for asked, _ in (self.world.kept or Kept()).runs.values() for path, _ in asked} - (self.world.owned or set())
        path = self.lot.choice(sorted(read) if read and self.drawn.is_drawn(.5) else self.sources)
        self.past = (path, self.world.tree[path]) if path in self.world.tree else None
        self.write(path, self.lot.choice(self.contents))

    def edit(self):
        drawn, owned = self.lot.random(), sorted(self.world.owned or ())
        if drawn < .45:
            self.edit_source()
        elif drawn < .55 and self.world.tree:
            self.delete(self.lot.choice(sorted(self.world.tree)))
        elif drawn < .8:
            self.write_tupfile(self.lot.choice(FOLDERS * 2 + MADE))
        elif drawn < .9 and owned:
            path = self.lot.choice(owned)
            self.write(path, b'mine\n')
            if self.drawn.is_drawn(.5):
                self.empty_tupfile(path)
        elif drawn < .94:
            self.write((b'tup.config',), self.lot.choice(CONFIGS))
        else:
            self.write(path_of(self.lot.choice(IN_THE_WAY)), b'new')

    def play(self):
        self.begin()
        for turn in range(self.lot.randint(*self.turns)):
            words = self.lot.choice(self.calls)
            for _ in range(self.lot.randint(0, 2) if turn else 0):
                self.edit()
            before = self.world.copy()
            status, lines = self.world.call(words)
            if lines is None or not self.does.call(words, status, lines, before, self.world):
                return


class Builder(Player):
    """Somebody who edits the sources of three storeys of rules, and what is made of them."""
    sources, contents, calls, turns = [path_of(path) for path in SOURCES], INCLUDING, CALLS[:-1], (4, 9)

    def begin(self):
        self.world.call(['init'])
        self.does.begin(True)
        for path, part in SOURCES.items():
            if self.drawn.is_drawn(part):
                self.write(path_of(path), self.lot.choice(INCLUDING))
        for folder in STOREYS:
            self.write_tupfile(folder)

    def write_tupfile(self, folder):
        more = [self.lot.choice(MORE)] if not folder and self.drawn.is_drawn(.3) else []
        path = path_of(folder + '/Tupfile') if folder else (b'Tupfile',)
        self.write(path, '\n'.join(STOREYS[folder] + more + ['']).encode())

    def edit(self):
        drawn, made = self.lot.random(), sorted(set(self.world.owned) & set(self.world.tree))
        if drawn < .15 and made:
            self.delete(self.lot.choice(made))
        elif drawn < .25 and made:
            self.write(self.lot.choice(made), b'mine\n')
        elif drawn < .35:
            self.write_tupfile('')
        else:
            self.edit_source()


def player_of(lot, does):
    return lot.choice([Player, Player, Player, Builder])(lot, does)


class Rows:
    """Puts each deed into a row."""

    def __init__(self):
        self.rows = []

    def begin(self, has_begun):
        self.rows.append(row('project' if has_begun else 'folder', [], ['ok']))

    def write(self, path, content):
        self.rows.append(row('write', [show(path), content], ['ok']))

    def delete(self, path):
        self.rows.append(row('delete', [show(path)], ['ok']))

    def call(self, words, status, lines, before, world):
        if world.opening:
            # a row has one answer: where there are several reasons it asks for none
            told = explained(lines, world.opening, world.ended)
            words, lines = (words, told) if told else ([word for word in words if word != '--explain'], lines)
        self.rows.append(row('tup', words, [str(status), lines]))
        self.rows.append(row('begun', [], world.begun))
        self.rows.append(row('store', [], [show(path) for path in sorted(world.owned or ())]))
        for path in sorted(set(world.tree) | (world.owned or set())):
            held = world.tree.get(path)
            self.rows.append(row('file', [show(path)], ['none'] if held is None else ['holds', held]))
        return True


def project_call_rows(lot, count):
    for _ in range(count):
        rows = Rows()
        player_of(lot, rows).play()
        yield from rows.rows
