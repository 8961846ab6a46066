"""Rows drawn by lot for the program of the language's rows, each with the answer that the model gives."""
from drawn import NAMES, SOURCES, Drawn, grown
from language import (CommandsCircle, Fault, FoldersCircle, NoGroup, Project, Reading, Sources, Wrong, glob,
                      matched_part, matches, show)

SPECIAL = {10: '\\n', 9: '\\t', 13: '\\r', 92: '\\\\', 34: '\\"'}


def quoted(word):
    word = word.encode() if isinstance(word, str) else word
    escaped = lambda byte: SPECIAL.get(byte) or (chr(byte) if 32 <= byte < 127 else '\\x%02x' % byte)
    return '"' + ''.join(escaped(byte) for byte in word) + '"'


def row(call, words=(), answer=()):
    return ' '.join([call] + [quoted(word) for word in words] + ['='] + [quoted(word) for word in answer]) + '\n'


def path_of(text):
    return tuple(text.encode().split(b'/'))


# ---- words

SYMBOLS = ['a', 'b', 'c', '*', '?', '[', '[ab]', '[^a]', '[a-c]', '[]a]', '[^]a]', 'é', '.', '-', '^', ']', '[é-ü]',
           '[a-]', '[-a]', '*?', '[c-a]', 'ö', '€', '😀', '[^é]', '[--é]']
CHARS = ['a', 'b', 'c', 'é', '.', '-', '^', ']', 'ö', '€', '😀', 'ü']


def glob_rows(lot, count):
    for _ in range(count):
        pattern = ''.join(lot.choice(SYMBOLS) for _ in range(lot.randint(0, 6)))
        name = ''.join(lot.choice(CHARS) for _ in range(lot.randint(0, 7)))
        try:
            read = glob(pattern.encode())
        except Wrong as wrong:
            yield row('matches', [pattern, name], ['refused', str(wrong)])
            continue
        yield row('matches', [pattern, name], ['yes' if matches(read, name) else 'no'])
        part = matched_part(read, name)
        place = lambda at: str(len(name[:at].encode()))
        found = [place(part[0]), place(part[1]), name[part[0]:part[1]]] if part else ['none']
        yield row('part', [pattern, name], found)


# ---- one folder

def draft_words(draft):
    pieces = lambda some: [piece if isinstance(piece, bytes) else b'%%%d' % piece for piece in some]
    group = lambda one: show(one[0]) + b'/<' + one[1] + b'>'
    words = [show(draft['file']) + b':%d' % draft['line']] + [b'compares'] * draft['compare']
    words += pieces(draft['pieces'])
    if draft['display'] is not None:
        words += [b'shows'] + pieces(draft['display'])
    for mark, paths in ((b'<-', draft['inputs']), (b'|', draft['order']), (b'->', draft['outputs'])):
        words += [mark] + [show(path) for path in paths] if paths else []
    words += [b'groups'] + [group(one) for one in draft['groups']] if draft['groups'] else []
    return words + ([b'gives', group(draft['gives'])] if draft['gives'] else [])


def reading_words(folder, files, values):
    try:
        return [word for draft in Reading(folder, Sources(files, values)).read() for word in draft_words(draft)]
    except Fault as fault:
        return [b'refused', fault.text().encode()]


def is_refused(words):
    return words[:1] == [b'refused']


def reading_rows(lot, count):
    drawn = Drawn(lot)
    for number in range(count):
        if number % 20 == 0:
            files = shared_files(drawn)
            values = {name.encode(): drawn.value().encode() for name in NAMES if drawn.is_drawn(.4)}
            yield row('fresh')
            yield from (row('file', [show(path), content]) for path, content in files.items())
            yield from (row('set', [name, value]) for name, value in values.items())
        folder = lot.choice([(), (), (b'd',)])
        tupfile = folder + (b'Tupfile',)
        refused = lambda content: is_refused(reading_words(folder, {**files, tupfile: content}, values))
        content = grown(drawn, lambda: drawn.written(drawn.lines()), refused, lot.randint(1, 9))
        files[tupfile] = drawn.spoiled(content)
        yield row('file', [show(tupfile), files[tupfile]])
        yield row('reads', [show(folder)], reading_words(folder, files, values))


def shared_files(drawn):
    """Sources, and files that Tupfiles may include, which mostly read alone."""
    files = {path_of(path): b'' for path in SOURCES if drawn.is_drawn(.8)}
    line = lambda: drawn.written([drawn.one_of([drawn.assignment, drawn.macro])()])
    refused = lambda content: is_refused(reading_words((), {(b'Tupfile',): content}, {}))
    for path in ('inc', 'd/inc2', 'Tuprules.tup', 'd/Tuprules.tup'):
        if drawn.is_drawn(.7):
            files[path_of(path)] = grown(drawn, line, refused, 3)
    return files


# ---- all folders

FOLDERS = ['', 'a', 'b', 'a/s', 'c']
FILES = ['x.c', 'a/y.c', 'b/z.h', 'a/s/w.c', 'c/v.c', 'b/y.c']
SHARED = [b'!m = |> c %f |> %B.m', b'INC = $(TUP_CWD)/i', b'V = @(A)', b'!m = | ../x.c |> ^ M %b^ c %f |> %B.m <g>']
CONFIGS = [b'CONFIG_A=1', b'CONFIG_A=../b\n# CONFIG_B is not set', b'\n\nbad', b'# CONFIG_A is not set', b'CONFIG_A=',
           b'CONFIG_A = 1']
OTHERS = ['ifdef A\n: |> one |> one\nendif', 'ifeq (@(A),1)\nelse\n: |> two |> two\nendif', 'nonsense', 'A = 1',
          'include_rules']
COMMANDS = ['c %f', 'c %<g>', 'c %f %<h>', 'c %o', 'one', '!m', 'c %i', '^ T^ d %b', 'c $(INC) $(V)', 'c @(A)', 'e %B']
OUTPUTS = ['p.o', 'q.o', '%B.o', 'r.o', 'p.o q.o', '', 'p.o | q.x', '%B.o | %B.d', 's', 'a', 'z.h', 't.o', 'w/v.o', 'w/%B.o', 's/u.o', 'w/k/p.o']


def project_words(files):
    try:
        rules = Project(files).rules()
    except Fault as fault:
        return [b'refused', fault.text().encode()]
    except FoldersCircle as circle:
        return [b'refused', b'directories wait for each other'] + [show(folder) for folder in circle.folders]
    except NoGroup as group:
        return [b'refused', b'no rule gives to a group', show(group.folder), group.name]
    return [word for rule in rules for word in rule_words(rule)]


def rule_words(rule):
    shown = lambda paths: [show(path) for path in paths]
    return ([b'rule', show(rule['folder']), rule['text']] + shown(rule['inputs']) + [b'|'] + shown(rule['order'])
            + [b'->'] + shown(rule['outputs']))


def way_up(folder):
    return '../' * len([name for name in folder.split('/') if name])


def project_line(drawn, folder):
    one_of, up = drawn.one_of, way_up(folder)

    def word():
        other = one_of(FOLDERS)
        there = up + (other + '/' if other else '')
        far = ['*.o', 'p.o', '*.c', '<g>', '<h>', 'q.o', 'y.c', '*', 'z.h', '', 'w/*.o', 'w/v.o', 's/u.o']
        return one_of([there + name for name in far] + ['*.c', '*', 'x.c', 'y.c', '{b}'])
    if drawn.is_drawn(.08):
        return one_of(OTHERS)
    inputs = ' '.join(drawn.some(word, [0, 1, 1, 2])) + (' | ' + word() if drawn.is_drawn(.2) else '')
    gifts = one_of(['', '', '', ' <g>', ' <h>', ' %s<g>' % up, ' {b}', ' <g> {b}'])
    foreach = 'foreach ' if drawn.is_drawn(.25) else ''
    return ': %s%s |> %s |> %s%s' % (foreach, inputs, one_of(COMMANDS), one_of(OUTPUTS), gifts)


def drawn_project(drawn):
    files = {path_of(path): b'' for path in FILES if drawn.is_drawn(.6)}
    if drawn.is_drawn(.3):
        files[(b'Tuprules.tup',)] = drawn.one_of(SHARED)
    if drawn.is_drawn(.3):
        files[(b'tup.config',)] = drawn.one_of(CONFIGS)
    for folder in drawn.lot.sample(FOLDERS, drawn.lot.randint(1, 4)):
        path = path_of(folder + '/Tupfile') if folder else (b'Tupfile',)
        refused = lambda content: is_refused(project_words({**files, path: content}))
        line = lambda: project_line(drawn, folder).encode() + b'\n'
        files[path] = grown(drawn, line, refused, drawn.lot.randint(1, 5), keep=.08)
    return files


def project_rows(lot, count):
    for _ in range(count):
        try:
            files = drawn_project(Drawn(lot))
            answer = project_words(files)
        except CommandsCircle:
            continue  # which circle is told is left open
        yield from (row('file', [show(path), content]) for path, content in sorted(files.items()))
        yield row('rules', [], answer)
