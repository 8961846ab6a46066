"""What a project's Tupfiles ask for, by a second reading of the language: of the manual and docs/, and not of the code.

Texts are bytes, a path is a tuple of names, the top is the empty one. `Project(files).rules()` gives the rules, or
raises a Fault, a FoldersCircle, a CommandsCircle or a NoGroup.
"""
import re

BLANK = b' \t'
NAME = re.compile(rb'[A-Za-z0-9_]+\Z')


class Wrong(Exception):
    """What is wrong with a line, in the words of the fault."""


class Fault(Exception):
    """What is wrong in a line of a file that was read for a folder."""
    def __init__(self, folder, file, line, words):
        super().__init__(words)
        self.folder, self.file, self.line, self.words = folder, file, line, words

    def text(self):
        return '%s:%d: %s, read for %s' % (show(self.file).decode(), self.line, self.words, show(self.folder).decode())


class FoldersCircle(Exception):
    """Folders of which each asks about the next one, from the one that was begun first on."""
    def __init__(self, folders):
        super().__init__()
        self.folders = folders


class CommandsCircle(Exception):
    """Commands wait for each other; which circle is told is left open."""


class NoGroup(Exception):
    """A rule takes a group to which no rule gives."""
    def __init__(self, group):
        super().__init__()
        self.folder, self.name = group


class Awaits(Exception):
    """An answer waits for the reading of this folder."""
    def __init__(self, folder):
        super().__init__()
        self.folder = folder


# ---- paths

def show(path):
    return b'/'.join(path) if path else b'.'


def show_from(folder, path):
    same = 0
    while same < min(len(folder), len(path)) and folder[same] == path[same]:
        same += 1
    return b'/'.join([b'..'] * (len(folder) - same) + list(path[same:])) or b'.'


def is_text(content):
    try:
        content.decode('utf-8')
        return True
    except UnicodeDecodeError:
        return False


def is_visible(name):
    return (1 <= len(name) <= 255 and not name.startswith(b'.') and b'/' not in name and is_text(name)
            and all(byte > 0x20 and byte != 0x7f for byte in name))


def resolve(folder, text):
    """The path that a text names from a folder; None where it names none."""
    if not text or text.startswith(b'/'):
        return None
    path = list(folder)
    for part in text.split(b'/'):
        if part == b'..':
            if not path:
                return None
            path.pop()
        elif part not in (b'', b'.'):
            path.append(part)
            if not is_visible(part) or len(path) > 32:
                return None
    return tuple(path)


# ---- lines

def raw_lines(folder, file, content):
    """The lines of a file, each with its number; a carriage return before a line feed is dropped."""
    try:
        content.decode('utf-8')
    except UnicodeDecodeError as wrong:
        raise Fault(folder, file, content[:wrong.start].count(b'\n') + 1, 'not UTF-8')
    parts = content.split(b'\n')
    last = parts.pop()
    lines = [part[:-1] if part.endswith(b'\r') else part for part in parts] + ([last] if last else [])
    return list(enumerate(lines, 1))


def check_lengths(folder, file, lines):
    for number, text in lines:
        if len(text) > 65535:
            raise Fault(folder, file, number, 'line too long')


def joined_lines(folder, file, content):
    joined, begun = [], None
    for number, text in raw_lines(folder, file, content):
        first, front = begun or (number, b'')
        if text.endswith(b'\\'):
            begun = (first, front + text[:-1])
        else:
            joined.append((first, front + text))
            begun = None
    if begun:
        joined.append(begun)
    check_lengths(folder, file, joined)
    trimmed = [(number, text.strip(BLANK)) for number, text in joined]
    return [(number, text) for number, text in trimmed if text and not text.startswith(b'#')]


def settings(content):
    """What tup.config sets."""
    folder, file, values = (), (b'tup.config',), {}
    lines = raw_lines(folder, file, content)
    check_lengths(folder, file, lines)
    for number, text in lines:
        text = text.strip(BLANK)
        is_set = re.match(rb'CONFIG_([^=]*)=(.*)\Z', text, re.S)
        is_unset = re.match(rb'# CONFIG_(.*) is not set\Z', text, re.S)
        if is_set and NAME.match(is_set.group(1)):
            values[is_set.group(1)] = is_set.group(2).strip(BLANK)
        elif is_unset and NAME.match(is_unset.group(1)):
            values[is_unset.group(1)] = b'n'
        elif text and not text.startswith(b'#'):
            raise Fault(folder, file, number, 'bad config line')
    return values


# ---- the words of a rule

def words(text):
    return [word for word in re.split(rb'[ \t]', text) if word]


def last_name(word):
    return word.rsplit(b'/', 1)[-1]


def is_bin(word):
    return len(word) > 2 and word.startswith(b'{') and word.endswith(b'}')


def is_group(word):
    name = last_name(word)
    return len(name) > 2 and name.startswith(b'<') and name.endswith(b'>')


def is_gift(word):
    return is_bin(word) or is_group(word)


def is_bad(word):
    return (word.startswith(b'^') or word.startswith(b'{') and not is_bin(word)
            or last_name(word).startswith(b'<') and not is_group(word))


def around_bar(some):
    if some.count(b'|') > 1:
        raise Wrong('bad word')
    at = some.index(b'|') if b'|' in some else len(some)
    return some[:at], some[at + 1:]


def rule_parts(text):
    sides = text.split(b'|>')
    if len(sides) != 3:
        raise Wrong('a rule has two arrows')
    left, right = words(sides[0]), words(sides[2])
    foreach = left[:1] == [b'foreach']
    inputs, order = around_bar(left[1:] if foreach else left)
    first_gift = next((at for at, word in enumerate(right) if is_gift(word)), len(right))
    outputs, extra = around_bar(right[:first_gift])
    gifts = right[first_gift:]
    bins, groups = [word for word in gifts if is_bin(word)], [word for word in gifts if is_group(word)]
    if (any(is_bad(word) for word in left + right) or not all(is_gift(word) for word in gifts) or len(bins) > 1
            or len(groups) > 1 or foreach and any(is_group(word) for word in inputs)):
        raise Wrong('bad word')
    return {'foreach': foreach, 'inputs': inputs, 'order': order, 'command': sides[1].strip(BLANK), 'outputs': outputs,
            'extra': extra, 'group': groups[0] if groups else None, 'bin': bins[0][1:-1] if bins else None}


# ---- globs

def glob(pattern):
    """The symbols of a pattern: `*`, `?`, a character, or a set by whether it is negated and its ranges."""
    text, at, symbols = pattern.decode('utf-8'), 0, []
    while at < len(text):
        if text[at] != '[':
            symbols.append(text[at] if text[at] in '*?' else (text[at],))
            at += 1
            continue
        negated = text[at + 1:at + 2] == '^'
        begin = at + 2 if negated else at + 1
        end = text.find(']', begin + 1)
        if end < 0:
            raise Wrong('open bracket in glob')
        inner, ranges = text[begin:end], []
        while inner:
            size = 3 if len(inner) > 2 and inner[1] == '-' else 1
            ranges.append((inner[0], inner[size - 1]))
            inner = inner[size:]
        symbols.append((negated, ranges))
        at = end + 1
    return symbols


def fits(symbol, char):
    if symbol == '?':
        return True
    if len(symbol) == 1:
        return symbol[0] == char
    return any(low <= char <= high for low, high in symbol[1]) != symbol[0]


def matches(symbols, name):
    ends = {0}
    for symbol in symbols:
        if symbol == '*':
            ends = set(range(min(ends), len(name) + 1)) if ends else ends
        else:
            ends = {end + 1 for end in ends if end < len(name) and fits(symbol, name[end])}
    return len(name) in ends


def matched_part(symbols, name):
    """Where what the first operator stands for begins and ends in a name, which matches; of a run the shortest."""
    first = next((at for at, symbol in enumerate(symbols) if symbol in ('*', '?') or len(symbol) == 2), None)
    if first is None or not matches(symbols, name):
        return None
    if symbols[first] != '*':
        return first, first + 1
    return first, next(end for end in range(first, len(name) + 1) if matches(symbols[first + 1:], name[end:]))


# ---- percent flags

def without_extension(text):
    base = last_name(text)
    return text[:len(text) - len(base)] + base.rsplit(b'.', 1)[0]


def extension(name):
    return name.rsplit(b'.', 1)[1] if b'.' in name else b''


def flagged(text, place, given):
    """The pieces of a text: bytes, and the places of groups."""
    pieces, at = [], 0
    while at < len(text):
        if text[at:at + 1] != b'%':
            piece, size = text[at:at + 1], 1
        elif text[at + 1:at + 2] == b'<':
            end = text.find(b'>', at)
            if end < 0:
                raise Wrong('unknown percent flag')
            piece, size = named_group(text[at + 2:end], place, given), end + 1 - at
        else:
            piece, size = flag(text[at + 1:at + 2], place, given), 2
        if isinstance(piece, bytes) and pieces and isinstance(pieces[-1], bytes):
            pieces[-1] += piece
        elif piece != b'':
            pieces.append(piece)
        at += size
    return pieces


def named_group(name, place, given):
    names = [group[1] for group in given['groups']]
    if place != 'command' or name not in names:
        raise Wrong('percent flag not allowed here')
    return names.index(name)


def flag(letter, place, given):
    folder, inputs, outputs = given['folder'], given['inputs'], given['outputs']
    listed = lambda paths: b' '.join(show_from(folder, path) for path in paths)
    behind = place != 'inputs'
    one = given['foreach'] or len(inputs) == 1
    flags = {
        b'%': (True, lambda: b'%'),
        b'f': (behind, lambda: listed(inputs)),
        b'b': (behind, lambda: b' '.join(path[-1] for path in inputs)),
        b'B': (behind, lambda: b' '.join(without_extension(path[-1]) for path in inputs)),
        b'e': (behind and given['foreach'], lambda: b' '.join(extension(path[-1]) for path in inputs)),
        b'o': (place == 'command', lambda: listed(outputs)),
        b'O': (place == 'extra' and len(outputs) == 1, lambda: without_extension(listed(outputs))),
        b'd': (behind and folder != (), lambda: folder[-1]),
        b'g': (behind and one and given['glob'] is not None, lambda: given['glob']),
        b'i': (place == 'command', lambda: listed(given['order'])),
    }
    if letter not in flags:
        raise Wrong('unknown percent flag')
    allowed, stands_for = flags[letter]
    if not allowed:
        raise Wrong('percent flag not allowed here')
    return stands_for()


# ---- the reading of a folder

class Reading:
    """The Tupfile of a folder, read by what `sources` answer: content, setting, names and kind."""

    def __init__(self, folder, sources):
        self.folder, self.sources = folder, sources
        self.variables, self.macros, self.bins, self.drafts = {}, {}, {}, []

    def read(self):
        file = self.folder + (b'Tupfile',)
        content = self.sources.content(file)
        if content is not None:
            self.read_file(file, content, 1)
        return self.drafts

    def read_file(self, file, content, open_files):
        if open_files > 64:
            raise Wrong('nested too deep')
        levels = []
        for number, text in joined_lines(self.folder, file, content):
            try:
                self.read_line(file, number, text, levels, open_files)
            except Wrong as wrong:
                raise Fault(self.folder, file, number, str(wrong))
        if levels:
            raise Fault(self.folder, file, levels[0]['line'], 'if without endif')

    def read_line(self, file, number, text, levels, open_files):
        word = re.match(rb'[^ \t]+', text).group(0)
        rest = text[len(word):].strip(BLANK)
        is_on = all(level['on'] for level in levels)
        if word in (b'ifeq', b'ifneq', b'ifdef', b'ifndef'):
            holds = is_on and self.holds(word, rest, file)
            if len(levels) == 64:
                raise Wrong('nested too deep')
            levels.append({'line': number, 'on': holds, 'turned': False})
        elif text == b'else':
            if not levels or levels[-1]['turned']:
                raise Wrong('else without if')
            levels[-1].update(on=not levels[-1]['on'], turned=True)
        elif text == b'endif':
            if not levels:
                raise Wrong('endif without if')
            levels.pop()
        elif is_on:
            self.read_statement(file, number, text, word, rest, open_files)

    def holds(self, word, rest, file):
        if word in (b'ifdef', b'ifndef'):
            if not NAME.match(rest):
                raise Wrong('bad name')
            return (self.sources.setting(rest) is not None) == (word == b'ifdef')
        if not (len(rest) > 1 and rest.startswith(b'(') and rest.endswith(b')') and b',' in rest):
            raise Wrong('unclosed bracket')
        left, right = rest[1:-1].split(b',', 1)
        return (self.expanded(left, file) == self.expanded(right, file)) == (word == b'ifeq')

    def read_statement(self, file, number, text, word, rest, open_files):
        if word == b'error':
            raise Wrong('error: ' + self.expanded(rest, file).decode())
        if text == b'include_rules':
            for depth in range(len(self.folder) + 1):
                path = self.folder[:depth] + (b'Tuprules.tup',)
                content = self.sources.content(path)
                if content is not None:
                    self.read_file(path, content, open_files + 1)
        elif word == b'include':
            path = resolve(file[:-1], self.expanded(rest, file))
            content = None if path is None else self.sources.content(path)
            if content is None:
                raise Wrong('include file missing')
            self.read_file(path, content, open_files + 1)
        elif text.startswith(b':'):
            self.rule(file, number, rule_parts(self.expanded(text[1:], file)))
        elif text.startswith(b'!') and b'=' in text:
            self.macro(file, *text[1:].split(b'=', 1))
        elif not text.startswith(b'!') and b'=' in text:
            self.assignment(file, *text.split(b'=', 1))
        else:
            raise Wrong('unknown line')

    def expanded(self, text, file):
        done = b''
        while True:
            opening = re.search(rb'[$@]\(', text)
            if not opening:
                return done + text
            end = text.find(b')', opening.end())
            if end < 0:
                raise Wrong('unclosed bracket')
            name, is_setting = text[opening.end():end], opening.group(0) == b'@('
            done += text[:opening.start()] + (self.setting(name) if is_setting else self.variable(name, file))
            text = text[end + 1:]

    def setting(self, name):
        if not NAME.match(name):
            raise Wrong('bad name')
        return self.sources.setting(name) or b''

    def variable(self, name, file):
        if name == b'TUP_CWD':
            return show_from(self.folder, file[:-1])
        check_free(name)
        return self.variables.get(name, b'')

    def assignment(self, file, left, right):
        name = (left[:-1] if left[-1:] in (b':', b'+') else left).strip(BLANK)
        check_free(name)
        value, before = self.expanded(right.strip(BLANK), file), self.variables.get(name)
        self.variables[name] = before + b' ' + value if before and left.endswith(b'+') else value

    def macro(self, file, left, right):
        text, name = self.expanded(right, file), left.strip(BLANK)
        if not NAME.match(name):
            raise Wrong('bad name')
        parts = rule_parts(text)
        if (parts['foreach'] or parts['inputs'] or parts['group'] or parts['bin']
                or any(is_gift(word) for word in parts['order'])):
            raise Wrong('bad word')
        if name in self.macros:
            raise Wrong('macro defined twice')
        self.macros[name] = parts

    # -- rules

    def rule(self, file, number, parts):
        parts = self.with_macro(parts)
        inputs, groups = self.found(parts['inputs'])
        order, more_groups = self.found(parts['order'])
        gives = self.group(parts['group'], 'output stands elsewhere') if parts['group'] else None
        for job in jobs(parts, inputs):
            given = {'folder': self.folder, 'inputs': [path for path, _ in job], 'order': [path for path, _ in order],
                     'outputs': [], 'groups': groups + more_groups, 'foreach': parts['foreach'],
                     'glob': job[0][1] if len(job) == 1 else None}
            draft = self.draft(parts, given)
            draft.update(file=file, line=number, gives=gives)
            self.drafts.append(draft)
            if parts['bin'] and draft['outputs']:
                self.bins.setdefault(parts['bin'], set()).update(draft['outputs'])

    def with_macro(self, parts):
        if not parts['command'].startswith(b'!'):
            return parts
        macro = self.macros.get(parts['command'][1:])
        if macro is None:
            raise Wrong('no such macro')
        return dict(parts, command=macro['command'], order=parts['order'] + macro['order'],
                    outputs=parts['outputs'] or macro['outputs'], extra=parts['extra'] or macro['extra'])

    def draft(self, parts, given):
        outputs = self.outputs(parts['outputs'], 'outputs', given, [])
        given = dict(given, outputs=outputs)
        all_outputs = self.outputs(parts['extra'], 'extra', given, outputs)
        letters, shown, command = around_carets(parts['command'])
        return {'pieces': flagged(command, 'command', given), 'compare': b'o' in letters,
                'display': flagged(shown, 'command', given) if shown else None, 'inputs': given['inputs'],
                'order': given['order'], 'outputs': all_outputs, 'groups': given['groups']}

    def folder_of(self, word, otherwise):
        folder = resolve(self.folder, word.rsplit(b'/', 1)[0]) if b'/' in word else self.folder
        if folder is None:
            raise Wrong(otherwise)
        return folder

    def group(self, word, otherwise):
        return self.folder_of(word, otherwise), last_name(word)[1:-1]

    def made(self):
        return [path for draft in self.drafts for path in draft['outputs']]

    def found(self, some):
        """The files that input words give, each once with what its glob matched, and the groups."""
        files, groups = {}, []
        for word in some:
            if is_group(word) and not is_bin(word):
                groups.append(self.group(word, 'missing input'))
                continue
            for path, part in self.files_of(word):
                files.setdefault(path, part)
        return list(files.items()), groups

    def files_of(self, word):
        if is_bin(word):
            if word[1:-1] not in self.bins:
                raise Wrong('no such bin')
            return [(path, None) for path in sorted(self.bins[word[1:-1]])]
        bare = {'folder': self.folder, 'inputs': [], 'order': [], 'outputs': [], 'groups': [], 'foreach': False,
                'glob': None}
        text = b''.join(flagged(word, 'inputs', bare))
        if any(mark in last_name(text) for mark in b'*?['):
            return self.globbed(text)
        path = resolve(self.folder, text)
        if path is None or self.sources.kind(self.folder, path) != 'file' and path not in self.made():
            raise Wrong('missing input')
        return [(path, None)]

    def globbed(self, text):
        symbols = glob(last_name(text))
        folder = self.folder_of(text, 'missing input')
        names = set(self.sources.names(self.folder, folder)) | {path[-1] for path in self.made() if path[:-1] == folder}
        files = []
        for name in sorted(names):
            chars = name.decode()
            if matches(symbols, chars) and len(folder) < 32:
                part = matched_part(symbols, chars)
                files.append((folder + (name,), part and chars[part[0]:part[1]].encode()))
        return files

    def outputs(self, some, place, given, before):
        outputs = list(before)
        for word in some:
            path = resolve(self.folder, b''.join(flagged(word, place, given)))
            if path is None or not is_below(self.folder, path) or is_reserved(path):
                raise Wrong('output stands elsewhere')
            taken = outputs + self.made()
            blocked = any([self.is_blocked(path[:end], taken) for end in range(len(self.folder) + 1, len(path))])
            kind = self.sources.kind(self.folder, path)
            if path in taken:
                raise Wrong('output named twice')
            if kind != 'nothing':
                raise Wrong('output is a source file' if kind == 'file' else 'output is a directory')
            if blocked or any(is_below(path, other) for other in taken):
                raise Wrong('output stands below a file')
            outputs.append(path)
        return outputs

    def is_blocked(self, folder, taken):
        """Whether a file or an output is where a folder on the way to an output has to be."""
        if self.sources.kind(self.folder, folder + (b'Tupfile',)) == 'file':
            raise Wrong('output stands elsewhere')
        return self.sources.kind(self.folder, folder) == 'file' or folder in taken


def is_below(folder, path):
    return len(path) > len(folder) and path[:len(folder)] == folder


def is_reserved(path):
    return path[-1] in (b'Tupfile', b'Tuprules.tup') or path == (b'tup.config',)


def check_free(name):
    if not NAME.match(name) or name.startswith(b'CONFIG_') or name == b'TUP_CWD':
        raise Wrong('bad name')


def jobs(parts, inputs):
    """The inputs of each command that a rule makes."""
    if parts['foreach']:
        return [[one] for one in inputs]
    if parts['inputs'] and not inputs and not any(is_group(word) for word in parts['inputs']):
        return []
    return [inputs]


def around_carets(command):
    """The letters of a command, what is shown in its place, and the rest."""
    if not command.startswith(b'^'):
        return b'', b'', command
    if command.count(b'^') == 1:
        raise Wrong('bad caret part')
    front, rest = command[1:].split(b'^', 1)
    letters, _, shown = front.partition(b' ')
    if any(letter not in b'bcjos' for letter in letters):
        raise Wrong('bad caret part')
    return letters, shown.strip(BLANK), rest.strip(BLANK)


# ---- a project

class Sources:
    """Files alone answer, and what tup.config sets."""

    def __init__(self, files, values):
        self.files, self.values = files, values

    def content(self, path):
        return self.files.get(path)

    def setting(self, name):
        return self.values.get(name)

    def names(self, reader, folder):
        return [path[-1] for path in self.files if path[:-1] == folder]

    def kind(self, reader, path):
        if path in self.files:
            return 'file'
        is_folder = any(len(other) > len(path) and other[:len(path)] == path for other in self.files)
        return 'folder' if is_folder else 'nothing'


class Noted:
    """Answers one reader as others do, and keeps what it asked with what it was told."""

    def __init__(self, sources):
        self.sources, self.asked = sources, {}

    def told(self, *question):
        self.asked[question] = self.sources.answer(*question)
        return self.asked[question]

    def content(self, path):
        return self.told('content', path)

    def setting(self, name):
        return self.told('setting', name)

    def names(self, reader, folder):
        return self.told('names', reader, folder)

    def kind(self, reader, path):
        return self.told('kind', reader, path)


class Project(Sources):
    """All folders: the outputs of one are seen by the others, once it is read."""

    def __init__(self, files):
        super().__init__(files, {})
        self.readings, self.asked = {}, {}

    def answer(self, kind, *words):
        return sorted(self.names(*words)) if kind == 'names' else getattr(self, kind)(*words)

    def home(self, folder):
        """The nearest folder at or above this one that has a Tupfile: its reading makes the files here."""
        above = [folder[:depth] for depth in range(len(folder), -1, -1)]
        return next((dir for dir in above if dir + (b'Tupfile',) in self.files), None)

    def made_in(self, reader, folder):
        home = self.home(folder)
        if home in (None, reader):
            return []
        if home not in self.readings:
            raise Awaits(home)
        return [path for draft in self.readings[home] for path in draft['outputs']]

    def names(self, reader, folder):
        made = self.made_in(reader, folder)
        return super().names(reader, folder) + [path[-1] for path in made if path[:-1] == folder]

    def kind(self, reader, path):
        kind = super().kind(reader, path)
        if kind == 'nothing' and path and path in self.made_in(reader, path[:-1]):
            return 'file'
        return kind

    def read(self, folder, under_way):
        under_way = under_way + [folder]
        while folder not in self.readings:
            try:
                noted = Noted(self)
                self.readings[folder] = Reading(folder, noted).read()
                self.asked[folder] = noted.asked
            except Awaits as other:
                if other.folder in under_way:
                    raise FoldersCircle(under_way[under_way.index(other.folder):])
                self.read(other.folder, under_way)

    def rules(self):
        self.values = settings(self.files.get((b'tup.config',), b''))
        for folder in sorted(path[:-1] for path in self.files if path[-1:] == (b'Tupfile',)):
            self.read(folder, [])
        placed = [(folder, draft) for folder in sorted(self.readings) for draft in self.readings[folder]]
        members = members_of(placed)
        rules = [linked(folder, draft, members) for folder, draft in placed]
        check_twice(rules)
        if any(at in makers for at, makers in enumerate(producers(rules))):
            raise CommandsCircle()
        return rules


def members_of(placed):
    members = {}
    for _, draft in placed:
        if draft['gives'] and draft['outputs']:
            members.setdefault(draft['gives'], set()).update(draft['outputs'])
    for _, draft in placed:
        for group in draft['groups']:
            if group not in members:
                raise NoGroup(group)
    return {group: sorted(paths) for group, paths in members.items()}


def linked(folder, draft, members):
    """A draft as a rule: its groups put in."""
    def text(pieces):
        shown = lambda at: b' '.join(show_from(folder, path) for path in members[draft['groups'][at]])
        return b''.join(piece if isinstance(piece, bytes) else shown(piece) for piece in pieces)
    order = list(draft['order'])
    for group in draft['groups']:
        order += [path for path in members[group] if path not in order]
    shown = None if draft['display'] is None else text(draft['display'])
    return {'folder': folder, 'text': text(draft['pieces']), 'display': shown, 'compare': draft['compare'],
            'inputs': draft['inputs'], 'order': order, 'outputs': draft['outputs'], 'file': draft['file'],
            'line': draft['line']}


def label(rule):
    return rule['text'] if rule['display'] is None else rule['display']


def check_twice(rules):
    seen = set()
    for rule in rules:
        if (rule['folder'], rule['text']) in seen:
            raise Fault(rule['folder'], rule['file'], rule['line'], 'command given twice')
        seen.add((rule['folder'], rule['text']))


def makers(rules):
    """For each rule the places of those that make what it declares."""
    maker = {}
    for at, rule in enumerate(rules):
        for path in rule['outputs']:
            maker.setdefault(path, at)
    return [{maker[path] for path in rule['inputs'] + rule['order'] if path in maker} for rule in rules]


def producers(rules):
    """For each rule the places of those that it waits for, over any number of others."""
    near, everything = makers(rules), []
    for at in range(len(rules)):
        seen, left = set(), list(near[at])
        while left:
            other = left.pop()
            if other not in seen:
                seen.add(other)
                left += near[other]
        everything.append(seen)
    return everything
