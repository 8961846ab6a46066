"""A project from call to call: what `tup` prints, its exit, its files and its store; a second reading of docs/."""
import copy

from commands import clean_build, outputs_of, run
from language import CommandsCircle, Fault, FoldersCircle, NoGroup, Project, label, producers, settings, show
from reasons import Opening


class UserFile(Exception):
    """A file that was changed by hand and that no rule makes any more."""
    def __init__(self, path):
        super().__init__()
        self.path = path


class World:
    """A tree of files, and what is kept of the last update; that is None where no project has begun."""

    def __init__(self):
        self.tree, self.kept, self.begun = {}, None, []
        # what an update that says why began its rules with, and the places of these
        self.opening, self.ended = None, []

    def copy(self):
        return copy.deepcopy(self)

    @property
    def owned(self):
        return None if self.kept is None else set(self.kept.owned)

    def sources(self):
        return {path: content for path, content in self.tree.items() if path not in (self.owned or ())}

    def call(self, words):
        """The exit number and the lines; None in place of lines that are left open. The reasons aren't among them, as there may
        be several."""
        self.begun, self.opening, self.ended = [], None, []
        if words == ['init']:
            return self.init()
        if self.kept is None:
            return 3, b'fault: no tup project here\n'
        if words == ['verify']:
            return self.refused([]) or self.verify(Project(self.sources()).rules())
        return self.todo() if words == ['todo'] else self.update('-k' in words, '--explain' in words)

    def init(self):
        if self.kept is not None:
            return 3, b'fault: already a tup project\n'
        self.kept = Kept()
        return 0, b'initialized\n'

    def refused(self, lines):
        """The answer where the sources ask for no rules, behind these lines."""
        told = lambda status, text: (status, b'\n'.join(lines + [b'fault: ' + text]) + b'\n')
        try:
            Project(self.sources()).rules()
        except Fault as fault:
            return told(5, fault.text().encode())
        except FoldersCircle as circle:
            return told(5, b'directories wait for each other: ' + around(circle.folders))
        except NoGroup as group:
            folder = show(group.folder) + b'/' if group.folder else b''
            return told(5, b'no rule gives to ' + folder + b'<' + group.name + b'>')
        except CommandsCircle:
            return 5, None
        return None

    def todo(self):
        """What an update would remove and run."""
        sources = self.sources()
        self.kept.scan(self.tree, sources)
        refused = self.refused([])
        if refused:
            return refused
        lines = [b'read ' + show(folder) for folder in self.kept.bring(sources)]
        done = b'done: %d read, 0 run, 0 removed' % len(lines)
        lines += [b'todo remove ' + show(path) for path in self.kept.vanished(self.tree)]
        rules = [self.kept.rules[at] for at in sorted(self.kept.flags)]
        lines += [b'todo run ' + show(rule['folder']) + b': ' + label(rule) for rule in rules]
        return 0, b'\n'.join(lines + [done]) + b'\n'

    def update(self, keep_going, explain):
        sources = self.sources()
        self.kept.scan(self.tree, sources)
        refused = self.refused([])
        if refused:
            return refused
        lines = [b'read ' + show(folder) for folder in self.kept.bring(sources)]
        try:
            removed = self.kept.clear(self.tree)
        except UserFile as users:
            return 6, b'\n'.join(lines + [b'fault: %s was changed by hand and no rule makes it' % show(users.path)]) + b'\n'
        read, rules, bad = len(lines), self.kept.rules, {}
        lines += [b'remove ' + show(path) for path in removed]
        self.opening = Opening(self.kept) if explain else None
        for at, verdict in self.kept.run(self.tree, keep_going):
            self.begun.append(rules[at]['text'])
            self.ended.append(at)
            is_good = verdict == ('good',)
            lines.append((b'run ' if is_good else b'bad ') + show(rules[at]['folder']) + b': ' + label(rules[at]))
            if not is_good:
                bad[at] = verdict
        if bad:
            return 1, b'\n'.join(lines + [fault_of(rules[min(bad)], bad[min(bad)])]) + b'\n'
        done = b'done: %d read, %d run, %d removed' % (read, len(self.begun), len(removed))
        return 0, b'\n'.join(lines + [done]) + b'\n'

    def verify(self, rules):
        made, verdicts, _ = clean_build(rules, self.sources())
        for rule, given in zip(rules, verdicts):
            if given not in (None, ('good',)):
                return 1, fault_of(rule, given) + b'\n'
        differ = sorted(path for path in set(made) | set(self.tree) if made.get(path) != self.tree.get(path))
        return (13, b'differs: ' + show(differ[0]) + b'\n') if differ else (0, b'same\n')


# What a rule is; two with the same are one.
FIELDS = ['folder', 'text', 'display', 'compare', 'inputs', 'order', 'outputs']
NEVER = 'never'


class Kept:
    """What is kept from update to update: the files that were seen, what each folder's reading asked and gives, the rules
    with what their last good runs asked and wrote, who makes each owned path and what was written there, and which folders
    are to be read and which rules are to be run."""

    def __init__(self):
        self.seen, self.asked, self.drafts, self.created = {}, {}, {}, set()
        self.rules, self.runs, self.owned, self.flags = [], {}, {}, set()

    def scan(self, tree, sources):
        """What changed among the files is noted, with the folders and rules that it touches."""
        turned = above_all(path for path in self.seen if path not in self.owned) ^ above_all(sources)
        self.seen = dict(tree)
        self.created |= {folder for folder in self.folders(sources) if folder not in self.asked}
        self.created |= {folder for folder in self.asked if self.is_stale(folder, sources)}
        self.flags = self.above(self.flags | {at for at in self.runs if self.is_touched(at) or self.asks_in_vain(at, turned)})

    def folders(self, sources):
        return sorted(path[:-1] for path in sources if path[-1] == b'Tupfile')

    def is_stale(self, folder, sources):
        if folder + (b'Tupfile',) not in sources:
            return True
        project = Project(sources)
        project.readings = {other: drafts for other, drafts in self.drafts.items() if other in self.folders(sources)}
        for other in self.folders(sources):
            project.readings.setdefault(other, [])
        return is_told_otherwise(project, self.asked[folder])

    def is_touched(self, at):
        asked, wrote = self.runs[at]
        asked = {path: told for path, told in asked if path not in self.rules[at]['outputs']}
        return any(self.seen.get(path) != told for path, told in [*asked.items(), *wrote.items()])

    def asks_in_vain(self, at, paths):
        """Whether the run of a rule asked for one of these paths and found no file; an output isn't read by its rule."""
        asked, _ = self.runs[at]
        return any(path in paths and told is None and path not in self.rules[at]['outputs'] for path, told in asked)

    def above(self, roots):
        """These rules, and all that read, over any others, what they make."""
        reached, left = set(roots), list(roots)
        while left:
            made = self.rules[left.pop()]['outputs']
            more = {at for at, (asked, _) in self.runs.items() if any(path in made for path, _ in asked)} - reached
            reached |= more
            left += more
        return reached

    def bring(self, sources):
        """Reads what has to be read, and puts the rules of it in the place of the old; gives the folders."""
        project = Project(sources)
        rules = project.rules()
        fresh = [folder for folder in self.folders(sources) if folder in self.created or folder not in self.asked
                 or is_told_otherwise(project, self.asked[folder])]
        gone = [folder for folder in self.asked if folder not in project.readings]
        if fresh or gone or self.created:
            self.asked = {folder: project.asked[folder] if folder in fresh else self.asked[folder]
                          for folder in project.readings}
            self.drafts, self.created = project.readings, set()
            self.swap(rules)
        return fresh

    def swap(self, rules):
        same = lambda one, other: all(one[field] == other[field] for field in FIELDS)
        before = [next((at for at, old in enumerate(self.rules) if same(old, rule)), None) for rule in rules]
        flags = {at for at, was in enumerate(before) if was is None or was in self.flags}
        self.runs = {at: self.runs[was] for at, was in enumerate(before) if was in self.runs}
        self.rules = rules
        maker = {path: at for at, rule in enumerate(rules) for path in rule['outputs']}
        states = {**{path: NEVER for path in maker}, **{path: state for path, (_, state) in self.owned.items()}}
        self.owned = {path: (maker.get(path), state) for path, state in states.items()}
        self.flags = flags | self.above({at for at, was in enumerate(before) if was is None})

    def vanished(self, tree):
        """The paths of the files that no rule makes any more."""
        return sorted(path for path, (maker, _) in self.owned.items() if maker is None and path in tree)

    def clear(self, tree):
        """Removes the files that no rule makes any more, and gives their paths."""
        unmade = [path for path, (maker, _) in self.owned.items() if maker is None]
        files = self.vanished(tree)
        for path in files:
            if self.owned[path][1] != tree[path]:
                raise UserFile(path)
        for path in unmade:
            del self.owned[path]
            self.seen.pop(path, None)
            tree.pop(path, None)
        return files

    def run(self, tree, keep_going):
        """Runs the rules that are to be run, up to the first bad one, or all that need no bad one; gives each with its verdict."""
        waits, generated, bad = producers(self.rules), outputs_of(self.rules), set()
        ready = lambda: [at for at in sorted(self.flags - bad) if not waits[at] & self.flags]
        while ready() and (keep_going or not bad):
            at = ready()[0]
            rule = self.rules[at]
            verdict, files, asked = run(rule, generated, tree)
            if verdict == ('good',):
                tree.update(files)
                self.seen.update(files)
                self.owned.update((path, (at, content)) for path, content in files)
                self.runs[at] = (asked, dict(files))
                self.flags.remove(at)
            else:
                bad.add(at)
            yield at, verdict


def above_all(paths):
    """The folders in which one of these files lies, at whatever depth."""
    return {path[:depth] for path in paths for depth in range(len(path))}


def is_told_otherwise(project, asked):
    """Whether an answer isn't what it was; what tup.config sets is told otherwise where that has a fault."""
    try:
        project.values = settings(project.files.get((b'tup.config',), b''))
    except Fault:
        project.values = None
    is_other = lambda question, told: (project.values is None if question[0] == 'setting' else False) or project.answer(*question) != told
    return any(is_other(question, told) for question, told in asked.items())


def around(folders):
    first = folders.index(min(folders))
    return b' -> '.join(show(folder) for folder in folders[first:] + folders[:first] + [folders[first]])


def fault_of(rule, given):
    of = {'failed': lambda: b'status %d' % given[1], 'read': lambda: b'reads ' + given[1],
          'write': lambda: b'writes ' + given[1], 'unwritten': lambda: b"doesn't write " + show(given[1]),
          'asks': lambda: b'reads too often'}
    return b'fault: ' + show(rule['folder']) + b': ' + rule['text'] + b': ' + of[given[0]]()
