"""The small commands, what becomes of a command, and the clean build: a second reading of docs/, not of the code."""
import re
from language import producers, resolve

MOST_BYTES = 16777216
MOST_ASKS = 4095


class Asks(Exception):
    """A command asks for a file by this text, and there is no answer yet."""
    def __init__(self, text):
        super().__init__()
        self.text = text


class Ends(Exception):
    """A command ends with this status, whatever steps are left."""
    def __init__(self, status):
        super().__init__()
        self.status = status


class Command:
    """A command in its folder, with the answers to what it asks for: contents, or None where there is no file."""

    def __init__(self, folder, text, answers):
        self.folder, self.answers, self.writes, self.own_reads = folder, list(answers), [], 0
        self.steps = [[]]
        for word in text.split(b' '):
            if word == b'&&':
                self.steps.append([])
            elif word:
                self.steps[-1].append(word)

    def next(self):
        """('ask', text), or ('end', status, writes)."""
        try:
            for step in self.steps:
                self.do(step)
        except Asks as asked:
            return 'ask', asked.text
        except Ends as ended:
            return 'end', ended.status, self.writes
        return 'end', 0, self.writes

    def do(self, step):
        if not step or any(word == b'>' and at != len(step) - 2 for at, word in enumerate(step)):
            raise Ends(2)
        name, words = step[0], step[1:]
        arrow = len(words) > 1 and words[-2] == b'>'
        forms = {
            b'cp': (len(words) == 2, lambda: self.write(words[1], self.need(words[0]))),
            b'cat': (arrow, lambda: self.write(words[-1], b''.join(self.need(word) for word in words[:-2]))),
            b'echo': (arrow, lambda: self.write(words[-1], b' '.join(words[:-2]) + b'\n')),
            b'incl': (len(words) == 2, lambda: self.write(words[1], self.expanded(words[0], 0))),
            b'ifexists': (len(words) == 3, lambda: self.copy_if(*words)),
            b'fail': (len(words) == 1, lambda: self.fail(words[0])),
        }
        if name not in forms:
            raise Ends(127)
        fits, does = forms[name]
        if not fits:
            raise Ends(2)
        does()

    def written(self, text):
        """The place of the write to the path of a text."""
        path = resolve(self.folder, text)
        same = (at for at, write in enumerate(self.writes) if resolve(self.folder, write[0]) == path)
        return None if path is None else next(same, None)

    def read(self, text):
        at = self.written(text)
        if at is not None:
            self.own_reads += 1
            if self.own_reads > MOST_ASKS:
                raise Ends(4)
            return self.writes[at][1]
        if not self.answers:
            raise Asks(text)
        return self.answers.pop(0)

    def need(self, text):
        content = self.read(text)
        if content is None:
            raise Ends(1)
        return content

    def write(self, text, content):
        if len(content) > MOST_BYTES:
            raise Ends(5)
        at = self.written(text)
        if at is None:
            self.writes.append((text, content))
        else:
            self.writes[at] = (self.writes[at][0], content)

    def expanded(self, text, depth):
        if depth > 32:
            raise Ends(1)
        whole = b''
        for line in re.findall(rb'[^\n]*\n|[^\n]+', self.need(text)):
            name = re.match(rb'#include "([^"\n]+)"\n?\Z', line)
            if name and is_utf8(name.group(1)):
                beside = text[:text.rfind(b'/') + 1] + name.group(1)
                whole += self.expanded(beside, depth + 1)
            else:
                whole += line
        return whole

    def copy_if(self, probe, source, to):
        self.write(to, b'' if self.read(probe) is None else self.need(source))

    def fail(self, word):
        raise Ends(int(word) if re.match(rb'[1-9][0-9]{0,2}\Z', word) and int(word) < 256 else 2)


def is_utf8(name):
    try:
        name.decode()
        return True
    except UnicodeDecodeError:
        return False


# ---- what becomes of a command

def access(rule, generated, before, text):
    """The path that a rule's command may ask for, or the verdict on its ask."""
    if before >= MOST_ASKS:
        return None, ('asks',)
    path = resolve(rule['folder'], text)
    if path is None or path in generated and path not in rule['inputs'] + rule['order'] + rule['outputs']:
        return None, ('read', text)
    return path, None


def judged(rule, status, writes):
    """The verdict on a command that ended so, and the files that it leaves."""
    if status:
        return ('failed', status), []
    last = {}
    for text, content in writes:
        path = resolve(rule['folder'], text)
        if path not in rule['outputs']:
            return ('write', text), []
        last[path] = content
    for path in rule['outputs']:
        if path not in last:
            return ('unwritten', path), []
    return ('good',), [(path, last[path]) for path in rule['outputs']]


def outputs_of(rules):
    return {path for rule in rules for path in rule['outputs']}


def verdict(rule, generated, tree):
    return run(rule, generated, tree)[:2]


def run(rule, generated, tree):
    """The verdict on a rule's command, the files that it leaves, and what it asked with what it was told."""
    answers, asked = [], []
    while True:
        step = Command(rule['folder'], rule['text'], answers).next()
        if step[0] == 'end':
            return (*judged(rule, *step[1:]), asked)
        path, denied = access(rule, generated, len(answers), step[1])
        if denied:
            return denied, [], asked
        answers.append(None if path in rule['outputs'] else tree.get(path))
        asked.append((path, answers[-1]))


def clean_build(rules, sources, to_first_bad=False):
    """The tree, the verdict of each rule (None where it was never taken), and the rules in the order of being taken."""
    tree, verdicts, taken = dict(sources), [None] * len(rules), []
    waits, generated = producers(rules), outputs_of(rules)
    while True:
        is_ready = lambda at: not verdicts[at] and all(verdicts[other] == ('good',) for other in waits[at])
        at = next(filter(is_ready, range(len(rules))), None)
        if at is None:
            return tree, verdicts, taken
        verdicts[at], files = verdict(rules[at], generated, tree)
        taken.append(at)
        tree.update(files)
        if to_first_bad and verdicts[at] != ('good',):
            return tree, verdicts, taken
