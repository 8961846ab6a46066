"""Power cuts in updates that sync once: `make power`.

    power.py cut PROGRAM [SEED [COUNT]]     after so many ends (none: 100) of updates by a cut of power the next update is done
    power.py again PROGRAM [SEED [COUNT]]   the same where what comes behind the cut is killed, and the power is cut once more
    power.py user PROGRAM [SEED [COUNT]]    the same where a user changes something before the next update
    power.py planted PROGRAM [SEED [COUNT]] whether each of five wrong designs is found within so many ends (none: 200)

Updates of drawn histories (those of stops.py) are killed before a system call, by strace, from the one on that begins an epoch.
What a cut of power may leave then is laid by lot: of all that wasn't synced by then each file is as it was when the epoch began,
as it is now, a half of that, zeros, empty or gone; the store is cut, torn or has holes behind where it was when the epoch began;
the epoch's notes are whole, cut or zeros. What was synced is as it is. Then the next update is done, its files are those of a
clean build in another folder, no source has changed, and one more update has nothing to do.

A wrong design is played over the same program: its syncs are taken out of the trace, or come later there, or the epoch's file is
laid as that design would have written or read it. So it is known that what is wrong there would be seen.

What went wrong is printed, its folder is kept, and the end is then 1. It needs strace, and is no part of the gate.
"""
import os
import random
import re
import shutil
import subprocess
import sys
import tempfile

sys.path.insert(0, os.path.dirname(os.path.abspath(__file__)))
import stops

CALLS = 'openat,write,pwrite64,ftruncate,rename,unlink,rmdir,mkdir,fsync,fdatasync'
EPOCH, STORE = '.tup/epoch', '.tup/db'


class Call:
    """A system call of an update: its name, the how manyth of this name it is, what it does, and to which paths."""

    def __init__(self, name, number, does, *paths):
        self.name, self.number, self.does, self.paths = name, number, does, paths


def call_of(line, name, number, top):
    """The call in a line of a trace."""
    def below(path):
        return os.path.normpath(os.path.relpath(path, top) if path.startswith('/') else path)
    texts = re.findall(r'"([^"]*)"', line)
    opened = re.match(r'\w+\(\d+<([^>]*)>', line)
    if ' = -1 ' in line:
        return Call(name, number, None)
    if name == 'openat':
        return Call(name, number, 'make' if 'O_CREAT' in line else None, below(texts[0]))
    if name in ('write', 'pwrite64', 'ftruncate'):
        path = below(opened.group(1)) if opened and opened.group(1).startswith('/') else '..'
        return Call(name, number, None if path.startswith('..') else 'write', path)
    if name in ('fsync', 'fdatasync'):
        return Call(name, number, 'sync', below(opened.group(1)))
    if name == 'rename':
        return Call(name, number, 'rename', below(texts[0]), below(texts[1]))
    return Call(name, number, 'make' if name == 'mkdir' else 'gone', below(texts[0]))


def calls_of(trace, top):
    counts, calls = {}, []
    for line in open(trace, errors='replace'):
        name = line.split('(')[0]
        if name in CALLS.split(','):
            counts[name] = counts.get(name, 0) + 1
            calls.append(call_of(line, name, counts[name], top))
    return calls


def loose(calls):
    """The paths whose last change isn't synced: their bytes, or their name in the folder above."""
    bytes_of, names = set(), set()
    for call in calls:
        if call.does == 'write':
            bytes_of.add(call.paths[0])
        elif call.does == 'make':
            names.add(call.paths[0])
            if call.name != 'mkdir':
                bytes_of.add(call.paths[0])
        elif call.does == 'gone':
            bytes_of.discard(call.paths[0])
            names.add(call.paths[0])
        elif call.does == 'rename':
            names |= set(call.paths)
            if call.paths[0] in bytes_of:
                bytes_of.add(call.paths[1])
            bytes_of.discard(call.paths[0])
        elif call.does == 'sync':
            bytes_of.discard(call.paths[0])
            names = {path for path in names if (os.path.dirname(path) or '.') != call.paths[0]}
    return bytes_of | names


def copy(one, other):
    shutil.rmtree(other, ignore_errors=True)
    shutil.copytree(one, other, symlinks=True)


def read(*path):
    try:
        with open(os.path.join(*path), 'rb') as file:
            return file.read()
    except OSError:
        return None


def put(content, *path):
    place = os.path.join(*path)
    if content is None:
        if os.path.lexists(place):
            os.remove(place)
        return
    os.makedirs(os.path.dirname(place), exist_ok=True)
    with open(place, 'wb') as file:
        file.write(content)


def gates(store):
    """The places behind the gates of a store, up to the first that is closed."""
    found, at = [], 17
    while at < len(store):
        found.append(at + 1)
        if store[at] == 0:
            break
        at += 5 + int.from_bytes(store[at + 1:at + 5], 'big')
    return found


class Trial:
    """One update of a project that is traced, and what is left of it where it ends before a call."""

    def __init__(self, program, lot, base, work):
        self.program, self.lot, self.base, self.work, self.states = program, lot, base, work, {}
        full = os.path.join(work, 'full')
        copy(base, full)
        trace = os.path.join(work, 'trace')
        subprocess.run(['strace', '-y', '-o', trace, '-e', 'trace=' + CALLS, program, 'upd', '-j', '1'], cwd=full, stdout=subprocess.DEVNULL,
                       stderr=subprocess.DEVNULL)
        self.calls = calls_of(trace, full)
        self.states[len(self.calls)] = full

    def state(self, at):
        """The project as the update leaves it that is killed before a call."""
        if at not in self.states:
            place, call = os.path.join(self.work, 'at%d' % at), self.calls[at]
            copy(self.base, place)
            inject = '%s:error=EIO:signal=KILL:when=%d' % (call.name, call.number)
            subprocess.run(['strace', '-o', '/dev/null', '-e', 'trace=' + call.name, '-e', 'inject=' + inject, self.program, 'upd', '-j', '1'],
                           cwd=place, stdout=subprocess.DEVNULL, stderr=subprocess.DEVNULL)
            self.states[at] = place
        return self.states[at]

    def done(self, at):
        """The calls before one."""
        return self.calls[:at]

    def begins(self):
        """Where an epoch gets its name."""
        return [at for at, call in enumerate(self.calls) if call.does == 'rename' and call.paths[1] == EPOCH]

    def draw(self):
        """A call from the first epoch on, before which the update ends; those of its end come often."""
        first = self.begins()[0]
        ends = [at for at, call in enumerate(self.calls) if call.does == 'gone' and call.paths[0] == EPOCH]
        syncs = [at for at, call in enumerate(self.calls) if at > first and call.does == 'sync']
        most, drawn = len(self.calls), self.lot.random()
        if drawn < .5:
            return self.lot.randint(first + 1, most)
        if drawn < .75 and syncs:
            return min(most, self.lot.choice(syncs) + self.lot.randint(0, 1))
        return min(most, max(first + 1, self.lot.choice(ends or [most]) + self.lot.randint(-2, 3)))

    def begin_of(self, at):
        """The state when the epoch began that is the last before a call, and what wasn't synced by then."""
        begin = [begin for begin in self.begins() if begin < at][-1]
        return self.state(begin), loose(self.done(begin))

    def lay(self, at, place):
        """Lays what a cut of power before a call may leave."""
        lot, new = self.lot, self.state(at)
        old, unsynced = self.begin_of(at)
        free = loose(self.done(at))
        copy(new, place)
        lay_files(lot, old, self.base, unsynced, new, free, place)
        if STORE in free:
            least = read(self.base if STORE in unsynced else old, STORE)
            lay_store(lot, gates(least)[-1], read(new, STORE), place)
        self.lay_epoch(at, free, place)
        return free

    def lay_epoch(self, at, free, place):
        """Lays the epoch's file: its head is synced before it has its name."""
        found = read(place, EPOCH)
        if EPOCH not in free:
            return
        if found is None:
            # that it is gone isn't durable
            gone = [other for other, call in enumerate(self.calls[:at]) if call.does == 'gone' and call.paths[0] == EPOCH][-1:]
            found = read(self.state(gone[0]), EPOCH) if gone and self.lot.random() < .5 else None
        elif '.tup' not in [call.paths[0] for call in self.calls[self.begins()[0]:at] if call.does == 'sync'] and self.lot.random() < .3:
            # that it has its name isn't durable
            found = None
        put(found and torn_notes(self.lot, found), place, EPOCH)


def torn_notes(lot, found):
    """The epoch's file with its notes whole, cut, with zeros at its end, or with a hole."""
    way, at = lot.randint(0, 5), lot.randint(32, max(32, len(found)))
    if way <= 2:
        return found
    if way == 3:
        return found[:at]
    if way == 4:
        return found[:at] + bytes(len(found) - at)
    hole = lot.choice([1, 17, 512])
    return found[:at] + bytes(min(hole, len(found) - at)) + found[at + hole:]


def lay_files(lot, old, base, unsynced, new, free, place):
    """Lays each file that isn't durable: as when the epoch began, as now, half of that, zeros, empty or gone; and folders that are
    new or not. What wasn't durable when the epoch began may be as before the update."""
    found = {path for state in (old, base, new) for path in stops.files_of(state)}
    for path in sorted(found & free):
        now, before = read(new, path), [read(old, path)] + ([read(base, path)] if path in unsynced else [])
        if any(one != now for one in before):
            some = now or before[0] or b''
            put(lot.choice(before + [now, some[:len(some) // 2], bytes(len(some)), b'', None]), place, path)
    for path in sorted(free):
        whole = os.path.join(place, path)
        if os.path.isdir(whole) and not os.path.isdir(os.path.join(old, path)) and lot.random() < .2:
            shutil.rmtree(whole)


def lay_store(lot, least, now, place):
    """Lays a store that is durable up to a place: behind that it is cut, torn, or has holes, and each gate is open or not."""
    places = [gate for gate in gates(now) if gate >= least] + [least, least]
    cut = lot.choice(places) if lot.random() < .7 else lot.randint(least, len(now))
    store = bytearray(now[:cut])
    rest = now[cut:]
    store += lot.choice([b'', rest, rest, rest[:len(rest) // 2], bytes(len(rest)), bytes(len(rest) + 50), lot.randbytes(90), b'\1' * 90])
    for _ in range(lot.choice([0, 0, 0, 1, 2])):
        if len(store) > least:
            at, hole = lot.randrange(least, len(store)), lot.choice([1, 64, 512, 4096])
            at -= at % hole if hole >= 512 and at - at % hole >= least else 0
            store[at:at + hole] = bytes(min(hole, len(store) - at))
    for gate in gates(now):
        if least <= gate <= len(store) and lot.random() < .15:
            store[gate - 1] = lot.choice([0, 1])
    put(bytes(store), place, STORE)


class UnsyncedBefore(Trial):
    """Nothing is synced before the epoch gets its name, but its own file."""

    def done(self, at):
        begin = self.begins()[0]
        return [call for other, call in enumerate(self.calls[:at]) if call.does != 'sync' or other >= begin or call.paths[0] == EPOCH + '.new']


class SyncedBehind(Trial):
    """The epoch's file goes before the store is synced."""

    def gone(self):
        return [at for at, call in enumerate(self.calls) if call.does == 'gone' and call.paths[0] == EPOCH][-1]

    def done(self, at):
        begin, gone = self.begins()[-1], self.gone()
        return [call for other, call in enumerate(self.calls[:at])
                if call.does != 'sync' or call.paths[0] != STORE or other < begin or at > gone + 3]

    def draw(self):
        return self.gone() + self.lot.randint(1, 3)


class Uncut(Trial):
    """What finds an epoch takes its file away, and leaves the store."""

    def lay(self, at, place):
        free = super().lay(at, place)
        put(None, place, EPOCH)
        return free


class Unsummed(Trial):
    """What finds an epoch keeps each commit that was noted."""

    def lay(self, at, place):
        free = super().lay(at, place)
        found, store = read(place, EPOCH), read(place, STORE)
        if found:
            gate, before = int.from_bytes(found[8:16], 'big'), int.from_bytes(found[16:24], 'big')
            put(found[:32] + notes_of(gate, before, lengths(found), store), place, EPOCH)
        return free


class AtRemoval(Trial):
    """The epoch begins when the first file goes."""

    def begins(self):
        gone = [at for at, call in enumerate(self.calls) if call.does == 'gone' and call.name == 'unlink' and not call.paths[0].startswith('.')]
        return gone[:1] if super().begins() else []

    def done(self, at):
        begin, end = self.begins()[0], super().begins()[-1]
        return [call for other, call in enumerate(self.calls[:at]) if call.does != 'sync' or not begin <= other <= end]

    def draw(self):
        return self.lot.randint(self.begins()[0] + 1, super().begins()[-1])

    def lay_epoch(self, at, free, place):
        store, now = read(self.state(self.begins()[0]), STORE), read(self.state(at), STORE)
        places = gates(now)
        gate = gates(store)[-1] - 1
        before = sum_of(store[max(0, gate - 4096):gate])
        head = b'tup-ep1\n' + gate.to_bytes(8, 'big') + before.to_bytes(8, 'big')
        found = [other - one for one, other in zip(places, places[1:]) if one > gate]
        put(head + sum_of(head).to_bytes(8, 'big') + notes_of(gate, before, found, now), place, EPOCH)


def sum_of(data):
    """SipHash-1-3 with a key of zeros."""
    def turn(number, by):
        return (number << by | number >> (64 - by)) & (1 << 64) - 1

    def round_of(a, b, c, d):
        a, c = (a + b) & (1 << 64) - 1, (c + d) & (1 << 64) - 1
        b, d = turn(b, 13) ^ a, turn(d, 16) ^ c
        a, c = turn(a, 32), (c + b) & (1 << 64) - 1
        a, b = (a + d) & (1 << 64) - 1, turn(b, 17) ^ c
        return a, b, turn(c, 32), turn(d, 21) ^ a
    words = [data[at:at + 8] for at in range(0, len(data) - len(data) % 8, 8)]
    words.append(data[len(data) - len(data) % 8:].ljust(7, b'\0') + bytes([len(data) & 255]))
    a, b, c, d = (int.from_bytes(text, 'big') for text in (b'somepseu', b'dorandom', b'lygenera', b'tedbytes'))
    for word in words:
        number = int.from_bytes(word, 'little')
        a, b, c, d = round_of(a, b, c, d ^ number)
        a ^= number
    c ^= 255
    for _ in range(3):
        a, b, c, d = round_of(a, b, c, d)
    return a ^ b ^ c ^ d


def lengths(found):
    """The lengths of the commits that an epoch's file notes."""
    commits, at = [], 32
    while at + 17 <= len(found) and found[at] in (1, 2):
        length = int.from_bytes(found[at + 1:at + 9], 'big')
        if found[at] == 1:
            commits.append(length)
        at += 17 + (length if found[at] == 2 else 0)
    return commits


def notes_of(gate, before, commits, store):
    """Notes of commits of these lengths, by the bytes of a store."""
    notes = b''
    for length in commits:
        before = sum_of(before.to_bytes(8, 'little') + store[gate + 1:gate + length])
        notes += b'\1' + length.to_bytes(8, 'big') + before.to_bytes(8, 'big')
        gate += length
    return notes


# The wrong designs, each with the way in which it is looked for.
PLANTED = [(UnsyncedBefore, 'cut'), (SyncedBehind, 'cut'), (Uncut, 'cut'), (Unsummed, 'cut'), (AtRemoval, 'user')]


class Player:
    """Ends of updates of one program, up to a count."""

    def __init__(self, program, seed, count, way, kind=Trial):
        self.program, self.seed, self.count, self.way, self.kind = program, seed, count, way, kind
        self.work, self.ends, self.wrong, self.number, self.sixes, self.found = tempfile.mkdtemp(), 0, 0, 0, 0, {}

    def play(self):
        while self.ends < self.count and not self.wrong:
            self.number += 1
            lot = random.Random('%d %d' % (self.seed, self.number))
            history = stops.History(self.program, lot, os.path.join(self.work, 'h'), None)
            self.history(lot, history)
            if not self.wrong:
                shutil.rmtree(os.path.join(self.work, 'h'))
            shutil.rmtree(history.clean, ignore_errors=True)
        if not self.wrong:
            shutil.rmtree(self.work)
        print('%s, seed %d: %d ends in %d histories: %s' % (self.way, self.seed, self.ends, self.number, self.wrong and 'WRONG'
              or 'no source changed, each next update was done'), sorted(self.found.items()))
        return not self.wrong

    def history(self, lot, history):
        project = history.project
        with open(project.place('.tup/options'), 'w') as options:
            options.write('--sync-once\n')
        for _ in range(lot.randint(1, 3)):
            for _ in range(lot.randint(0, 4)):
                project.edit()
            if self.way == 'user' and project.rules and lot.random() < .7:
                project.drop_rule()
                for path in lot.sample(sorted(project.sources), 2):
                    if not path.endswith('Tupfile'):
                        project.write(path)
            project.write_rules()
            base = os.path.join(self.work, 'h', 'base')
            copy(project.top, base)
            trial = self.kind(self.program, lot, base, os.path.join(self.work, 'h'))
            if trial.begins():
                wanted = self.clean_build(history, project)
                for _ in range(2):
                    at = trial.draw()
                    for _ in range(3):
                        if self.ends < self.count and not self.wrong:
                            self.end(lot, project, trial, at, wanted)
            for place in list(trial.states.values()):
                shutil.rmtree(place, ignore_errors=True)
            if self.wrong:
                return
            done = history.call('upd', '-j', str(lot.randint(1, 4)))
            if done.returncode:
                self.tell(trial, 0, 'in peace: ' + done.stdout + done.stderr)
            project.is_done()

    def clean_build(self, history, project):
        shutil.rmtree(history.clean, ignore_errors=True)
        for path, content in project.sources.items():
            put(content.encode(), history.clean, path)
        for words in ['init', '--no-sync'], ['upd', '-j', '1']:
            subprocess.run([self.program, *words], cwd=history.clean, stdout=subprocess.DEVNULL, check=True)
        return stops.files_of(history.clean)

    def call(self, place, *words):
        return subprocess.run([self.program, *words], cwd=place, stdout=subprocess.PIPE, stderr=subprocess.PIPE, text=True, errors='replace')

    def end(self, lot, project, trial, at, wanted):
        place = os.path.join(self.work, 'h', 'now')
        free = trial.lay(at, place)
        self.ends += 1
        if read(place, EPOCH) is not None:
            self.found['with an epoch'] = self.found.get('with an epoch', 0) + 1
        if at == len(trial.calls) and [path for path in free if path != '.tup']:
            return self.tell(trial, at, 'not durable in the end: ' + ' '.join(sorted(free)))
        return getattr(self, 'after_' + self.way)(lot, project, trial, at, wanted, place)

    def after_cut(self, lot, project, trial, at, wanted, place):
        self.next_update(lot, project, trial, at, wanted, place)

    def next_update(self, lot, project, trial, at, wanted, place):
        """The next update is done, and leaves just the files of a clean build."""
        ended = self.call(place, 'upd', '-j', str(lot.randint(1, 4)))
        self.compare(project.sources, trial, at, wanted, place, ended)

    def compare(self, sources, trial, at, wanted, place, ended):
        found, nothing = stops.files_of(place), self.call(place)
        changed = [path for path, content in sources.items() if (found.get(path) or b'').decode('latin1') != content]
        differ = sorted(path for path in set(found) | set(wanted) if found.get(path) != wanted.get(path))
        left = sorted(set(os.listdir(os.path.join(place, '.tup'))) - {'.gitignore', 'db', 'options', 'stamps'})
        if ended.returncode or changed or differ or nothing.stdout != stops.DONE_NOTHING + '\n' or left:
            self.tell(trial, at, 'exit %d: %s%s changed %s differ %s left %s then %s' % (
                ended.returncode, ended.stdout[-300:], ended.stderr[-300:], changed[:3], differ[:4], left, nothing.stdout[-200:]))

    def after_again(self, lot, project, trial, at, wanted, place):
        """What finds the epoch is killed at one of its calls, and the power is cut again."""
        second = Trial(self.program, lot, place, os.path.join(self.work, 'h', 'again'))
        looked = [other for other, call in enumerate(second.calls) if call.paths and call.paths[0] in (EPOCH, STORE)]
        gone = [other for other, call in enumerate(second.calls) if call.does == 'gone' and call.paths[0] == EPOCH]
        if not looked or not gone:
            shutil.rmtree(second.work)
            return self.next_update(lot, project, trial, at, wanted, place)
        then = lot.randint(looked[0], gone[0] + 2)
        new, free = second.state(then), loose(second.calls[:then])
        laid = os.path.join(self.work, 'h', 'laid')
        copy(new, laid)
        before, now = read(place, STORE), read(new, STORE)
        if STORE in free:
            some = lot.choice([before, now, now[:lot.randint(min(len(now), len(before)) // 2, len(now))] if before == now else now])
            put(some if lot.random() < .8 else mixed(lot, before, now), laid, STORE)
        if EPOCH in free and lot.random() < .5:
            put(read(place, EPOCH), laid, EPOCH)
        self.found['again'] = self.found.get('again', 0) + 1
        self.next_update(lot, project, trial, at, wanted, laid)
        shutil.rmtree(second.work)

    def after_user(self, lot, project, trial, at, wanted, place):
        """A user changes something first."""
        ways = ['option', 'init', 'rule']
        given_up = sorted(set(stops.files_of(trial.base)) - set(wanted) - set(project.sources))
        gone = [path for path in given_up if read(trial.state(at), path) is None]
        if gone:
            ways += ['own'] * 4
        if self.kind is AtRemoval:
            ways = ['own'] if gone else ['option']
        way = lot.choice(ways)
        self.found[way] = self.found.get(way, 0) + 1
        return getattr(self, 'user_' + way)(lot, project, trial, at, wanted, place, gone)

    def user_own(self, lot, project, trial, at, wanted, place, gone):
        """A file of the user's own stands at a path that was given up: he wrote it before the power was cut, and it is durable."""
        path = lot.choice(gone)
        put(b'of the user\n', place, path)
        self.next_update(lot, project, trial, at, {**wanted, path: b'of the user\n'}, place)

    def user_option(self, lot, project, trial, at, wanted, place, gone):
        """The option is taken out."""
        put(b'' if lot.random() < .5 else b'--no-sync\n', place, '.tup/options')
        self.next_update(lot, project, trial, at, wanted, place)

    def user_init(self, lot, project, trial, at, wanted, place, gone):
        """The store is removed, with all that isn't a source, and the project begins anew."""
        put(None, place, STORE)
        for path in stops.files_of(place):
            if path not in project.sources:
                put(None, place, path)
        begun = self.call(place, 'init')
        if begun.returncode or read(place, EPOCH) is not None:
            return self.tell(trial, at, 'init: ' + begun.stdout + begun.stderr)
        return self.next_update(lot, project, trial, at, wanted, place)

    def user_rule(self, lot, project, trial, at, wanted, place, gone):
        """A rule is dropped, with all that read what it makes. Its output may be one that the cut left torn: that has to go by hand."""
        if not project.rules:
            return self.next_update(lot, project, trial, at, wanted, place)
        dropped = {lot.choice(project.rules).output}
        for _ in project.rules:
            dropped |= {rule.output for rule in project.rules if dropped & set(rule.inputs)}
        sources = dict(project.sources)
        for folder in stops.FOLDERS:
            sources[folder + 'Tupfile'] = ''.join(rule.line() for rule in project.rules if rule.folder == folder and rule.output not in dropped)
            put(sources[folder + 'Tupfile'].encode(), place, folder + 'Tupfile')
        wanted = {path: content for path, content in wanted.items() if path not in dropped}
        wanted = {**wanted, **{path: content.encode() for path, content in sources.items()}}
        touched = set(stops.files_of(trial.state(at))) - set(sources)
        ended = self.call(place, 'upd')
        for _ in range(50):
            by_hand = re.search(r'^fault: (\S+) was changed by hand', ended.stdout, re.MULTILINE)
            if ended.returncode != 6 or not by_hand or by_hand.group(1) not in touched & dropped:
                break
            self.sixes += 1
            put(None, place, by_hand.group(1))
            ended = self.call(place, 'upd')
        return self.compare(sources, trial, at, wanted, place, ended)

    def tell(self, trial, at, why):
        self.wrong += 1
        call = trial.calls[at] if at < len(trial.calls) else None
        print('wrong: %s, seed %d, history %d, end %d, before call %d%s of %d, in %s\n    %s' % (
            self.way, self.seed, self.number, self.ends, at, call and ' (%s %s)' % (call.name, ' '.join(call.paths)) or '', len(trial.calls), self.work, why))


def mixed(lot, one, other):
    """Bytes of which each block of 512 is of one or of the other."""
    blocks = range(0, max(len(one), len(other)), 512)
    return b''.join(lot.choice([one, other])[at:at + 512] for at in blocks)


def main(words):
    if len(words) < 2 or words[0] not in ('cut', 'again', 'user', 'planted'):
        print(__doc__)
        return False
    if not shutil.which('strace') or subprocess.run(['strace', '-o', '/dev/null', 'true'], stderr=subprocess.DEVNULL).returncode:
        print('passed over: there is no strace, or it may not trace')
        return True
    program = os.path.abspath(words[1])
    if words[0] == 'planted':
        numbers = [int(word) for word in words[2:]] + [1, 200][len(words) - 2:]
        return all([is_found(program, kind, way, *numbers) for kind, way in PLANTED])
    numbers = [int(word) for word in words[2:]] + [1, 100][len(words) - 2:]
    return Player(program, *numbers, words[0]).play()


def is_found(program, kind, way, seed, count):
    """Whether a wrong design is found within so many ends."""
    player = Player(program, seed, count, way, kind)
    player.play()
    shutil.rmtree(player.work, ignore_errors=True)
    print('%s: %s' % (kind.__name__, 'found at end %d' % player.ends if player.wrong else 'NOT FOUND in %d ends' % player.ends))
    return player.wrong > 0


if __name__ == '__main__':
    sys.exit(0 if main(sys.argv[1:]) else 1)
