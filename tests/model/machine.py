"""The machine of an update, event by event, and a board driven by hand: a second reading of docs/, not of the code."""
from commands import Command, access, judged, outputs_of
from language import producers, show

SEATS = 16


class Machine:
    """What is pending and claimed, what the seats run, the files, what was bad, and why all stopped."""

    def __init__(self, rules, files, reach, keeps_going):
        self.rules, self.files, self.keeps_going = rules, dict(files), keeps_going
        self.pending, self.claimed, self.seats, self.bad, self.stopped = set(reach), set(), {}, {}, None
        self.waits, self.generated = producers(rules), outputs_of(rules)

    def is_ready(self, rule):
        return (rule in self.pending and rule not in self.claimed and not self.stopped
                and not self.waits[rule] & self.pending)

    def ready(self):
        return [rule for rule in range(len(self.rules)) if self.is_ready(rule)]

    def may_ask(self, seat, text):
        run = self.seats[seat]
        return access(self.rules[run['rule']], self.generated, run['asks'], text)

    def told(self, seat, path):
        return None if path in self.rules[self.seats[seat]['rule']]['outputs'] else self.files.get(path)

    def take(self, event):
        """Takes an event, and says whether it may happen; else nothing changes."""
        kind, seat = event[:2]
        if not 0 <= seat < SEATS:
            return False
        if kind == 'claim':
            return self.claim(seat, event[2])
        if kind == 'stop':
            return self.stop(seat, event[2])
        if seat not in self.seats:
            return False
        return {'ask': self.ask, 'deny': self.deny, 'finish': self.finish}[kind](seat, *event[2:])

    def claim(self, seat, rule):
        if seat in self.seats or not self.is_ready(rule):
            return False
        self.seats[seat] = {'rule': rule, 'asks': 0, 'denied': None}
        self.claimed.add(rule)
        return True

    def stop(self, seat, cause):
        if cause == 'bad':
            return False
        self.stopped = self.stopped or cause
        self.seats.pop(seat, None)
        return True

    def ask(self, seat, text, content):
        run = self.seats[seat]
        path, denied = self.may_ask(seat, text)
        if run['denied'] or denied or self.told(seat, path) != content:
            return False
        run['asks'] += 1
        return True

    def deny(self, seat, text, verdict):
        run = self.seats[seat]
        if run['denied'] or self.may_ask(seat, text)[1] != verdict:
            return False
        run['denied'] = verdict
        return True

    def finish(self, seat, verdict, files):
        run = self.seats[seat]
        outputs = self.rules[run['rule']]['outputs']
        if run['denied']:
            fits = verdict == run['denied'] and not files
        elif verdict == ('good',):
            fits = [path for path, _ in files] == outputs
        else:
            fits = verdict[0] in ('failed', 'write', 'unwritten') and verdict != ('failed', 0) and not files
        if not fits:
            return False
        del self.seats[seat]
        if verdict == ('good',):
            self.files.update(files)
            self.pending.remove(run['rule'])
        else:
            self.bad[run['rule']] = verdict
            if not self.keeps_going:
                self.stopped = self.stopped or 'bad'
        return True


def said(verdict):
    """A verdict in the words of the rows of a board."""
    words = {'read': b'reads', 'write': b'writes', 'failed': b'failed', 'unwritten': b'unwritten'}
    if verdict[0] not in words:
        return [verdict[0].encode()]
    of = {'failed': lambda: b'%d' % verdict[1], 'unwritten': lambda: show(verdict[1])}
    return [words[verdict[0]], of.get(verdict[0], lambda: verdict[1])()]


class Board:
    """Seats that claim rules and run their small commands; each order gives the words of its answer, or None."""

    def __init__(self, rules, files, reach, keeps_going):
        self.machine, self.events, self.answers = Machine(rules, files, reach, keeps_going), [], {}

    def happens(self, words, *event):
        assert self.machine.take(event)
        self.events += [event[0].encode(), b'%d' % event[1]] + words

    def claim(self, seat):
        if seat >= SEATS or seat in self.machine.seats:
            return None
        ready = self.machine.ready()
        if not ready:
            return [b'wait' if self.machine.seats and not self.machine.stopped else b'over']
        self.happens([b'%d' % ready[0]], 'claim', seat, ready[0])
        self.answers[seat] = []
        return [b'%d' % ready[0]]

    def step(self, seat):
        run = self.machine.seats.get(seat)
        if not run or run['denied']:
            return None
        rule = self.machine.rules[run['rule']]
        does = Command(rule['folder'], rule['text'], self.answers[seat]).next()
        if does[0] == 'end':
            verdict, files = judged(rule, *does[1:])
            return self.end(seat, verdict, files)
        path, denied = self.machine.may_ask(seat, does[1])
        if denied:
            self.happens(said(denied), 'deny', seat, does[1], denied)
            return said(denied)
        content = self.machine.told(seat, path)
        self.happens([does[1], b'absent' if content is None else b'there'], 'ask', seat, does[1], content)
        self.answers[seat].append(content)
        return [b'-' if content is None else content]

    def end(self, seat, verdict, files):
        self.happens(said(verdict) + [b'%d' % len(files)], 'finish', seat, verdict, files)
        return said(verdict)

    def work(self, seat):
        answer = self.step(seat)
        while answer and seat in self.machine.seats and not self.machine.seats[seat]['denied']:
            answer = self.step(seat)
        return answer

    def denied(self, seat):
        run = self.machine.seats.get(seat)
        return self.end(seat, run['denied'], []) if run and run['denied'] else None

    def all(self, seat):
        while True:
            answer = self.claim(seat)
            if answer in (None, [b'wait'], [b'over']):
                return answer
            self.work(seat)
            self.denied(seat)

    def drain(self, seat):
        self.all(seat)
        return [b'bad' if self.machine.bad else b'done']

    def stop(self, seat, cause):
        if seat in self.machine.seats or not self.machine.stopped:
            self.happens([cause.encode()], 'stop', seat, cause)
        return []
