"""Rows drawn by lot for the programs that run commands, take events and drive boards, each with the model's answer."""
from commands import Command, clean_build
from language import show
from machine import Board, Machine
from random_rows import path_of, row

WORDS = (['a', 'b', './a', '../a', 'src/a', 'h', 'd/h', '../src/t', 't', 'u'] * 3
         + ['..', '', '/x', './t', '../src/./u', '>', '.git'])
CONTENTS = [None, b'', b'x', b'y\n', b'#include "h"\n', b'#include "d/h"\nq\n', b'z\n#include "../a"',
            b'#include "h"\r\n', b'#include "t"\n#include "u"\n', b'#include ""\n', b'#include "a"b"\n',
            b'#include "h" \n', b'#include "h', b'\n\n#include "h"\n\n', b'#include "\xff"\n']


def paths_word(paths):
    return b' '.join(show(path) for path in paths)


def rule_words(rule):
    return [rule['text'], paths_word(rule['inputs']), paths_word(rule['order']), paths_word(rule['outputs'])]


def tree_words(tree):
    return [word for path in sorted(tree) for word in (show(path), tree[path])]


# ---- commands

def small_step(lot):
    name = lot.choice(['cp', 'cp', 'cat', 'cat', 'echo', 'incl', 'incl', 'ifexists', 'fail', 'nope', '', 'cp a'])
    most = {'cp': 2, 'cat': lot.randint(0, 3), 'echo': lot.randint(0, 2), 'incl': 2, 'ifexists': 3, 'fail': 1}
    words = [lot.choice(WORDS) for _ in range(most.get(name, 0) + lot.choice([0] * 18 + [-1, 1]))]
    if name == 'fail':
        words = [lot.choice(['1', '0', '255', '256', '03', 'x', '7']) for _ in words]
    if name in ('cat', 'echo'):
        words += ['>', lot.choice(WORDS)]
    if lot.random() < .05:
        words.insert(lot.randint(0, len(words)), '>')
    return lot.choice([' ', ' ', '  ']).join([name] + words)


def small_command_rows(lot, count):
    for _ in range(count):
        folder = lot.choice([(), (b'src',), (b'src', b'd')])
        steps = [small_step(lot) for _ in range(lot.choice([1, 1, 2, 2, 3, 4]))]
        text = lot.choice([' && ', ' && ', '  &&  ']).join(steps).encode()
        answers, asked = [], []
        does = Command(folder, text, answers).next()
        while does[0] == 'ask' and lot.random() < .93 and len(answers) < 40:
            asked += [does[1], lot.choice(CONTENTS)]
            answers.append(asked[-1])
            does = Command(folder, text, answers).next()
        answer = ['asks', does[1]]
        if does[0] == 'end':
            answer = ['ends', str(does[1])] + [word for write in does[2] for word in write]
        yield row('run', [show(folder), text] + [b'-' if word is None else word for word in asked], answer)


def drawn_rule(lot, folder, outputs, inputs, order, others):
    """A rule whose command mostly writes its outputs and reads its inputs."""
    way = lambda path: b'/'.join([b'..'] * len(folder) + list(path)).decode()
    read = lambda: way(lot.choice(inputs if inputs and lot.random() < .8 else others))
    write = lambda: way(lot.choice(outputs if outputs and lot.random() < .92 else others))
    forms = [lambda: 'cp %s %s' % (read(), write()), lambda: 'cat %s %s > %s' % (read(), read(), write()),
             lambda: 'cat > ' + write(), lambda: 'ifexists %s %s %s' % (read(), read(), write()),
             lambda: 'incl %s %s' % (read(), write()), lambda: 'echo x > ' + write(),
             lambda: 'fail %d' % lot.randint(0, 3)]
    steps = [lot.choice(forms)() for _ in range(lot.choice([0, 1, 1, 2]))]
    steps += ['echo %d > %s' % (lot.randint(0, 9), way(path)) for path in outputs if lot.random() < .8]
    return {'folder': folder, 'text': ' && '.join(steps).encode(), 'inputs': inputs, 'order': order, 'outputs': outputs}


def clean_build_rows(lot, count):
    files = [(name.encode(),) for name in 'abcdef']
    draw = lambda counts: [lot.choice(files) for _ in range(lot.choice(counts))]
    for _ in range(count):
        free, rules = lot.sample(files[1:], 5), []
        for _ in range(lot.randint(0, 5)):
            outputs = [free.pop() for _ in range(min(len(free), lot.choice([0, 1, 1, 1, 2])))]
            rules.append(drawn_rule(lot, (), outputs, draw([0, 1, 2]), draw([0, 0, 1]), files))
        tree, verdicts, _ = clean_build(rules, {(b'a',): b'x'})
        given = [verdict[0] if verdict else '-' for verdict in verdicts]
        yield row('build', [word for rule in rules for word in rule_words(rule)], given + tree_words(tree))


# ---- the machine

FILES = {'inc/a.h': b'A', 'lib/a.c': b'a', 'src/m.c': b'm', 'src/n.c': b'n'}
RULES = [('lib', 'l0', 'lib/a.c', '', 'lib/a.o'), ('src', 'm0', 'src/m.c', '', 'src/m.o src/m.d'),
         ('src', 'n0', 'src/n.c', 'lib/a.o', 'src/n.o'), ('.', 'j0', 'lib/a.o src/m.o src/n.o', '', 'app'),
         ('.', 'x0', 'app', '', 'x'), ('.', 'y0', 'x', '', 'y'), ('inc', 'h0', '', '', 'inc/b.h'),
         ('src', 'p0', 'src/m.d', 'inc/b.h', 'src/p.o'), ('.', 'z0', 'src/p.o', 'y', 'z'),
         ('lib', 'nothing', 'lib/a.c', '', '')]
TEXTS = ['a.c', '../lib/a.o', '../inc/a.h', 'm.d', 'n.o', 'app', 'x', '../inc/b.h', '../src/m.o', 'none', '../../q', '',
         'lib/a.o', 'src/m.o', 'y', 'src/p.o', 'm.c', 'n.c', 'a.o', 'm.o', 'b.h', 'p.o', 'z']
BAD_ENDS = [('failed', 3), ('write', b'q'), ('unwritten', (b'app',)), ('failed', 0), ('read', b'q'), ('asks',)]


def machine_rule(folder, text, *files):
    inputs, order, outputs = ([path_of(word) for word in words.split()] for words in files)
    return {'folder': () if folder == '.' else path_of(folder), 'text': text.encode(), 'inputs': inputs, 'order': order,
            'outputs': outputs}


def machine_rows(lot, count):
    yield from (row('source', [path, content]) for path, content in FILES.items())
    yield from (row('rule', words) for words in RULES)
    rules, files = [machine_rule(*words) for words in RULES], {path_of(path): FILES[path] for path in FILES}
    for _ in range(count):
        reach, mode = drawn_plan(lot, rules)
        machine, words, answer = Machine(rules, files, reach, mode == 'keep'), [], 'all'
        for number in range(1, lot.randint(1, 25)):
            event = likely_event(lot, machine)
            words += [';'] + event_words(event)
            if not machine.take(event):
                answer = str(number)
                break
        plan = [' '.join(map(str, reach)), mode]
        yield row('run', plan + words, [answer] + [str(rule) for rule in machine.ready()])


def drawn_plan(lot, rules):
    """The places of the rules to be run, and whether the others go on behind a bad one."""
    count = lot.choice([len(rules), lot.randint(0, len(rules))])
    return sorted(lot.sample(range(len(rules)), count)), lot.choice(['keep', 'stop'])


def is_enabled(machine, event):
    other = Machine(machine.rules, machine.files, machine.pending, machine.keeps_going)
    other.claimed, other.stopped = set(machine.claimed), machine.stopped
    other.seats = {seat: dict(run) for seat, run in machine.seats.items()}
    return other.take(event)


def likely_event(lot, machine):
    """An event that mostly may happen."""
    for _ in range(6):
        event = drawn_event(lot, machine)
        if is_enabled(machine, event) or lot.random() < .012:
            break
    return event


def event_words(event):
    kind, seat = event[:2]
    if kind in ('claim', 'stop'):
        rest = [str(event[2])]
    elif kind == 'ask':
        rest = [event[2], b'-' if event[3] is None else event[3]]
    elif kind == 'deny':
        rest = [event[2]] + verdict_words(event[3])
    else:
        rest = verdict_words(event[2]) + [word for path, content in event[3] for word in (show(path), content)]
    return [kind, str(seat)] + rest


def verdict_words(verdict):
    of = verdict[1] if len(verdict) > 1 else b'-'
    return [verdict[0], show(of) if isinstance(of, tuple) else str(of) if isinstance(of, int) else of]


def drawn_event(lot, machine):
    seat, drawn = lot.choice([0, 0, 0, 1, 1, 2, 15, 7, 16]), lot.random()
    run = machine.seats.get(seat)
    if drawn < .06:
        return 'stop', seat, lot.choice(['site', 'full', 'run', 'memory', 'bad'])
    if not run or drawn < .1:
        return 'claim', seat, lot.choice(machine.ready() or [lot.randint(0, 11)])
    if run['denied'] and lot.random() < .9:
        return 'finish', seat, run['denied'], []
    if drawn < .55:
        return drawn_ask(lot, machine, seat)
    if drawn < .85:
        files = [(path, lot.choice([b'w', b'v', b''])) for path in machine.rules[run['rule']]['outputs']]
        return 'finish', seat, ('good',), lot.choice([files] * 18 + [files[1:], files + [((b'q',), b'w')]])
    ends = [('finish', seat, verdict, []) for verdict in BAD_ENDS]
    return lot.choice(ends + [('finish', seat, ('failed', 2), [((b'app',), b'w')])])


def drawn_ask(lot, machine, seat):
    text = lot.choice(TEXTS).encode()
    path, denied = machine.may_ask(seat, text)
    if denied and lot.random() < .7:
        return 'deny', seat, text, denied
    if path is None or lot.random() < .05:
        return 'ask', seat, text, lot.choice([b'w', None, b'a'])
    return 'ask', seat, text, machine.told(seat, path)


# ---- boards

def board_rows(lot, count):
    for _ in range(count):
        yield row('anew')
        contents = [b'1', b'', b'#include "h"\n', b'#include "../h"\n']
        files = {path_of(path): lot.choice(contents) for path in ['x', 'a/y', 'b/z', 'b/s/w', 'h'] if lot.random() < .7}
        rules = board_rules(lot, files)
        yield from (row('source', [show(path), content]) for path, content in files.items())
        yield from (row('rule', [show(rule['folder'])] + rule_words(rule)) for rule in rules)
        for _ in range(10):
            yield from driven_rows(lot, rules, files)


def board_rules(lot, files):
    """Rules in the order of their folders, of which each takes files and outputs of rules before it."""
    folders = sorted(lot.sample([(), (b'a',), (b'b',), (b'b', b's')], lot.randint(1, 3)))
    places = [folder for folder in folders for _ in range(lot.randint(1, 3))]
    names = [lot.choice([[b'o'], [b'o', b'e']]) for _ in places]
    made = [[folder + (b'%s%d' % (name, number),) for name in names[number]] for number, folder in enumerate(places)]
    others = [path for outputs in made for path in outputs] + list(files) + [(b'none',)]
    rules = []
    for number, folder in enumerate(places):
        before = [path for outputs in made[:number] for path in outputs] + list(files)
        draw = lambda most: [lot.choice(before) for _ in range(lot.randint(0, most))] if before else []
        rules.append(drawn_rule(lot, folder, made[number], draw(3), draw(1), others))
    return rules


def driven_rows(lot, rules, files):
    reach, mode = drawn_plan(lot, rules)
    board = Board(rules, files, reach, mode == 'keep')
    words, answers = [' '.join(map(str, reach)), mode, '-'], []
    orders = [('drain', 0)] if lot.random() < .1 else (drawn_order(lot, board) for _ in range(lot.randint(1, 18)))
    for name, seat, *cause in orders:
        words += [';', name, str(seat)] + cause
        answer = getattr(board, name)(seat, *cause)
        answers += [b'no'] if answer is None else answer
    machine = board.machine
    yield row('run', words, answers)
    yield row('files', words, tree_words(machine.files))
    yield row('flags', words, ['fresh', machine.stopped or '-'] + [str(rule) for rule in sorted(machine.pending)])
    yield row('events', words, board.events)


def drawn_order(lot, board):
    seat = lot.choice([0, 0, 1, 2, 15])
    run = board.machine.seats.get(seat)
    if not run:
        likely = ['claim', 'claim', 'claim', 'all']
    else:
        likely = ['denied', 'denied', 'stop'] if run['denied'] else ['step', 'step', 'work']
    name = lot.choice([lot.choice(likely)] * 40 + ['stop', 'denied', 'step', 'claim'])
    return (name, seat, lot.choice(['run', 'memory'])) if name == 'stop' else (name, seat)
