"""Runs what README and docs/USING.md show at a terminal, and the SESSION of each folder of examples/language, over copies of
examples/, and compares what `tup` prints: `make examples`.

    examples.py PROGRAM

Lines of rules that don't need each other may come in any order, so lines are compared as a set, and the last one by itself. What
differs is printed, and the end is then 1. It is no part of the gate.
"""
import os
import re
import shutil
import subprocess
import sys
import tempfile

from promises import TOP, read


def blocks(book, title):
    """The indented blocks of a section, each as its lines."""
    part = read(book).split('\n' + title + '\n')[1].split('\n## ')[0]
    return [[line[4:] for line in block.splitlines()] for block in re.findall(r'(?:^    .*\n?)+', part, re.M)]


def session(lines):
    """Each command line of a session with what it prints."""
    steps = []
    for line in lines:
        if line.startswith('$ '):
            steps.append((line[2:], []))
        else:
            steps[-1][1].append(line)
    return steps


def printed(title):
    """What a section of USING shows of updates: its blocks that have a last line."""
    return [block for block in blocks('docs/USING.md', title) if block[-1].startswith('done: ')]


EDIT = 'echo "/* more */" >> inc/size.h; '


def sessions():
    """Each example, with the command lines over a copy of it and what each prints."""
    first, edited, removed = printed('## An example of three folders')
    (todo,), (explained,) = printed('## What an update would do'), printed('## Why a rule was run')
    begun = [('tup init', ['initialized']), ('tup', first)]
    yield 'hello', session(next(block for block in blocks('README.md', '## Ten lines at a terminal') if block[0].startswith('$ ')))
    for form in sorted(os.listdir(os.path.join(TOP, 'examples', 'language'))):
        if os.path.isdir(os.path.join(TOP, 'examples', 'language', form)):
            yield f'language/{form}', session(read('examples', 'language', form, 'SESSION').splitlines())
    yield 'tree', [*begun, (EDIT + 'tup', edited), ('rm src/Tupfile; tup', removed)]
    yield 'tree', [*begun, (EDIT + 'tup todo', todo)]
    yield 'tree', [*begun, (EDIT + 'tup --explain', explained)]


def differs(program, example, steps):
    """Runs the command lines one after another; whether one printed something else."""
    with tempfile.TemporaryDirectory() as work:
        folder = shutil.copytree(os.path.join(TOP, 'examples', example), os.path.join(work, example))
        for command, wanted in steps:
            path = os.path.dirname(program) + ':' + os.environ['PATH']
            ended = subprocess.run(['sh', '-c', command], cwd=folder, env={**os.environ, 'PATH': path}, capture_output=True, text=True)
            found = ended.stdout.splitlines()
            if ended.returncode or ended.stderr or sorted(found) != sorted(wanted) or found[-1:] != wanted[-1:]:
                print(f'{example}: {command}: exit {ended.returncode}', *found, ended.stderr, 'wanted:', *wanted, sep='\n    ')
                return True
    return False


def main(words):
    program = os.path.abspath(words[0])
    all_steps = list(sessions())
    if os.path.basename(program) != 'tup' or any([differs(program, *one) for one in all_steps]):
        return 1
    print(f'{sum(len(steps) for _, steps in all_steps)} command lines print what README, USING and examples/language show')
    return 0


if __name__ == '__main__':
    sys.exit(main(sys.argv[1:]))
