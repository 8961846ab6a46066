"""Holds the documents to the code: `make books`. What differs is printed, and the end is then 1.

- docs/PROOF.md has each clause of `tup` and of `history` and no others; each definition is in the file that its row names, and
  the theorems reach it.
- README's promises name clauses of these two functions. Each refusal of a public call has a clause.
- Each limit of docs/USING.md is a number of the definition that its row names, and the manual has no other numbers.
- Exit numbers and options are those of `tup --help` in USING and in the manual.
- Each file, crate, function in a file, target of make and link that a document names is there. Each target has its line of help.
- Each definition of specs/ has a comment, and each file of rows its line in the stdout of its program.
- docs/ARCHITECTURE.md and docs/GATE.md have each crate; docs/GLOSSARY.md has at most forty words, a line each.
- The completions in editors/ know each option and order of `tup --help`. The picture of docs/ is as `make picture` draws it.
- tests/README.md names each file of tests/, tools/ and bench/. CHANGELOG.md begins with the version of the program, and so does the tag of this
  commit, if it has one. README has less than 8,192 bytes.
"""
import glob
import os
import re
import subprocess
import sys

import picture
from promises import TOP, crates, definitions, functions, read
from reach import THEOREMS as REACHED
from reach import reached
from refusals import calls, unnamed

BOOKS = ['README.md', 'CONTRIBUTING.md', 'tests/README.md', 'bench/RESULTS.md'] + sorted('docs/' + name for name in os.listdir(os.path.join(TOP, 'docs')))
PAGES = [book for book in BOOKS if book.endswith('.md')]
THEOREMS = (('tup_top', 'call.rt', 'tup'), ('tup_history', 'life.rt', 'history'))
wrong = []


def check(is_right, book, text):
    if not is_right:
        wrong.append(f'{book}: {text}')


def section(book, title):
    """A part of a document, from its title to the next of that depth."""
    depth = title.split(' ')[0]
    return read(book).split('\n' + title + '\n')[1].split(f'\n{depth} ')[0]


def table(text):
    """The rows of the tables in a text, each as its cells, without heads."""
    rows = []
    for line in text.splitlines():
        if line.startswith('|---') or line.startswith('|--:'):
            rows.pop()
        elif line.startswith('|'):
            rows.append([cell.strip() for cell in line.strip('|').split('|')])
    return rows


def quoted(text):
    return re.findall(r'`([^`]+)`', text)


def defined(crate, file):
    """What a file of specs/ defines or passes on, or what one of src/ has as ghost members."""
    inside = os.path.join('crates', crate, *(('specs', file + '.antt') if '/' not in file else (file,)))
    if not os.path.exists(os.path.join(TOP, inside)):
        return set()
    text = read(inside)
    names = {name for name, _ in definitions(crate, file)} if '/' not in file else set()
    passed = re.findall(r'[\w◌>=]+', ' '.join(re.findall(r'^pub use .*$', text, re.M)))
    return names | set(passed) | set(re.findall(r'ghost (\w+)', text))


def places(cell):
    """The crates and files of a cell like `tup_graph, Kept; tup_site, World`."""
    crate = ''
    for word in re.split(r'[;,]', cell.replace('`', '')):
        word = word.strip()
        if word.startswith('tup_'):
            crate = word
        elif word:
            yield crate, word


def clauses(crate, file, function):
    return next(set(one[4]) for one in functions(read('crates', crate, 'src', file)) if one[2] == function)


def cited(text, function):
    """The definitions of the repository that the contract of a function cites, by the `ghost use` lines of its file."""
    contract = text.split(f'pub fn {function}<')[1].split('\n{\n')[0].split('requires ')[1]
    contract = re.sub(r'//.*', '', contract)
    words, names = set(re.findall(r'\w+', contract)), set()
    for passed in re.findall(r'^ghost use Rattle\.tup_\w+\.specs\.(?!declared)\w+\.\{([^}]*)\};', text, re.M):
        for one in passed.split(','):
            name, _, other = one.strip().partition(' as ')
            if (other or name) in words:
                names.add(name)
    return names


def theorem():
    for crate, file, function in THEOREMS:
        part = section('docs/PROOF.md', f'## The theorem of `{function}`')
        told = {name for bold in re.findall(r'^- \*\*(.*?)\*\*', part, re.M) for name in quoted(bold)}
        has = clauses(crate, file, function)
        for name in sorted(has ^ told):
            check(False, 'docs/PROOF.md', f'clause {name} of {function} is ' + ('missing' if name in has else 'not in the code'))
    # What the built-in commands mean is reached by the runner's `next`, and the exit number by `main`.
    comes_to = {one[2] for function in REACHED for one in reached(function)} | {'mini_next', 'does', 'exit_of'}
    for name, where, *_ in (row for row in table(section('docs/PROOF.md', '## What you have to believe')) if len(row) == 3):
        for one in quoted(name):
            check(any(one in defined(*place) for place in places(where)), 'docs/PROOF.md', f'{one} is not in {where}')
            check(one in comes_to, 'docs/PROOF.md', f'{one} is reached by no clause')
    listed = {one for row in table(section('docs/PROOF.md', '## What you have to believe')) for one in quoted(row[0])}
    for crate, file, function in THEOREMS:
        for name in sorted(cited(read('crates', crate, 'src', file), function) - listed):
            check(False, 'docs/PROOF.md', f'no row for {name}, which {function} cites')
    for crate in sorted({crate for crate, _ in unnamed(calls())}):
        check(False, 'docs/PROOF.md', f'{crate} has refusals without a clause')
    known = set().union(*(clauses(*one) for one in THEOREMS))
    for name in re.findall(r'\(`(\w+)`', section('README.md', '## What is proved, tested, trusted')):
        check(name in known or name == 'compact', 'README.md', f'{name} is no clause')


def limits():
    numbers = set()
    for what, number, where in table(section('docs/USING.md', '## Limits')):
        numbers.add(number)
        if where == '':
            continue
        crate, file, name = re.fullmatch(r'`(\w+)`, (\w+): `(\w+)`', where).groups()
        text = read('crates', crate, 'specs', file + '.antt')
        body = re.search(rf'^ *(?:abbrev pub|pub record|unfoldable pub|pub abbrev) {name}\b.*?(?=\n\n|\Z)', text, re.M | re.S)
        held = re.findall(r'\d+', body.group()) if body else []
        one_less = str(int(number.replace(',', '')) - 1)
        check(number.replace(',', '') in held or one_less in held, 'docs/USING.md', f'{number} ({what}) is not in {where}')
    for number in re.findall(r'\d{1,3}(?:,\d{3})+', read('docs/tup.1')):
        check(number in numbers, 'docs/tup.1', f'{number} is no limit of docs/USING.md')


def words():
    code = read('crates/tup/src/main.rt').replace('\\-', '-')
    told = code.split('const HELP: &str = "')[1].split('";')[0]
    manual, using = read('docs/tup.1').replace('\\-', '-'), read('docs/USING.md')
    for option in set(re.findall(r'(?<![\w-])--?[a-z][a-z-]*', told)):
        check(option in manual, 'docs/tup.1', f'nothing of {option}')
        check(option in using, 'docs/USING.md', f'nothing of {option}')
    for completion in ('editors/bash/tup', 'editors/zsh/_tup'):
        text = read(completion)
        for word in set(re.findall(r'(?<![\w-])--?[a-z][a-z-]*', told)) | set(re.findall(r'^  tup ([a-z]+)', told, re.M)):
            check(re.search(rf'(?<![\w-]){word}(?![\w-])', text), completion, f'nothing of {word}')
    exits = set(re.findall(r'\b(\d+) [a-z]', told.split('Exit numbers:')[1]))
    check(exits == {row[0] for row in table(section('docs/USING.md', '## Lines and exit numbers')) if row[0].isdigit()},
          'docs/USING.md', 'other exit numbers than --help')
    check(exits == set(re.findall(r'\.TP\n\.B (\d+)\n', manual)), 'docs/tup.1', 'other exit numbers than --help')


def anchors(book):
    titles = re.findall(r'^#+ (.*)$', read(book), re.M)
    return {re.sub(r'[^\w\- ]', '', title.lower()).replace(' ', '-') for title in titles}


def links():
    for book in PAGES:
        for target in re.findall(r'\]\(([^)]+)\)', read(book)):
            if '://' in target:
                continue
            file, _, anchor = target.partition('#')
            file = os.path.normpath(os.path.join(os.path.dirname(book), file)) if file else book
            check(os.path.exists(os.path.join(TOP, file)), book, f'no {target}')
            if anchor and os.path.exists(os.path.join(TOP, file)):
                check(anchor in anchors(file), book, f'no {target}')


def files():
    """The files that a document names: from the top, or in a crate that its paragraph names."""
    for book in PAGES:
        for paragraph in re.split(r'\n\n|\n(?=[-|]|\d+\. )', read(book)):
            inside = {word for word in re.findall(r'\btup\w*', paragraph) if word in crates()}
            for word in re.findall(r'\btup_\w+', paragraph):
                check(word in crates() or word in ('tup_law_', 'tup_x', 'tup_WORD_rows', 'tup_config'), book, f'no crate {word}')
            for word in quoted(paragraph):
                if re.search('[A-Z]{4}|tup_x', word):
                    continue
                if re.fullmatch(r'(crates|tests|tools|bench|docs|examples|edits|editors|packaging)/[\w./-]*', word):
                    check(os.path.exists(os.path.join(TOP, word)), book, f'no {word}')
                elif re.fullmatch(r'tup\w*/(src|specs|data|must-fail)/[\w./-]+', word):
                    check(os.path.exists(os.path.join(TOP, 'crates', word)), book, f'no {word}')
                elif re.fullmatch(r'(src|specs)/[\w-]+\.(rt|antt)', word) and inside:
                    check(any(os.path.exists(os.path.join(TOP, 'crates', crate, word)) for crate in inside), book,
                          f'no {word} in {", ".join(sorted(inside))}')


def steps():
    """In ARCHITECTURE each function or type that stands before files in brackets is in one of them."""
    for name, names in re.findall(r'`(\w+)`\s+\(((?:`tup\w*/src/[\w-]+\.rt`(?:,\s+)?)+)', read('docs/ARCHITECTURE.md')):
        held = ''.join(read('crates', file) for file in quoted(names) if os.path.exists(os.path.join(TOP, 'crates', file)))
        check(name in crates() or re.search(rf'\b(?:fn|struct|enum|trait) {name}\b', held), 'docs/ARCHITECTURE.md',
              f'no {name} in {names}')


def targets():
    makefile = read('Makefile')
    helped = set(re.findall(r'^([\w-]+):[^#\n]*## ', makefile, re.M))
    has = set(re.search(r'^\.PHONY: (.*)$', makefile, re.M).group(1).split())
    for name in sorted(has - helped - {'runners'}):
        check(False, 'Makefile', f'make help says nothing of {name}')
    for book in PAGES:
        for name in re.findall(r'(?:`|^    )make (\w[\w-]*)', read(book), re.M):
            check(name in has, book, f'no make {name}')


def lists():
    shown = read('docs/ARCHITECTURE.md').split('\n## ')[0]
    gate = quoted('\n'.join(row[0] for row in table(read('docs/GATE.md'))))
    for crate in crates():
        check(crate in quoted(shown), 'docs/ARCHITECTURE.md', f'{crate} is in no storey')
        check(crate in gate, 'docs/GATE.md', f'{crate} is not in the price list')
    check(picture.main(['check']) == 0, picture.PICTURE, 'it is of other crates: make picture')
    rows = table(read('docs/GLOSSARY.md'))
    check(len(rows) <= 40, 'docs/GLOSSARY.md', f'{len(rows)} words')
    for line in read('docs/GLOSSARY.md').splitlines():
        check(len(line) <= 132 or not line.startswith('|'), 'docs/GLOSSARY.md', f'{len(line)} characters: {line[:30]}')
    told = quoted(read('tests/README.md'))
    for folder in ('tests', 'tests/gate', 'tests/faults', 'tests/shell', 'tools', 'bench'):
        for name in sorted(os.listdir(os.path.join(TOP, folder))):
            is_told = {name, name + '/', f'tests/{name}/'} & set(told)
            check(is_told or name in ('__pycache__', 'README.md', 'RESULTS.md'), 'tests/README.md', f'nothing of {folder}/{name}')


def comments():
    for path in sorted(glob.glob(os.path.join(TOP, 'crates', '*', 'specs', '*.antt'))):
        crate, _, file = os.path.relpath(path, os.path.join(TOP, 'crates')).split(os.sep)
        for name, comment in definitions(crate, file[:-5]):
            check(comment, f'crates/{crate}/specs/{file}', f'{name} has no comment')


def rows():
    for path in sorted(glob.glob(os.path.join(TOP, 'crates', '*', 'data', '*.rows'))):
        crate, _, file = os.path.relpath(path, os.path.join(TOP, 'crates')).split(os.sep)
        lines = read('crates', crate, 'stdout').splitlines()
        check(any(re.fullmatch(rf'{re.escape(file)}: \d+ differ', line) for line in lines), f'crates/{crate}/data/{file}',
              'no line of stdout says that it was tried')


def version():
    is_now = re.search(r'^const VERSION: &str = "(.*)";', read('crates/tup/src/main.rt'), re.M).group(1)
    first = re.search(r'^## (.*)$', read('CHANGELOG.md'), re.M).group(1)
    check(first == is_now, 'CHANGELOG.md', f'it begins with {first}, and the program is {is_now}')
    tags = subprocess.run(['git', '-C', TOP, 'tag', '--points-at', 'HEAD', 'v*'], capture_output=True, text=True).stdout.split()
    check(not tags or 'v' + is_now in tags, 'Makefile', f'this commit has the tag {tags}, and the program is {is_now}')
    below = read('README.md')
    check(len(below.encode()) < 8192, 'README.md', f'{len(below.encode())} bytes')
    many = re.search(r'the (\d+) crates below it', below)
    check(many is None or int(many.group(1)) == len(needed('tup')), 'README.md', f'{len(needed("tup"))} crates are below tup')


def needed(crate):
    """The crates of the repository below one."""
    stands_on = {}
    for line in read('crates.txt').splitlines():
        name, _, below = line.partition(':')
        stands_on[name.strip()] = [one for one in below.split() if one.startswith('tup')]
    found, left = set(), [crate]
    while left:
        for one in stands_on.get(left.pop(), ()):
            if one not in found:
                found.add(one)
                left.append(one)
    return found


if __name__ == '__main__':
    for part in (theorem, limits, words, links, files, steps, targets, lists, comments, rows, version):
        part()
    for line in wrong:
        print(line, file=sys.stderr)
    sys.exit(1 if wrong else 0)
