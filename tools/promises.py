"""What every crate promises, printed from its sources: `make promises`.

For each crate, in the order of crates.txt, the first sentence of its lib.rt; then, of what it gives to the crates above it,
each function and method with the first sentence of its comment and the names of its clauses. A clause without a name is
printed as `ensures`. With the name of a crate, that crate alone.

`make definitions OF=WORD` prints definitions of specs/: of a crate all with their comments, of a name each with its comment and
its text; and each clause of that name.
"""
import os
import re
import signal
import sys
import textwrap

TOP = os.path.dirname(os.path.dirname(os.path.abspath(__file__)))
FUNCTION = re.compile(r'^( *)(pub )?(?:const )?fn (\w+)')
BLOCK = re.compile(r'^(?:pub )?(?:impl|trait)\b(.*)$')
CLAUSE = re.compile(r'^ *ensures(?: (\w+))? *\{')
DEFINITION = re.compile(r'^ *(?:pub )?(?:abbrev|record|data|unfoldable|opaque) (?:pub )?([^\s:({]+)(?=[\s:(]|$)(?! \{(?: *\w+ =|$))')


def read(*parts):
    with open(os.path.join(TOP, *parts), encoding='utf-8') as file:
        return file.read()


def crates():
    lines = [line for line in read('crates.txt').splitlines() if line and not line.startswith('#')]
    return [line.split(':')[0].strip() for line in lines if line.strip()]


def first_sentence(comment):
    """Of a comment's first paragraph what comes up to the first full stop."""
    paragraph = ' '.join(comment).split('  ')[0]
    end = re.search(r'\.(?= [A-Z`]|$)', paragraph)
    return paragraph[:end.end()] if end else paragraph


def short_name(head):
    """What an implementation or a trait is called: `impl<S: Site> Shared for Alone<S>` as `Shared for Alone`."""
    head = head.split('{')[0].split(' where ')[0]
    while re.search(r'<[^<>]*>', head):
        head = re.sub(r'<[^<>]*>', '', head)
    return head.split(':')[0].strip()


def functions(text):
    """The functions of a file: where each belongs, whether it is public, its name, its comment and its clauses."""
    found, comment, block, public = [], [], '', False
    for line in text.splitlines():
        bare = line.strip()
        if bare.startswith('///'):
            comment.append(bare[3:].strip())
            continue
        function, opens, clause = FUNCTION.match(line), BLOCK.match(line), CLAUSE.match(line)
        if function:
            shown = bool(function.group(2)) or bool(function.group(1)) and public
            found.append((block if function.group(1) else '', shown, function.group(3), comment, []))
        elif clause and found:
            found[-1][4].append(clause.group(1) or 'ensures')
        elif opens:
            block = short_name(opens.group(1))
            public = line.startswith('pub trait') or ' for ' in block
        elif line.startswith('}'):
            block, public = '', False
        if bare and not bare.startswith(('#', 'ensures', 'requires')):
            comment = []
    return found


def sources(crate):
    folder = os.path.join(TOP, 'crates', crate, 'src')
    names = sorted(os.listdir(folder))
    return [name for name in names if name.endswith('.rt')]


def root_of(crate):
    return read('crates', crate, 'src', 'lib.rt' if 'lib.rt' in sources(crate) else 'main.rt')


def exported(root):
    """The names that a crate gives to those above it."""
    return set(re.findall(r'\w+', ' '.join(re.findall(r'^pub use ([^;]*);', root, re.M))))


def say(text, indent):
    print(textwrap.fill(text, 110, initial_indent=indent, subsequent_indent=indent, break_long_words=False,
                        break_on_hyphens=False))


def show(crate):
    """Prints what a crate promises."""
    root = root_of(crate)
    names = exported(root)
    comment = [line[3:].strip() for line in root.splitlines() if line.startswith('//!')]
    say(f'{crate}: {first_sentence(comment)}', '')
    for name in sources(crate):
        for block, public, function, comment, clauses in functions(read('crates', crate, 'src', name)):
            if not public or not (clauses or comment) or not names & set(re.findall(r'\w+', block or function)):
                continue
            if ' for ' in block and not clauses:
                continue
            print(f'  {block + ": " if block else ""}{function} (src/{name})')
            if comment:
                say(first_sentence(comment), '      ')
            if clauses:
                say('clauses: ' + ', '.join(clauses), '      ')
    print()


def defined(crate, file):
    """The definitions in a file of specs/, in their order, each with its comment and the lines of its text."""
    found, comment, body = [], [], None
    for line in read('crates', crate, 'specs', file + '.antt').splitlines():
        bare = line.strip()
        if bare.startswith('--'):
            comment = [] if bare.startswith('-- ----') else [*comment, bare[2:].strip()]
        elif DEFINITION.match(line):
            body = [line]
            found.append((DEFINITION.match(line).group(1), ' '.join(comment), body))
            comment = []
        elif not bare:
            comment, body = [], None
        elif not bare.startswith('infix'):
            comment = []
            if body is not None:
                body.append(line)
    return found


def definitions(crate, file):
    """The definitions in a file of specs/, in their order, each with its comment. Members of a `module _` are indented."""
    return [(name, comment) for name, comment, _ in defined(crate, file)]


def show_definitions(word):
    """Prints the definitions of a crate, or those of a name with their texts; whether there are any."""
    some = False
    for crate in [word] if word in crates() else crates():
        folder = os.path.join(TOP, 'crates', crate, 'specs')
        for file in sorted(os.listdir(folder)) if os.path.isdir(folder) else ():
            if not file.endswith('.antt'):
                continue
            for name, comment, body in defined(crate, file[:-5]):
                if word in (crate, name):
                    some = True
                    print(f'{name} (crates/{crate}/specs/{file})')
                    if comment:
                        say(comment, '    ')
                    if word == name:
                        print(textwrap.indent(textwrap.dedent('\n'.join(body)), '        '))
    return some


def show_clauses(word):
    """Prints each public function that has a clause of this name; whether there are any."""
    some = False
    for crate in crates():
        names = exported(root_of(crate))
        for file in sources(crate):
            for block, public, function, _, clauses in functions(read('crates', crate, 'src', file)):
                if public and word in clauses and names & set(re.findall(r'\w+', block or function)):
                    some = True
                    print(f'clause {word} of {block + ": " if block else ""}{function} (crates/{crate}/src/{file})')
    return some


def main(words):
    if words[:1] == ['definitions']:
        if len(words) == 2 and any([show_definitions(words[1]), show_clauses(words[1])]):
            return 0
        print('make definitions OF=WORD: a crate, or the name of a definition or of a clause', file=sys.stderr)
        return 1
    unknown = [word for word in words if word not in crates()]
    if unknown:
        print(f'no crate {unknown[0]}', file=sys.stderr)
        return 1
    for crate in words or crates():
        show(crate)
    return 0


if __name__ == '__main__':
    signal.signal(signal.SIGPIPE, signal.SIG_DFL)
    sys.exit(main(sys.argv[1:]))
