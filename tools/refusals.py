"""The refusals of every public call, each with the clause that says its cause: `make refusals`.

For each crate, in the order of crates.txt, each function and method that it gives to the crates above it and that answers a
`Result`, or a struct with a status; then each variant of its fault, with the names of up to three clauses that speak of it: first
those with `cause` and the like in their names, then the nearest. A clause speaks of a variant if it, or a definition of specs/ that
it cites, or one that this cites, and so on, names it; the number after its name counts the definitions between. Where none names it,
but one says of each refusal which it is, that clause comes after `of each`. An implementation has the clauses of its trait.
`Memory` is left out, as each call may answer it, and so is `Done`. So are the crates of rows, which promise nothing.

At the end come the refusals of which no clause speaks; with the word `open` these alone. A clause that names a variant may still
say too little: this finds what was forgotten, no more.
"""
import os
import re
import sys

from promises import BLOCK, CLAUSE, FUNCTION, crates, exported, read, root_of, say, short_name, sources

FREE = {'Memory', 'Done'}
# What a clause that says of each refusal which it is looks like.
WHOLE = re.compile(r'(?<!→ )\b(?:MatchResult|GivesUnless|IfErr) result\b|(?<!→ )\bOnErr result \(result ≡|\bresult ≡ (?!Err |Ok \()'
                   r'|^ *ensures(?: \w+)? \{ \(?result ≡ (?:Ok|Err)(?!.*→)|\(Err (?:\([a-z]\w*\)|[a-z]\w*)\) = ', re.M)
OF_RESULT = r'(?<!→ )(?<![\w.])%s\b[^()→]*(?:\([^()]*\)[^()→]*)*\bresult\b'
WORD = re.compile(r'[\w◌≡≤<>∷]+(?:\.\w+)*')
DEFINES = re.compile(r'^(?:pub |(?= *(?:abbrev|record|data|opaque|unfoldable)))\s*(?:(?:pub|abbrev|record|data|opaque|unfoldable|irrelevant)\s+)*([^\s:({]+)')


def uses(text):
    """The names that a file takes from elsewhere: of each, the module that it comes from and its name there."""
    found = {}
    for module, names in re.findall(r'^ *(?:ghost |pub )?use Rattle\.([\w.]+)\.\{([^}]*)\}', text, re.M):
        for name in names.split(','):
            own, _, other = name.strip().partition(' as ')
            found[(other or own).strip()] = (module, own.strip())
    for module, other in re.findall(r'^ *(?:ghost |pub )?use Rattle\.([\w.]+) as (\w+)', text, re.M):
        found[other] = (module, None)
    return found


class Specs:
    """The definitions of all crates: what each names."""

    def __init__(self, faults):
        self.files, self.faults, self.cites = {}, faults, {}

    def file(self, module):
        """The definitions of a module `tup_x.specs.Y`, by name, and what it takes from elsewhere."""
        if module not in self.files:
            crate, _, rest = module.partition('.specs.')
            try:
                text = read('crates', crate, 'specs', rest.replace('.', '/') + '.antt')
            except OSError:
                text = ''
            self.files[module] = (definitions(text), uses(text))
        return self.files[module]

    def cited(self, module, names, text):
        """What a text names, by the uses of its file: variants as `tup_x.Fault.Variant`, definitions with their modules."""
        variants, others = set(), set()
        for word in set(WORD.findall(text)):
            head, _, tail = word.partition('.')
            source, own = names.get(head, (module, head))
            crate = source.split('.')[0]
            if source.endswith('.TheVariants'):
                variants.add('%s.%s.%s' % (crate, source.split('.')[-2], own or tail))
            elif tail and self.faults.of(crate, own):
                variants.add('%s.%s' % (self.faults.of(crate, own), tail))
            elif '.declared.' not in source:
                others.add((source, tail if own is None else own))
        return variants, others

    def cited_by(self, module, name):
        """What a definition names; nothing where there is none of that name."""
        if (module, name) not in self.cites:
            known, taken = self.file(module) if '.specs.' in module else ({}, {})
            self.cites[module, name] = self.cited(module, taken, known.get(name, ''))
        return self.cites[module, name]

    def is_whole(self, module, names, text, depth=5):
        """Whether a text, or a definition that it cites of the result, says of each refusal which it is."""
        if WHOLE.search(text):
            return True
        _, others = self.cited(module, names, text)
        cited = [(source, *self.file(source), name) for source, name in others if '.specs.' in source]
        return depth > 0 and any(name in known and re.search(OF_RESULT % re.escape(name), text)
                                 and self.is_whole(source, taken, known[name], depth - 1) for source, known, taken, name in cited)

    def reached(self, module, names, text):
        """Of each variant that a text leads to, how many definitions lie between."""
        variants, waiting = self.cited(module, names, text)
        steps, seen, depth = {}, set(), 0
        while variants or waiting:
            steps = {**dict.fromkeys(variants, depth), **steps}
            seen |= waiting
            cited = [self.cited_by(*one) for one in waiting]
            variants = set().union(*(one for one, _ in cited))
            waiting = set().union(*(others for _, others in cited)) - seen
            depth += 1
        return steps


def definitions(text):
    """The definitions of a file of specs/, by name, each with all lines up to the next one."""
    found, name = {}, None
    for line in text.splitlines():
        opens = DEFINES.match(line)
        if opens:
            name = opens.group(1)
        elif line.startswith(('use ', '-- ', 'mod ')) and name:
            name = None
        if name:
            found[name] = found.get(name, '') + line.split(' -- ')[0] + '\n'
    return found


class Faults:
    """The public enums of all crates and their errors without fields, each as `tup_x.Fault`; which of them a crate means by a name;
    which one a struct has."""

    def __init__(self):
        self.variants, self.taken, self.answers = {}, {}, {}
        for crate in crates():
            for name in sources(crate):
                text = read('crates', crate, 'src', name)
                for fault, body in re.findall(r'^pub(?:\(crate\))? enum (\w+)[^{]*\{(.*?)^\}', text, re.M | re.S):
                    self.variants['%s.%s' % (crate, fault)] = re.findall(r'^    (\w+)', body, re.M)
                for fault in re.findall(r'^#\[error\(.*\n(?:#.*\n)*pub struct (\w+);', text, re.M):
                    self.variants['%s.%s' % (crate, fault)] = [fault]
                for answer, body in re.findall(r'^pub struct (\w+)[^{;]*\{(.*?)^\}', text, re.M | re.S):
                    for status in re.findall(r'^    pub (?:status|refused|stopped|cause): .*?(\w+)\W*$', body, re.M):
                        self.answers[answer] = status
                for other, names in re.findall(r'^(?:pub )?use (tup_\w+)::(\{[^}]*\}|\w+);', text, re.M):
                    for fault in re.findall(r'\w+', names):
                        self.taken[crate, fault] = other

    def of(self, crate, name):
        while (crate, name) in self.taken:
            crate = self.taken[crate, name]
        full = '%s.%s' % (crate, name)
        return full if full in self.variants else None


def functions(text):
    """The public functions of a file: where each belongs, its name, its head and its clauses."""
    found, block, public, lines = [], '', False, text.split('#[cfg(test)]')[0].splitlines()
    for number, line in enumerate(lines):
        function, opens = FUNCTION.match(line), BLOCK.match(line)
        if function and (function.group(2) or function.group(1) and public):
            found.append((block if function.group(1) else '', function.group(3), *head_of(lines[number:])))
        elif opens:
            block, public = short_name(opens.group(1)), line.startswith('pub trait') or ' for ' in opens.group(1)
        elif line.startswith('}'):
            block, public = '', False
    return found


def head_of(lines):
    """A function's head up to its clauses, and these, by name."""
    head, clauses, name = '', {}, None
    for line in lines:
        bare, clause = line.strip(), CLAUSE.match(line)
        if bare in ('{', '{}'):
            break
        if clause:
            name = clause.group(1) or 'ensures'
        elif bare.startswith('requires'):
            name = 'requires'
        if name:
            clauses[name] = clauses.get(name, '') + line + '\n'
        else:
            head += bare + ' '
        if bare.endswith(';') or not name and bare.endswith('{'):
            break
    clauses.pop('requires', None)
    return head, clauses


def words_of(head, answers):
    """The words in which a function's answer may have its fault: of a `Result` what it refuses with, or the status of a struct."""
    answer = head.partition('->')[2]
    inside = parts(answer.partition('Result<')[2])
    if inside:
        return re.findall(r'\w+', re.sub('<.*>', '', inside[1])) if len(inside) == 2 else []
    return [answers.get(re.split(r'[<{ ]', answer.strip())[0])]


def parts(text):
    """What stands between the commas of a generic type's brackets, up to the one that closes them."""
    found, depth = [''], 0
    for letter in text:
        depth += (letter in '<(') - (letter in '>)')
        if depth < 0:
            return [part.strip() for part in found if part.strip()]
        if letter == ',' and depth == 0:
            found.append('')
        else:
            found[-1] += letter
    return []


def promises():
    """Each public function: its crate, where it belongs, its name, its head and its clauses, each with the uses of its file."""
    for crate in crates():
        if not crate.endswith('_rows'):
            for name in sources(crate):
                text = read('crates', crate, 'src', name)
                taken = uses(text)
                for block, function, head, clauses in functions(text):
                    yield crate, block, function, head, {clause: (crate, taken, body) for clause, body in clauses.items()}


def calls():
    """Each public call that may refuse: its crate, its name, its fault, and of each refusal the clauses that speak of it."""
    faults = Faults()
    specs, shown = Specs(faults), {crate: exported(root_of(crate)) for crate in crates()}
    of_traits = {(block, function): clauses for _, block, function, _, clauses in promises() if ' for ' not in block}
    for crate, block, function, head, clauses in promises():
        fault = next(filter(None, (faults.of(crate, word) for word in words_of(head, faults.answers))), None)
        is_private = ' for ' in block and not clauses and (block.split(' for ')[0], function) not in of_traits
        if fault and not is_private and shown[crate] & set(re.findall(r'\w+', block or function)):
            clauses = {**of_traits.get((block.split(' for ')[0], function), {}), **clauses}
            yield crate, '%s%s' % (block + ': ' if block else '', function), fault, refusals(specs, fault, clauses)


def refusals(specs, fault, clauses):
    """Of each variant the clauses that speak of it, or those that say of each which it is."""
    steps = {clause: specs.reached('%s.src' % crate, taken, body) for clause, (crate, taken, body) in clauses.items()}
    whole = [(0, 'of each: ' + clause) for clause, (crate, taken, body) in clauses.items()
             if specs.is_whole('%s.src' % crate, taken, body)]
    return {variant: sorted(((step[name], clause) for clause, step in steps.items() if name in step), key=by_cause) or whole
            for variant in specs.faults.variants[fault] if variant not in FREE for name in ['%s.%s' % (fault, variant)]}


def by_cause(named):
    """A clause whose name says that it has causes comes first, then the nearest."""
    depth, clause = named
    return not re.search('cause|blame|refuse', clause), depth, clause


def show(answered):
    """Prints each call with its refusals and their clauses."""
    for crate, call, fault, refusals in answered:
        if refusals:
            print('%s, %s' % (crate, call))
        for variant, clauses in refusals.items():
            said = ', '.join('%s%s' % (clause, ' %d' % depth if depth else '') for depth, clause in clauses[:3])
            print('    %s.%s: %s%s' % (fault, variant, said or 'no clause', ' and %d more' % (len(clauses) - 3) if clauses[3:] else ''))
    print('%d refusals' % sum(len(refusals) for *_, refusals in answered))


def unnamed(answered):
    """Of each crate and refusal, the calls of which no clause says when it comes."""
    found = {}
    for crate, call, fault, refusals in answered:
        for variant, clauses in refusals.items():
            if not clauses:
                found.setdefault((crate, '%s.%s' % (fault, variant)), []).append(call.replace(': ', '::'))
    return found


def main(words):
    answered = list(calls())
    if words != ['open']:
        show(answered)
    left = unnamed(answered)
    print('No clause says when these %d come:' % sum(map(len, left.values())))
    for (crate, refusal), names in left.items():
        say('%s: %s of %s' % (crate, refusal, ', '.join(names)), '    ')


if __name__ == '__main__':
    main(sys.argv[1:])
