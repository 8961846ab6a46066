"""Tupfiles and commands drawn by lot: of each form of the language some that are right and some that aren't."""

SOURCES = ['a.c', 'b.c', 'h.h', 'd/e.x', 'd/f.c', 'ab.c', 'a.b.c', 'é.c', 'x_y.t', 'mk']
OUTPUTS = ['o', 'p', 'q', 'r.o', 's.tar.gz', 't_u.c', 'z.o', 'm', 'n', 'k.c', './v', 'd/../w', 'é.o',
           'w/o', 'w/s/p.o', 'd/g.o']
SHOWN = ['%B.o', '%b.o', '%g.z', '%B-%e', '%d.o', '%O.d', '%b', '%B_1', '%%x', '%f.o', 'w/%B.o', 'd/s/%b']
GLOBS = ['*', '*.c', '?.c', '[ab].c', '[^a].c', '*.[ch]', 'd/*', '*_*.?', 'd/*.x', './*.c', '[]a]*', '*b*', '[a-b]*.c',
         '*.*.*', '??', '*.o', '[!-~]*', '*é*', '[d-e-]*', 'w/*', 'd/*.o', 'w/s/*']
OPEN_GLOBS = ['[', '[a', 'a[^', 'd/[]', '*[']
WRONG_WORDS = ['../x', '/a.c', '.h', 'd', 'd/', 'none', 'd/none', 'a%', '%q', '%f', 'a.c%%', '', '^x', '{', '{}', '<',
               '<>', 'd/<', 'x}', '..', '.', 'é/', 'tup.config', 'Tuprules.tup', 'Tupfile', 'a b',
               'a.c/o', 'w/Tupfile', 'w/o/p']
FLAGS = ['%f', '%b', '%B', '%e', '%o', '%O', '%d', '%g', '%i', '%%']
WRONG_FLAGS = ['%<x>', '%<y>', '%<z>', '%q', '%', '%<', '%<x', '%.']
NAMES = ['A', 'B', 'C', 'D_1', 'CFLAGS']
WRONG_VARIABLES = ['$(', '@(', '$(A', '$()', '$(A-B)', '$(CONFIG_A)', '$(TUP_CWD)', '@(CONFIG_A)', '@(TUP_CWD)', '$',
                   '@', '$A', '$(A$(B)', '($(A))', '$( A)']
GROUPS = ['<x>', 'd/<x>', '<y>', '../<x>', './<z>', '<z>']
OTHERS = ['error bad $(A)', 'error', 'include inc', 'include d/inc2', 'include $(A)', 'include none', 'include ../x',
          'include', 'include_rules', 'include_rules x', 'nonsense', '# c', '#x \\', '', ' \t', 'else', 'endif',
          'else x', 'endif x', 'foo: bar', '\\']


class Drawn:
    """Lines of a Tupfile and their parts, drawn by `lot`, a generator of random numbers."""
    def __init__(self, lot):
        self.lot, self.one_of = lot, lot.choice

    def is_drawn(self, chance):
        return self.lot.random() < chance

    def some(self, draw, counts):
        return [draw() for _ in range(self.one_of(counts))]

    def variable(self):
        if self.is_drawn(.86):
            return self.one_of(['$(%s)', '@(%s)']) % self.one_of(NAMES)
        return self.one_of(WRONG_VARIABLES)

    def input_word(self):
        drawn = self.lot.random()
        choices = [(.42, SOURCES), (.62, GLOBS), (.72, OUTPUTS), (.79, ['{b}', '{c}', '{b2}']), (.86, GROUPS),
                   (.90, [self.variable()]), (.93, OPEN_GLOBS), (1, WRONG_WORDS)]
        return self.one_of(next(words for limit, words in choices if drawn < limit))

    def output_word(self):
        drawn = self.lot.random()
        choices = [(.5, OUTPUTS), (.8, SHOWN), (.86, [self.variable()]), (.9, SOURCES), (1, WRONG_WORDS)]
        return self.one_of(next(words for limit, words in choices if drawn < limit))

    def flag(self):
        return self.one_of(FLAGS if self.is_drawn(.75) else WRONG_FLAGS)

    def command(self):
        if self.is_drawn(.12):
            return '!' + self.one_of(['m', 'n', 'k', 'm x', ''])
        plain = lambda: self.one_of(['cc', 'cp', 'echo', 'x', '-o', '>', '|', '&&', '"a"', 'c'])
        word = lambda: plain() if self.is_drawn(.5) else self.flag() if self.is_drawn(.8) else self.variable()
        text = ' '.join(self.some(word, range(6)))
        if self.is_drawn(.12):
            text = ('^' + self.one_of(['', 'o', 'b', 'oj', 'bcjs', 't', 'x', 'CC']) + self.one_of(['', ' ', '  '])
                    + self.one_of(['', 'CC %o', '%b', 'T %q', 'see %<x>']) + self.one_of(['^', '^ ', '']) + text)
        return text

    def inputs(self):
        words = self.some(self.input_word, [0, 0, 1, 1, 1, 2, 2, 3])
        if self.is_drawn(.3):
            words += ['|'] + self.some(self.input_word, [0, 1, 2])
        return words + (['|', 'a.c'] if self.is_drawn(.03) else [])

    def outputs(self):
        words = self.some(self.output_word, [0, 1, 1, 1, 2])
        if self.is_drawn(.2):
            words += ['|'] + self.some(self.output_word, [0, 1, 2])
        return words

    def gifts(self):
        words = self.some(lambda: self.one_of(['<x>', '<y>', 'd/<x>', '../<x>', '{b}', '{c}', '{}', '<x']), [0, 0, 1])
        return words + (self.some(lambda: self.one_of(['<x>', '{b}', '{c}', 'o']), [0, 0, 0, 1]) if words else [])

    def spaced(self, words):
        return ''.join(word + self.one_of([' ', ' ', ' ', '\t', '  ']) for word in words)

    def rule(self):
        words = (['foreach'] if self.is_drawn(.3) else []) + self.inputs()
        line = ':' + self.spaced([''] + words + ['|>', self.command(), '|>'] + self.outputs() + self.gifts())
        if self.is_drawn(.04):
            line = line.replace('|>', '', 1)
        return line + ('|> x' if self.is_drawn(.02) else '')

    def macro(self):
        words = ['|'] + self.some(self.input_word, [0, 1, 2]) if self.is_drawn(.3) else []
        if self.is_drawn(.05):
            words = [self.one_of(SOURCES)] + words
        name = self.one_of(['m', 'm', 'n', 'k', 'm-n', '']) + self.one_of([' ', ''])
        right = words + ['|>', self.command(), '|>'] + self.outputs() + (self.gifts() if self.is_drawn(.05) else [])
        return '!' + name + '=' + self.spaced([''] + right)

    def value(self):
        plain = ['a.c', 'b.c', '*.c', 'x', '-O2', 'a,b', '(', 'o', 'foreach', '|', '|>', 'é', '#', '%f', '{b}', '<x>',
                 '^', '']
        return ' '.join(self.some(lambda: self.one_of(plain) if self.is_drawn(.6) else self.variable(), [0, 1, 2, 3]))

    def assignment(self):
        names = NAMES * 3 + ['CONFIG_A', 'TUP_CWD', 'A-B', 'A B', '', 'else', 'error']
        marks = ['=', ':=', '+='] * 4 + ['=+', ' : =', '==', '+ =']
        return self.one_of(names) + self.one_of([' ', '']) + self.one_of(marks) + self.one_of([' ', '']) + self.value()

    def condition(self):
        word = self.one_of(['ifeq', 'ifneq', 'ifdef', 'ifndef'])
        if word in ('ifdef', 'ifndef'):
            return word + ' ' + self.one_of(NAMES * 5 + ['', 'A-B', 'A B', '$(A)'])
        side = lambda: self.one_of(['', 'a', 'x', self.variable(), ' a', 'a,b'])
        wrong = ['(a', 'a,b)', '(ab)', '', '(,', '()', '((a),(a))', '(a,a) x', '(a,$(A']
        sides = '(%s,%s)' % (side(), side()) if self.is_drawn(.85) else self.one_of(wrong)
        return word + self.one_of([' '] * 9 + ['  ', '\t', '']) + sides

    def lines(self, depth=0):
        """A line, or a whole conditional."""
        drawn = self.lot.random()
        if drawn < .12 and depth < 3:
            inner = lambda: [line for _ in range(self.one_of([1, 2])) for line in self.lines(depth + 1)]
            other = ['else'] + inner() if self.is_drawn(.4) else []
            return [self.condition()] + inner() + other + ([] if self.is_drawn(.03) else ['endif'])
        draw = [(.62, self.rule), (.75, self.macro), (.92, self.assignment)]
        return [next((of for limit, of in draw if drawn < limit), lambda: self.one_of(OTHERS))()]

    def written(self, lines):
        """Lines as they may stand in a file: joined, with blanks around them, with either end."""
        text = ''
        for line in lines:
            if self.is_drawn(.06) and len(line) > 3:
                at = self.lot.randint(1, len(line) - 1)
                line = line[:at] + '\\\n' + line[at:]
            text += self.one_of(['', '', '', '  ', '\t']) + line + self.one_of([''] * 9 + [' ', '\t', '\r']) + '\n'
        return text.encode()

    def spoiled(self, content):
        """Once in a while without its last line feed, or with bytes that are no text."""
        if self.is_drawn(.2) and content.endswith(b'\n'):
            content = content[:-1]
        if self.is_drawn(.01):
            at = len(content) // 2
            content = content[:at] + self.one_of([b'\xff', b'\xc3', b'\xed\xa0\x80']) + content[at:]
        return content


def grown(drawn, lines_of, is_refused, count, keep=.02):
    """Lines drawn one after another; one by which the whole is refused is mostly dropped, and else the last."""
    content, left = b'', count
    for _ in range(count * 4):
        longer = content + lines_of()
        refused = is_refused(longer)
        if refused and not drawn.is_drawn(keep):
            continue
        content, left = longer, left - 1
        if refused or left <= 0:
            break
    return content
