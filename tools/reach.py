"""Lists the definitions that a theorem reaches: `make reach`, or `make reach OF=history`, or `OF=large`.

From the contract of a function it follows each name to its definition in specs/, and from there on, by the `use` lines of the
files. What std defines is left out, and so are types that the code declares, and the ghost members of traits.
"""
import os
import re
import sys

from promises import TOP, crates, defined, read

THEOREMS = {'tup': ('tup_top', 'call.rt'), 'history': ('tup_history', 'life.rt'), 'large': ('tup_large', 'show.rt')}
USE = re.compile(r'^(?:ghost |pub )*use Rattle\.(tup\w*)\.specs\.(\w+)(?:\.\{([^}]*)\})?(?: as (\w+))?;?$', re.M)
WORD = re.compile(r"(?:[^\W\d]\w*(?:-\w+)*\.)?[^\W\d]\w*|[>=&+]{1,3}")


def imports(text):
    """What the `use` lines of a file bring in: names, and files under another name."""
    names, files = {}, {}
    for crate, file, listed, alias in USE.findall(text):
        if file == 'declared':
            continue
        if alias or not listed:
            files[alias or file] = (crate, file)
        for one in listed.split(','):
            name, _, other = one.strip().partition(' as ')
            if name:
                names[other.strip() or name] = (crate, file, name)
    return names, files


class Book:
    """The definitions of specs/, each file read once."""

    def __init__(self):
        self.files = {}

    def file(self, crate, file):
        if (crate, file) not in self.files:
            path = os.path.join(TOP, 'crates', crate, 'specs', file + '.antt')
            if not os.path.exists(path):
                self.files[crate, file] = ({}, {}, {})
            else:
                found = {}
                for name, _, body in defined(crate, file):
                    found.setdefault(name, []).extend(body)
                self.files[crate, file] = (found, *imports(read('crates', crate, 'specs', file + '.antt')))
        return self.files[crate, file]

    def at(self, crate, file, name):
        """The definition of a name that a file defines or passes on."""
        found, names, _ = self.file(crate, file)
        if name in found:
            return (crate, file, name)
        return self.at(*names[name]) if name in names and names[name][:2] != (crate, file) else None

    def cited(self, text, names, files, here):
        """The definitions that a text cites."""
        for word in WORD.findall(text):
            alias, _, name = word.rpartition('.')
            for one in (word, name, f'◌{word}◌', alias):
                if one in names:
                    yield self.at(*names[one])
                elif here and one in self.file(*here)[0]:
                    yield (*here, one)
            if alias in files:
                yield self.at(*files[alias], name)

    def reach(self, first):
        seen, left = set(), [one for one in first if one]
        while left:
            one = left.pop()
            if one not in seen:
                seen.add(one)
                found, names, files = self.file(*one[:2])
                left += [next_one for next_one in self.cited('\n'.join(found[one[2]]), names, files, one[:2]) if next_one]
        return seen


def contract(text, function):
    """The contract of a public function, without comments."""
    part = text.split(f'pub fn {function}<')[1].split('\n{\n')[0]
    return re.sub(r'//.*', '', part)


def reached(function):
    """The definitions that the contract of a theorem reaches, each as its crate, file and name."""
    crate, file = THEOREMS[function]
    text = read('crates', crate, 'src', file)
    book = Book()
    return book.reach(book.cited(contract(text, function), *imports(text), None))


def main(words):
    function = words[0] if words else 'tup'
    if function not in THEOREMS:
        print('make reach OF=tup, or ' + ', '.join(f'OF={one}' for one in THEOREMS if one != 'tup'), file=sys.stderr)
        return 1
    found = reached(function)
    for crate in reversed(crates()):
        for file in sorted({one[1] for one in found if one[0] == crate}):
            print(f'{crate}, {file}: ' + ', '.join(sorted(one[2] for one in found if one[:2] == (crate, file))))
    print(f'{len(found)} definitions in {len({one[:2] for one in found})} files of {len({one[0] for one in found})} crates')
    return 0


if __name__ == '__main__':
    sys.exit(main(sys.argv[1:]))
