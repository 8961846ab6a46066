"""Draws the way of one update, docs/update.svg: `make picture`. The crates and their storeys are those of crates.txt.

    picture.py        writes the picture
    picture.py check  says whether it is as it would be written now
"""
import os
import sys
from xml.sax.saxutils import escape

from promises import TOP, read

PICTURE = 'docs/update.svg'

# Each step: its title, what it does in two lines, its crates, what it takes and gives (files, store), by the paths of arrows.
STEPS = (
    ('Words', ('tup -j 8 --explain: options of the call', 'and of the project'),
     'tup tup_top tup_update tup_phases', ''),
    ('Open the store', ('which rule read, made and looked for what', 'when it last ran'),
     'tup_table tup_graph tup_readers tup_stored_graph', 'from store'),
    ('Scan', ('the digest of every file; flags the rules', 'that a changed, new or missing file reaches'),
     'tup_fs tup_scan_crew tup_scan_diff tup_commit', 'from files, to store'),
    ('Read', ('the Tupfiles of which an answer has changed;', 'new rules take the place of the old ones'),
     'tup_refresh tup_tupfile tup_rule_line tup_project tup_link tup_rule_diff', 'from files, to store'),
    ('Remove', ('the outputs that no rule makes any more,', 'unless one was changed by hand'),
     'tup_stale tup_stored_graph', 'to files, to store'),
    ('Plan', ('flagged rules, producers first;', 'nothing is flagged: done'),
     'tup_closure tup_partial tup_apart tup_schedule tup_core', ''),
    ('Run', ('up to 16 commands at once; each is held', 'to what its rule and the sources let it read'),
     'tup_board tup_parallel tup_workers tup_lock tup_access tup_proc_runner tup_sh', 'from files'),
    ('Commit', ('of each good command: begun, files written,', 'finished with all that it asked for'),
     'tup_rule_outputs tup_disk tup_db', 'to files, to store'),
    ('Tell', ('a line for each thing done,', 'and an exit number with its cause'),
     'tup_tell tup_why tup_progress', ''),
)
COLOURS = {'words': '#6b7280', 'outside': '#0f766e', 'language': '#7c3aed', 'commands': '#b45309', 'telling': '#0891b2', 'project': '#9d174d',
           'store': '#1d4ed8', 'core': '#15803d', 'update and top': '#b91c1c', 'program': '#000000'}
LEFT, MIDDLE, RIGHT, WIDTH = 20, 210, 800, 980
TOPS, STEP, HEIGHT = 46, 76, 64


def storeys():
    """The storey of each crate, by the comments of crates.txt."""
    found, storey = {}, ''
    for line in read('crates.txt').splitlines():
        if line.startswith('# ') and ':' in line:
            storey = line[2:].split(':')[0]
        elif line and not line.startswith('#'):
            found[line.split(':')[0]] = storey
    return found


def text(x, y, words, size=13, colour='#111827', more=''):
    return f'<text x="{x}" y="{y}" font-size="{size}" fill="{colour}"{more}>{escape(words)}</text>'


def arrow(x, y, end):
    return f'<line x1="{x}" y1="{y}" x2="{end}" y2="{y}" stroke="#374151" stroke-width="1.6" marker-end="url(#tip)"/>'


def box(x, y, width, height, fill, edge):
    return f'<rect x="{x}" y="{y}" width="{width}" height="{height}" rx="8" fill="{fill}" stroke="{edge}" stroke-width="1.4"/>'


def crate_names(names, known, y):
    """The names of a step's crates in the colours of their storeys, in two lines at most."""
    lines, line = [], []
    for name in names:
        if sum(len(one) + 1 for one in line) + len(name) > 40:
            lines.append(line)
            line = []
        line.append(name)
    lines.append(line)
    for number, line in enumerate(lines):
        spans = ' '.join(f'<tspan fill="{COLOURS[known[name]]}">{name}</tspan>' for name in line)
        yield f'<text x="{MIDDLE + 296}" y="{y + 21 + 15 * number}" font-size="11" font-family="monospace">{spans}</text>'


def side(x, title, lines):
    yield box(x, TOPS, 160, STEP * len(STEPS) - (STEP - HEIGHT), '#f8fafc', '#64748b')
    yield text(x + 80, TOPS + 26, title, 15, more=' font-weight="bold" text-anchor="middle"')
    for number, line in enumerate(lines):
        yield text(x + 80, TOPS + 50 + 18 * number, line, 12, '#374151', ' text-anchor="middle"')


def picture():
    known = storeys()
    height = TOPS + STEP * len(STEPS) + 40
    yield (f'<svg xmlns="http://www.w3.org/2000/svg" viewBox="0 0 {WIDTH} {height}" width="{WIDTH}" height="{height}" '
           'font-family="Helvetica, Arial, sans-serif">')
    yield '<title>The way of one update</title>'
    yield ('<defs><marker id="tip" viewBox="0 0 10 10" refX="9" refY="5" markerWidth="7" markerHeight="7" orient="auto">'
           '<path d="M0 0 L10 5 L0 10 z" fill="#374151"/></marker></defs>')
    yield f'<rect width="{WIDTH}" height="{height}" fill="#ffffff"/>'
    yield text(WIDTH / 2, 28, 'The way of one update', 18, more=' font-weight="bold" text-anchor="middle"')
    yield from side(LEFT, 'The files', ('sources: read,', 'never changed', '', 'Tupfiles', '', 'outputs: written', 'by rules, removed', 'with them'))
    yield from side(RIGHT, 'The store', ('.tup/db', '', 'rules, owned paths,', 'what each run read', '', 'each change is', 'one commit'))
    for number, (title, lines, crates, flows) in enumerate(STEPS):
        y = TOPS + STEP * number
        yield box(MIDDLE, y, 560, HEIGHT, '#eef2ff', '#4f46e5')
        yield text(MIDDLE + 12, y + 22, f'{number + 1}  {title}', 15, more=' font-weight="bold"')
        yield text(MIDDLE + 12, y + 40, lines[0], 12, '#374151')
        yield text(MIDDLE + 12, y + 55, lines[1], 12, '#374151')
        yield from crate_names(crates.split(), known, y)
        if 'from files' in flows:
            yield arrow(LEFT + 160, y + 32, MIDDLE)
        if 'to files' in flows:
            yield arrow(MIDDLE, y + 32, LEFT + 160)
        if 'from store' in flows:
            yield arrow(RIGHT, y + 32, MIDDLE + 560)
        if 'to store' in flows:
            yield arrow(MIDDLE + 560, y + 32, RIGHT)
        if number:
            yield (f'<line x1="{MIDDLE + 280}" y1="{y - (STEP - HEIGHT)}" x2="{MIDDLE + 280}" y2="{y}" stroke="#374151" '
                   'stroke-width="1.6" marker-end="url(#tip)"/>')
    x = LEFT
    for storey, colour in COLOURS.items():
        yield f'<rect x="{x}" y="{height - 31}" width="11" height="11" fill="{colour}"/>'
        yield text(x + 16, height - 21, storey, 12)
        x += 40 + 7 * len(storey)
    yield '</svg>'


def main(words):
    drawn = '\n'.join(picture()) + '\n'
    path = os.path.join(TOP, PICTURE)
    if words == ['check']:
        return 0 if os.path.exists(path) and read(PICTURE) == drawn else 1
    with open(path, 'w', encoding='utf-8') as file:
        file.write(drawn)
    return 0


if __name__ == '__main__':
    sys.exit(main(sys.argv[1:]))
