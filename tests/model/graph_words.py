"""A second reading of the records of a store, and the rows of its damages. Words: a file of rows as crates/tup_store_rows/data/sweep.rows.
What it prints is the file where its answers are the same:

    python3 -B tests/model/graph_words.py crates/tup_store_rows/data/sweep.rows | diff - crates/tup_store_rows/data/sweep.rows"""
import hashlib, os, sys
sys.path.insert(0, os.path.dirname(os.path.abspath(__file__)))
from store import Bad, read
from store_rows import show, words

class Unfit(Exception): pass

class Bytes:
    """Bytes that are read from the left."""
    def __init__(self, bytes): self.bytes, self.at = bytes, 0
    def take(self, n):
        if self.at + n > len(self.bytes): raise Unfit
        self.at += n
        return self.bytes[self.at - n:self.at]
    def byte(self): return self.take(1)[0]
    def number(self): return int.from_bytes(self.take(4), 'big')
    def whole(self, what):
        value = what(self)
        if self.at < len(self.bytes): raise Unfit
        return value

def is_utf8(bytes):
    try: bytes.decode('utf-8'); return True
    except UnicodeDecodeError: return False

# each reads a value, and gives its words
def text(b):
    found = b.take(b.number())
    if not is_utf8(found): raise Unfit
    return [found]

def name(b):
    found = b.take(b.byte())
    if not is_utf8(found) or not found or found[:1] == b'.' or any(c < 0x21 or c in b'/\x7f' for c in found): raise Unfit
    return found

def names(b):
    depth = b.byte()
    if depth > 32: raise Unfit
    return tuple(name(b) for _ in range(depth))

def spelled(path): return b'/'.join(path) if path else b'.'
def path(b): return [spelled(names(b))]
def stamp(b): return [b.take(32).hex()]
def number(b): return [b.number()]
def marked(b, arms):
    mark = b.byte()
    if mark not in arms: raise Unfit
    return arms[mark](b)
def said(name, what=lambda b: []): return lambda b: [name] + what(b)
def option(what): return lambda b: marked(b, {0: said('none'), 1: said('some', what)})
def truth(b): return marked(b, {0: said('false'), 1: said('true')})
def listed(what):
    def read_all(b):
        count = b.number()
        found = [count]
        for _ in range(count): found += what(b)
        return found
    return read_all
def row(*parts): return lambda b: [w for what in parts for w in what(b)]

kind = lambda b: marked(b, {0: said('nothing'), 1: said('file'), 2: said('dir')})
piece = lambda b: marked(b, {1: said('text', text), 2: said('group', number)})
group = row(path, text)
def asked(b):
    mark = b.byte()
    question = {1: said('content', path), 2: said('config', text), 3: said('names', path), 4: said('kind', path)}.get(mark)
    if question is None: raise Unfit
    question = question(b)
    told = {1: option(stamp), 2: option(text), 3: listed(text), 4: kind}[mark]
    if b.byte() != mark: raise Unfit
    return question + ['told'] + told(b)
draft = row(said('file', path), said('line', number), said('pieces', listed(piece)), said('display', option(listed(piece))), said('compare', truth),
    said('inputs', listed(path)), said('order', listed(path)), said('outputs', listed(path)), said('groups', listed(group)), said('gives', option(group)))
reading = row(said('asked', listed(asked)), said('drafts', listed(draft)))
run = row(said('asks', listed(row(path, option(stamp)))), said('writes', listed(row(path, stamp))))
state = lambda b: marked(b, {0: said('never'), 1: said('unsure'), 2: said('written', stamp)})
def rule(b):
    place, dir, command = b.number(), names(b), text(b)
    option(text)(b), truth(b), listed(path)(b), listed(path)(b), listed(path)(b)
    return (dir, place), command

def graph(entries):
    """the words of the graph of entries; Bad at the first that is no record, or doesn't fit"""
    seen, readings, created, rules, runs, flags, owned = {}, {}, set(), [], {}, set(), {}
    def is_rule(which):
        if which >= len(rules): raise Unfit
        return which
    def put(mark, key, value):
        if mark == 1: seen[key.whole(names)] = value.whole(stamp)
        elif mark == 2: readings[key.whole(names)] = value.whole(reading)
        elif mark == 3:
            which = key.whole(Bytes.number)
            place, command = value.whole(rule)
            if which != len(rules) or rules and rules[-1][0] >= place: raise Unfit
            rules.append((place, command))
        elif mark == 4:
            which, found = key.whole(Bytes.number), value.whole(run)
            runs[is_rule(which)] = found
        elif mark == 5:
            at, maker, now = key.whole(names), *value.whole(lambda b: (option(number)(b), state(b)))
            if maker[0] == 'some': is_rule(maker[1])
            owned[at] = maker + now
        elif mark == 6: at = key.whole(names); value.whole(lambda b: None); created.add(at)
        elif mark == 7: which = key.whole(Bytes.number); value.whole(lambda b: None); flags.add(is_rule(which))
        else: raise Unfit
    for entry in sorted(entries):
        value, origin = entries[entry]
        try:
            if not entry: raise Unfit
            put(entry[0], Bytes(entry[1:]), Bytes(value))
        except Unfit: raise Bad(f'the store is damaged at byte {origin}')
    found = ['seen']
    for at in sorted(seen): found += [spelled(at)] + seen[at]
    found.append('readings')
    for at in sorted(readings): found += [spelled(at)] + readings[at]
    found.append('created')
    for at in sorted(created): found.append(spelled(at))
    found.append('rules')
    for which, (place, command) in enumerate(rules):
        found += command + (['flagged'] if which in flags else []) + (['ran'] + runs[which] if which in runs else [])
    found.append('owned')
    for at in sorted(owned): found += [spelled(at)] + owned[at]
    return found

def reads(store):
    try: return graph(read(store)[0])
    except Bad as bad: return ['refused', str(bad)]

def told(stores, whole):
    runs, every = [], bytearray()
    for store in stores:
        found = reads(store)
        for word in found: every += (word if isinstance(word, bytes) else str(word).encode()) + b'\n'
        way = found[1] if found[0] == 'refused' else 'same' if found == whole else 'another'
        if runs and runs[-1][1] == way: runs[-1][0] += 1
        else: runs.append([1, way])
    return [w for one in runs for w in one] + [hashlib.sha256(every).hexdigest()]

def answers(lines):
    store = b''
    for line in lines:
        line = line.rstrip('\n')
        if not line or line.startswith('#'): yield line; continue
        left = line.split(' = ')[0]
        call, *given = words(left)
        if call == b'store': store = b''.join(given); answer = [len(store)]
        elif call == b'each': answer = told((store[:at] + given[0] + store[at + 1:] for at in range(len(store))), reads(store))
        else: answer = told((store[:at] for at in range(len(store))), reads(store))
        yield left + ' = ' + ' '.join(map(show, answer))

if __name__ == '__main__':
    for line in answers(open(sys.argv[1], encoding='utf-8', errors='surrogateescape')): print(line)
