"""The rows of a table, with answers from the second reading of the format. Words: the file. What it prints is the file where its
answers are the same:

    python3 -B tests/model/store_rows.py crates/tup_store_rows/data/table.rows | diff - crates/tup_store_rows/data/table.rows"""
import hashlib, os, re, sys
sys.path.insert(0, os.path.dirname(os.path.abspath(__file__)))
from store import *

def words(text):
    out = []
    for m in re.finditer(r'"((?:[^"\\]|\\.)*)"|(\S+)', text):
        if m[2] is not None: out.append(m[2].encode()); continue
        b, s, i = b'', m[1], 0
        while i < len(s):
            if s[i] == '\\':
                if s[i+1] == 'x': b += bytes([int(s[i+2:i+4], 16)]); i += 4
                else: b += {'n': b'\n', '\\': b'\\', '"': b'"'}[s[i+1]]; i += 2
            else: b += s[i].encode(); i += 1
        out.append(b)
    return out

def show(word):
    if isinstance(word, int): return str(word)
    if isinstance(word, str): word = word.encode()
    if word and re.fullmatch(rb'[A-Za-z0-9_.-]+', word): return word.decode()
    return '"' + ''.join('\\n' if c == 10 else '\\' + chr(c) if c in b'"\\' else chr(c) if 32 <= c < 127 else f'\\x{c:02x}' for c in word) + '"'

def listed(entries): return [x for k in sorted(entries) for x in (k, entries[k][0], entries[k][1])]

def reads(store):
    try: entries, gate, high = read(store)
    except Bad as bad: return ['refused', str(bad)]
    return [16 + len(compact(entries)) if high else gate] + listed(entries)

def changes_of(ws): return [(ws[i].decode(), ws[i+1], ws[i+2]) for i in range(0, len(ws), 3)]

def does(call, store, ws):
    """how a call of a table ends, and the store then"""
    try: store, entries, gate = opening(store)
    except Bad as bad: return str(bad), store
    if call == 'open': return 'done', store
    if call == 'commit': return 'done', commits(store, gate, changes_of(ws))
    return compacts(store, entries, int(ws[0]) if ws else 0)

def damage(store):
    ended, stamps = [0, 0], bytearray()
    for at in range(len(store)):
        for one in [store[:at]] + [store[:at] + bytes([b]) + store[at+1:] for b in range(256)]:
            answer = reads(one)
            ended[answer[0] == 'refused'] += 1
            said = b''.join((w if isinstance(w, bytes) else str(w).encode()) + b'\n' for w in answer)
            stamps += hashlib.sha256(said).digest()
    return ended + [hashlib.sha256(stamps).hexdigest()]

def appends(gate, changes):
    body = commit(changes) + b'\x00'
    return ['refused', 'the store is full'] if gate + 1 + len(body) > 2147483648 else [body]

def told(path):
    store, out = b'', []
    for line in open(path, encoding='utf-8', errors='surrogateescape'):
        line = line.rstrip('\n')
        if not line or line.startswith('#'): out.append(line); continue
        left = line.rsplit(' = ', 1)[0]
        call, *ws = words(left)
        call = call.decode()
        if call == 'read': answer = reads(b''.join(ws))
        elif call == 'append': answer = appends(int(ws[0]), changes_of(ws[1:]))
        elif call == 'store': store = b''.join(ws); answer = [len(store)]
        elif call == 'damage': answer = damage(store)
        else: ended, store = does(call, store, ws); answer = [ended, store]
        out.append(left + ' = ' + ' '.join(map(show, answer)))
    return '\n'.join(out) + '\n'

if __name__ == '__main__': print(told(sys.argv[1]), end='')
