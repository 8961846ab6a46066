"""A second reading of the store's format: what bytes read as, and what the calls of a table write."""

FIRST = b'tup-db2\x01'
MOST = 268435456

def be(n, width): return n.to_bytes(width, 'big')

def change(kind, key, value):
    return b'\x01' + be(len(key), 2) + key + be(len(value), 4) + value if kind == 'put' else b'\x02' + be(len(key), 2) + key

def commit(changes):
    payload = b''.join(change(*c) for c in changes)
    return be(len(payload), 4) + payload

def changes_in(payload):
    found, at = [], 0
    while at < len(payload):
        kind = payload[at]; at += 1
        if kind not in (1, 2) or at + 2 > len(payload): return None
        n = int.from_bytes(payload[at:at+2], 'big'); at += 2
        if at + n > len(payload): return None
        key = payload[at:at+n]; at += n
        if kind == 2: found.append(('delete', key, b'')); continue
        if at + 4 > len(payload): return None
        n = int.from_bytes(payload[at:at+4], 'big'); at += 4
        if at + n > len(payload): return None
        found.append(('put', key, payload[at:at+n])); at += n
    return found

def apply(entries, changes, origin):
    for kind, key, value in changes:
        if kind == 'put': entries[key] = (value, origin)
        else: entries.pop(key, None)

class Bad(Exception): pass

def area(store, at):
    entries = {}
    while at + 1 < len(store) and store[at] == 1:
        body = store[at+1:]
        n = int.from_bytes(body[:4], 'big')
        changes = changes_in(body[4:4+n]) if len(body) >= 4 and len(body) >= 4 + n else None
        if changes is None: raise Bad(f'the store is damaged at byte {at}')
        apply(entries, changes, at)
        at += 5 + n
    return entries, at

def live(entries):
    return 18 if not entries else 23 + sum(7 + len(k) + len(v[0]) for k, v in entries.items())

def compact(entries):
    return (b'\x01' + commit([('put', k, entries[k][0]) for k in sorted(entries)]) if entries else b'') + b'\x00'

def read(store):
    """entries, the gate in the area that is read, whether that is the high one"""
    if not store: raise Bad('there is no store')
    if len(store) < 17 or store[:8] != FIRST: raise Bad('the store is damaged at byte 0')
    if store[8] != 1: return (*area(store, 17), False)
    start = int.from_bytes(store[9:17], 'big')
    if start < 18 or start > len(store): raise Bad('the store is damaged at byte 9')
    entries, gate = area(store, start)
    if start < live(entries) or live(entries) > MOST: raise Bad('the store is damaged at byte 9')
    return {k: (v[0], 17) for k, v in entries.items()}, gate, True

def opening(store):
    """the bytes after each call of an opening that writes, and how it ends: entries, gate"""
    entries, gate, high = read(store)
    end = store[gate:]
    if end in (b'', b'\x01'): store = store[:gate] + b'\x00'
    if high:
        low = compact(entries)
        store = FIRST + b'\x00' + store[9:17] + low
        gate = 16 + len(low)
    return store, entries, gate

def commits(store, gate, changes):
    """the bytes once changes are committed at a gate"""
    body = commit(changes) + b'\x00'
    return store[:gate] + b'\x01' + body + store[gate + 1 + len(body):]

def compacts(store, entries, failing):
    """how compacting ends where this call of the site fails, 0 being none, and the bytes then"""
    low, start = compact(entries), len(store)
    calls = [None, (start, low), (9, be(start, 8)), None, (8, b'\x01'), None, (17, low), None, (8, b'\x00'), None, 17 + len(low), None]
    for number, call in enumerate(calls, 1):
        if number == failing: return 'the store failed', store
        if isinstance(call, tuple): store = store[:call[0]] + call[1] + store[call[0] + len(call[1]):]
        elif call is not None: store = store[:call]
    return 'done', store
