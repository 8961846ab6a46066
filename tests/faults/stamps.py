"""Files edited by lot, whose stamps are kept in `.tup/stamps`: `make stamps`.

    stamps.py ROWS [SEED [COUNT]]    ROWS is the program of `crates/tup_outside_rows`; so many calls (none: 1,000) follow on edits

Before each call somebody edits up to five files by what a shell has: in place, by other times, by renames, through other names,
through a map, by `git`, `tar` and `cp`. Most edits keep the length of a file. Now and then the file `.tup/stamps` is torn, made of
zeros, changed, taken away, or one of an earlier call is put in its place. Then

- each call tells the stamps of what the files hold, whatever was kept,
- no call fails, and none leaves a file aside.

A call keeps the stamps of all files that were changed before it, not a minute before. So an edit waits for the system's clock to go
on. On a file system on which stamps are kept it is also tried that a file is known without being read: after a call, and not after
an edit, in another boot, by another user, where a directory of memory is mounted, or where it was changed less than a minute ago.

What went wrong is printed, its folder is kept, and the end is then 1. It is no part of the gate.
"""
import hashlib
import os
import random
import shutil
import subprocess
import sys
import tempfile

TIMED = ['ext2', 'ext3', 'ext4', 'xfs', 'btrfs', 'f2fs']
FOLDERS = ['', 'a/', 'a/b/', 'c/', 'c d/']
NAMES = ['x', 'y', 'z', 'x.c', 'long name']
TEXTS = ['hi', 'ho', 'ha', 'he', 'a longer text', 'a longer test', '']
# The program's other files of rows are left out: it prints that they aren't there.
DONE = 'fs.rows: 0 '


def digest(content):
    return hashlib.sha256(content).hexdigest()


def quoted(text):
    """A text as a word of a file of rows."""
    return '"' + text.replace('\\', '\\\\').replace('"', '\\"').replace('\n', '\\n') + '"'


class Play:
    """A folder in which the same lines of shell are run as the rows run, to know what the files hold then."""

    def __init__(self, folder):
        self.folder = folder

    def run(self, line):
        return subprocess.run(['sh', '-c', line], cwd=self.folder, capture_output=True).returncode == 0

    def files(self):
        found = []
        for folder, folders, files in os.walk(self.folder):
            folders[:] = [it for it in folders if not it.startswith('.')]
            for name in files:
                path = os.path.relpath(os.path.join(folder, name), self.folder)
                if not name.startswith('.'):
                    found.append(path)
        return sorted(found, key=lambda it: [name.encode() for name in it.split('/')])

    def stamps(self):
        said = []
        for path in self.files():
            with open(os.path.join(self.folder, path), 'rb') as file:
                said += [quoted(path), digest(file.read())]
        return ' '.join(said)


def edit(lot, play):
    """A line of shell that edits a file."""
    files = play.files()
    new = lot.choice(FOLDERS) + lot.choice(NAMES)
    old = lot.choice(files) if files else new
    other = lot.choice(files) if files else new
    text = lot.choice(TEXTS)
    made = f"mkdir -p './{os.path.dirname(new)}' && printf '{text}' >'{new}'"
    ways = [
        made,
        f"printf '{text}' >'{old}'",
        f"printf '{text}' >'{old}'",
        f"cp -p '{old}' .t && printf '{text}' >'{old}' && touch -r .t '{old}'; rm -f .t",
        f"printf '{text}' >.t && touch -r '{old}' .t && mv .t '{old}'",
        f"printf '{text}' >.t && cp -p .t '{old}' && rm .t",
        f"printf '{text}' | dd of='{old}' conv=notrunc status=none",
        f"printf '{text}' >>'{old}'",
        f"truncate -s 2 '{old}'",
        f"touch '{old}'",
        f"touch -d '2001-02-03 04:05:06' '{old}'",
        f"touch -r '{other}' '{old}'",
        f"chmod {lot.choice(['600', '644', '755'])} '{old}'",
        f"mv '{old}' .t && mv '{other}' '{old}'; mv .t '{other}'",
        f"mv '{old}' '{other}'",
        f"cp '{old}' '{other}'",
        f"cp -p '{old}' '{other}'",
        f"rm -f '{old}'",
        f"rm -f '{new}'; mkdir -p './{os.path.dirname(new)}' && ln '{old}' '{new}'",
        f"sed -i 's/h/H/' '{old}'",
        f"sed -i 's/zzz/zz/' '{old}'",
        "mkdir -p a c && mv a .t && mv c a && mv .t c",
        "mkdir -p a && cp -a a .t && rm -r a && mv .t a",
        "tar cf .t.tar --exclude './.*' . && tar xf .t.tar && rm .t.tar",
        f"tar cf .t.tar '{old}' && printf '{text}' >'{old}' && tar xf .t.tar && rm .t.tar",
        "rm -f .git/index && git add -A . && git commit -qm a; git checkout -q HEAD~1 && git checkout -q main",
        f"""python3 -c 'import mmap,sys
f=open(sys.argv[1],"r+b"); m=mmap.mmap(f.fileno(),0); m[:1]=b"Q"; m[-1:]=b"q"' '{old}'""",
    ]
    return made if len(files) < 6 + lot.randrange(9) else lot.choice(ways)


def damage(lot):
    """A line of shell that does something to the file of stamps."""
    at = lot.randrange(400)
    return lot.choice([
        'rm -f .tup/stamps',
        f'truncate -s {at} .tup/stamps',
        f'dd if=/dev/zero of=.tup/stamps bs=1 seek={at} count={lot.randrange(1, 90)} conv=notrunc status=none',
        f"printf {lot.choice('abc')} | dd of=.tup/stamps bs=1 seek={at} conv=notrunc status=none",
        'cp .tup/stamps .tup/old',
        'test ! -f .tup/old || cp .tup/old .tup/stamps',
        'test ! -f .tup/old || cp .tup/old .tup/stamps',
        'chmod 666 .tup/stamps',
        'ln -f .tup/stamps .tup/name',
    ])


def tried(program, rows, folder):
    """What the program prints of rows that are tried in a folder."""
    with open(os.path.join(folder, 'fs.rows'), 'w') as file:
        file.write(rows)
    done = subprocess.run([program], cwd=folder, capture_output=True, text=True)
    lines = done.stdout.splitlines()
    return [line for line in lines if line.startswith('fs.rows') or 'line' in line] or [done.stdout + done.stderr]


def histories(program, lot, count, top):
    """Calls that follow on edits."""
    play = Play(os.path.join(top, 'play'))
    os.mkdir(play.folder)
    rows = []

    def run(line):
        """Runs a line in both folders."""
        line = f'export GIT_AUTHOR_DATE=@1 GIT_COMMITTER_DATE=@1; {line}; true'
        play.run(line)
        rows.append(f'shell {quoted(line)} = ok')

    rows.append('begin play = ok')
    run('mkdir .tup && printf hi >x && git init -q -b main . && printf ".tup\\n.t*\\n" >.git/info/exclude'
        ' && git config user.email a@b && git config user.name a && git add -A . && git commit -qm a && printf ho >x && git commit -qam b')
    for call in range(count):
        for _ in range(lot.randrange(6)):
            run(edit(lot, play))
        if lot.random() < 0.3:
            rows.append(f'shell {quoted(damage(lot) + "; true")} = ok')
        rows += ['shell "sleep 0.02" = ok', 'keep 0 = ok', f'stamps = {play.stamps()}', 'faults = 0', 'leave = ok', 'shell "sleep 0.02" = ok']
    rows += ['stands .tup/stamps.new = no', 'end = ok']
    work = os.path.join(top, 'work')
    os.mkdir(work)
    return tried(program, '\n'.join(rows) + '\n', work)


def main(program, seed, count):
    lot = random.Random(seed)
    top = tempfile.mkdtemp(prefix='stamps.', dir=os.environ.get('TMPDIR', '.'))
    said = histories(os.path.abspath(program), lot, count, top)
    for line in said[:20]:
        print(line)
    if not said[-1].startswith(DONE):
        print(f'stamps.py: seed {seed}: other stamps were told; {top} is kept')
        return 1
    shutil.rmtree(top)
    print(f'stamps.py: seed {seed}: {count} calls told the stamps of what the files held')
    return 0


if __name__ == '__main__':
    seed = int(sys.argv[2]) if len(sys.argv) > 2 else random.randrange(10 ** 6)
    sys.exit(main(sys.argv[1], seed, int(sys.argv[3]) if len(sys.argv) > 3 else 1000))
