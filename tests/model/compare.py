"""Compares programs with the model over what is drawn by lot, and tells what differs.

    compare.py rows CRATES NAME=PROGRAM ..   programs of rows, each in a copy of its crate's data; a NAME is language,
                                             commands, board or top
    compare.py folders PROGRAM WORD ..       `tup`, with these words behind those of an update, in real folders
    compare.py killed PROGRAM WORD ..        the same, where updates are killed on the way

SEED and COUNT are taken from the environment: 1, and 1 for so many rows as take some seconds.
"""
import os
import random
import shutil
import subprocess
import sys
import tempfile

from random_projects import player_of, project_call_rows
from random_rows import glob_rows, project_rows, reading_rows
from random_runs import board_rows, clean_build_rows, machine_rows, small_command_rows
from real_folders import Folder

ROWS = {
    'language': ('tup_language_rows', {
        'glob': (glob_rows, 5000), 'reader': (reading_rows, 2000), 'project': (project_rows, 1000)}),
    'commands': ('tup_core_rows', {
        'mini': (small_command_rows, 10000), 'clean': (clean_build_rows, 10000), 'core': (machine_rows, 5000)}),
    'board': ('tup_board_rows', {'board': (board_rows, 200)}),
    'top': ('tup_top_rows', {'tup': (project_call_rows, 500)}),
}
SEED = int(os.environ.get('SEED', 1))
COUNT = float(os.environ.get('COUNT', 1))


def compare_rows(crates, name, program):
    crate, files = ROWS[name]
    with tempfile.TemporaryDirectory() as work:
        data = os.path.join(work, 'data')
        shutil.copytree(os.path.join(crates, crate, 'data'), data)
        for file, (draw, count) in files.items():
            drawn = list(draw(random.Random('%s %d' % (file, SEED)), max(1, int(count * COUNT))))
            print('%s.rows: %d lines are drawn' % (file, len(drawn)))
            with open(os.path.join(data, file + '.rows'), 'w') as rows:
                rows.writelines(drawn)
        said = subprocess.run([os.path.abspath(program)], cwd=data, stdout=subprocess.PIPE).stdout.decode()
    totals = [line for line in said.splitlines() if line.split('.')[0] in files and line.endswith('differ')]
    others = [line for line in said.splitlines() if line not in totals and not line.endswith(' 0 differ')]
    print('\n'.join([*others, *totals]))
    return not others and len(totals) == len(files) and all(line.endswith(' 0 differ') for line in totals)


def compare_folders(command, kills):
    problems, calls, killed = [], 0, 0
    for number in range(max(1, int(100 * COUNT))):
        lot = random.Random('folders %d %d' % (SEED, number))
        folder = Folder(command[0], command[1:], lot, kills, problems)
        player_of(lot, folder).play()
        calls, killed = calls + folder.calls, killed + folder.killed
        if not problems or problems[-1][0] != folder.top:
            folder.remove()
    for problem in problems:
        print(*problem, sep='\n    ')
    print('%d calls in real folders, %d killed before, %d differ' % (calls, killed, len(problems)))
    return not problems


def main(words):
    if words[:1] == ['rows']:
        return all([compare_rows(words[1], *word.split('=', 1)) for word in words[2:]])
    if words[:1] in (['folders'], ['killed']):
        return compare_folders(words[1:], words[0] == 'killed')
    print(__doc__)
    return False


if __name__ == '__main__':
    sys.exit(0 if main(sys.argv[1:]) else 1)
