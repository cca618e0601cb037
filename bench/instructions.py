#!/usr/bin/env python3
"""Instructions counted by callgrind, for the comparison that build.sh made in FOLDER.

  instructions.py FOLDER FILE..             a table: every way and pass of each file, one call of each
  instructions.py FOLDER WAY PASS FILE      where one call's go, by function: reader, reading, enums, bytes or plain;
                                            first or second
"""

import os
import subprocess
import sys
import tempfile

WAYS = ('reader', 'reading', 'enums', 'bytes', 'plain')
CALLGRIND = ['valgrind', '-q', '--tool=callgrind', '--collect-atstart=no', '--toggle-collect=measured']


def run(command):
    return subprocess.run(command, check=True, stdout=subprocess.PIPE, text=True).stdout


def totals(path):
    """The instructions of one dump."""
    with open(path) as dump:
        return next(int(line.split()[1]) for line in dump if line.startswith(('summary:', 'totals:')))


def counted(program, files):
    """The instructions of every call, by file, frames and pass, in the order of WAYS."""
    with tempfile.TemporaryDirectory() as folder:
        out = os.path.join(folder, 'out')
        called = run(CALLGRIND + ['--dump-after=measured', '--callgrind-out-file=' + out, program, 'each', *files])
        found = {}
        for at, line in enumerate(called.splitlines()):
            name, frames, by, way = line.split()
            found.setdefault((name, int(frames), by), {})[way] = totals(f'{out}.{at + 1}')
    return found


def table(program, files):
    print('| file | pass | whole: reader | by enums | on bytes | ratio | reading: reader | plain | ratio '
          '| answering: reader | by enums | on bytes | ratio | reader, a frame |')
    print('|---|---|---|---|---|---|---|---|---|---|---|---|---|---|')
    for (name, frames, by), n in counted(program, files).items():
        reader, reading, enums, loop, plain = (n[way] for way in WAYS)
        whole = (reader, enums, loop, reader / min(enums, loop))
        answer = (reader - reading, enums - plain, loop - plain)
        cells = (*whole, reading, plain, reading / plain, *answer, answer[0] / min(answer[1:]), reader // frames)
        print(f'| {name} | {by} |', ' | '.join(f'{n:,}' if isinstance(n, int) else f'{n:.2f}' for n in cells), '|')


def functions(program, way, by, file):
    with tempfile.TemporaryDirectory() as folder:
        out = os.path.join(folder, 'out')
        run(CALLGRIND + ['--callgrind-out-file=' + out, program, 'once', way, by, file])
        for line in run(['callgrind_annotate', '--auto=no', '--threshold=99.5', out]).split('\n'):
            if '%)' in line:
                print(line.split(' [')[0])


def main():
    program, rest = os.path.join(sys.argv[1], 'compare'), sys.argv[2:]
    if rest[0] in WAYS:
        functions(program, *rest)
    else:
        table(program, rest)


main()
