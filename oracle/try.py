#!/usr/bin/env python3
"""try.py ORACLE FIRST COUNT: generated files and pairs, the oracle against model.py. Says what was met.

Files are asked to be accepted by the model; damaged ones, if refused by the model, must get exit code 2.
"""

import collections
import random
import subprocess
import sys
import tempfile

sys.dont_write_bytecode = True
import generate
import model


def run(words, text):
    done = subprocess.run(words, input=text, capture_output=True)
    return done.returncode, done.stdout.decode(), done.stderr.decode()


def main():
    oracle, first, count = sys.argv[1], int(sys.argv[2]), int(sys.argv[3])
    met, wrong = collections.Counter(), 0
    for seed in range(first, first + count):
        maker = generate.Maker(seed)
        text = maker.text().encode()
        file = model.read(text)
        code, said, why = run([oracle], text)
        if code != 0 or said != model.lines(file):
            wrong += 1
            print('seed', seed, 'differs', why)
        met['files'] += 1
        met['frames'] += len(file.frames)
        answers = [line for line in said.splitlines() if '0b' not in line[:3]]
        for row, line in zip(file.rows, answers):
            frame = bytes.fromhex(line.lstrip('!'))
            met['row kind %d %s' % (row[1], 'refused' if frame[0] == 10 else 'typed')] += 1
            if frame[0] == 10:
                met['refusal %d' % frame[1]] += 1
        for line in said.splitlines():
            frame = bytes.fromhex(line.lstrip('!'))
            if frame[0] == 11:
                met['verdict %d' % frame[1]] += 1
        pairs = [maker.pair() for _ in range(40)]
        with tempfile.NamedTemporaryFile('w') as out:
            out.write(''.join('%s %s\n' % (l.hex(), r.hex()) for l, r in pairs))
            out.flush()
            code, said, why = run([oracle, 'compare-many', out.name], text)
        for (left, right), line in zip(pairs, said.split() if code == 0 else [why] * 40):
            met['compared ' + line] += 1
            if line != model.compare(file, left, right):
                wrong += 1
                print('seed', seed, 'compare', left.hex(), right.hex(), line)
        text = generate.damaged(text, random.Random(seed))
        code, said, why = run([oracle], text)
        try:
            good = (0, model.lines(model.read(text)))
        except model.Refused as refused:
            good = (2, '')
            met['file refused %d' % refused.number] += 1
        if (code, said) != good:
            wrong += 1
            print('seed', seed, 'damaged:', code, why)
    for name in sorted(met, key=lambda name: [(w.isdigit(), int(w) if w.isdigit() else w) for w in name.split()]):
        print(name, met[name])
    print(wrong, 'differences')
    return wrong > 0


if __name__ == '__main__':
    sys.exit(main())
