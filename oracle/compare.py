#!/usr/bin/env python3
"""compare.py ORACLE READER FIRST COUNT: the source against this reader, over generated files.

ORACLE is the program that build.sh builds, READER the example answer_cases of bindings/rust. For each seed from FIRST on a file, 40 pairs of frames and the file damaged. Compared: every
line handed back, every comparison, and by READER itself every byte of the lent buffers past what is written.

A line is left out only where ORACLE marks it, which it does from the file alone: 22 and 33, and of a comparison 5, 6 and 22. Such a line must have that number from the reader too, and
an unmarked one must not. A damaged file that ORACLE accepts is compared as any file; one that it refuses must be refused, with the number and place of model.py.
"""

import collections
import random
import subprocess
import sys
import tempfile

sys.dont_write_bytecode = True
import generate
import model

PAIRS, BATCH = 40, 100


def ask(words, text):
    done = subprocess.run(words, input=text, capture_output=True)
    return done.returncode, done.stdout.decode().split()


def oracle_says(oracle, text, pairs):
    """The oracle's lines and comparisons, with their marks; none where the file is refused."""
    code, lines = ask([oracle], text)
    if code != 0:
        return None
    with tempfile.NamedTemporaryFile('w') as out:
        out.write(''.join('%s %s\n' % (l.hex(), r.hex()) for l, r in pairs))
        out.flush()
        code, said = ask([oracle, 'compare-many', out.name], text) if pairs else (0, [])
    assert code == 0, 'the oracle compares no pairs'
    return lines, said


def marked(line):
    """The number of a line that only the port gives: 22 or 33 of a frame, the number of a comparison."""
    if len(line) == 32:
        frame = bytes.fromhex(line)
        return frame[1] if frame[0] in (10, 11) and frame[1] in (22, 33) else None
    return int(line) if line.isdigit() else None


class Tally:
    def __init__(self):
        self.met, self.wrong = collections.Counter(), 0

    def differs(self, *words):
        self.wrong += 1
        print('differs:', *words)

    def hold(self, name, want, got, kind, newer):
        if len(want) != len(got):
            return self.differs(name, kind, len(want), 'against', len(got))
        for i, (w, g) in enumerate(zip(want, got)):
            plain = w.lstrip('!')
            if w != plain:
                self.met['%s left out, number %s' % (kind, marked(plain))] += 1
                self.met['%s left out, number %s, where nothing is newer' % (kind, marked(plain))] += not newer
                if marked(g) is None or marked(g) != marked(plain):
                    self.differs(name, kind, i, w, g)
                self.met[kind + ' left out, in which another byte differs'] += g != plain
            else:
                self.met[kind + ' compared'] += 1
                if g != w:
                    self.differs(name, kind, i, w, g)


def cases_of(seed):
    maker = generate.Maker(seed)
    text = maker.text().encode()
    yield '%d' % seed, text, [maker.pair() for _ in range(PAIRS)], maker.newer
    yield '%d damaged' % seed, generate.damaged(text, random.Random(seed)), [], True


def batch(oracle, reader, seeds, tally):
    cases = [case for seed in seeds for case in cases_of(seed)]
    more = random.Random(seeds[0])
    asked = b''.join(b'%d %d %d\n' % (len(t), more.choice([0, 0, 1, 16, 100]), len(p)) + t + b''.join(l + r for l, r in p) for _, t, p, _ in cases)
    code, said = ask([reader], asked)
    assert code == 0, 'the reader ended with %d' % code
    said = iter(said)
    for name, text, pairs, newer in cases:
        number, place = int(next(said)), int(next(said))
        lines = []
        while (word := next(said)) not in ('kept', 'spoilt'):
            lines.append(word)
        got = [next(said) for _ in pairs]
        if word != 'kept':
            tally.differs(name, 'buffers', word)
        want = oracle_says(oracle, text, pairs)
        tally.met['files'] += 1
        tally.met['buffers compared'] += 1
        if want is None:
            tally.met['files refused'] += 1
            try:
                model.read(text)
                tally.differs(name, 'refused by the oracle alone')
            except model.Refused as refused:
                if (number, place) != (refused.number, refused.place):
                    tally.differs(name, 'number', number, place, 'against', refused.number, refused.place)
        elif number != 0:
            tally.differs(name, 'refused', number, place)
        else:
            tally.hold(name, want[0], lines, 'lines', newer)
            tally.hold(name, want[1], got, 'comparisons', newer)
            tally.met['files accepted with nothing newer'] += not newer


def main():
    oracle, reader, first, count = sys.argv[1], sys.argv[2], int(sys.argv[3]), int(sys.argv[4])
    tally = Tally()
    for at in range(first, first + count, BATCH):
        batch(oracle, reader, list(range(at, min(at + BATCH, first + count))), tally)
    for name in sorted(tally.met):
        print(name, tally.met[name])
    print(tally.wrong, 'differences')
    return tally.wrong > 0


if __name__ == '__main__':
    sys.exit(main())
