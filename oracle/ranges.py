#!/usr/bin/env python3
"""ranges.py SIZES FIRST COUNT: the ranges of the bytes that types fill, over generated files with pending arrays.

SIZES is the listing program (crates/sizes/out/sizes). For each seed from FIRST on a file of types, members and overrides, and a
least and a greatest count for each override. Every line that SIZES prints is held against `ranged` below, which was written
from the sentences of document 02's request 6; and the least and greatest size against the sizes at choices of counts: at all
of them where they are few, else at some.
"""

import collections
import itertools
import struct
import sys

from sizes import Maker, ask, measure, up


def holds(types, members, n):
    """Type n is a pending array or holds one."""
    t = types[n]
    if t['kind'] == 'array':
        return t['form'] == 1 or holds(types, members, t['base'])
    if t['kind'] == 'struct':
        return any(holds(types, members, ty) for ty, _ in members[t['first']:t['first'] + t['count']])
    return False


def at(types, members, counts, n):
    """What type n fills at these counts, as `measure` says it."""
    t = types[n]
    if not holds(types, members, n):
        return measure(types, members, n)
    if t['kind'] == 'array':
        if t['form'] != 1 or holds(types, members, t['base']):
            return 'fault', n, 42
        part = measure(types, members, t['base'])
        if part[0] == 'fault':
            return part
        if t['stride'] % part[1] or t['stride'] < part[2]:
            return 'fault', n, 43
        size = counts[t['count']] * t['stride']
        return ('fault', n, 44) if size >= 1 << 32 else ('fills', part[1], size)
    parts = [at(types, members, counts, ty) for ty, _ in members[t['first']:t['first'] + t['count']]]
    faults = [p for p in parts if p[0] == 'fault']
    if faults:
        return min(faults, key=lambda f: f[1])
    align, end = max(p[1] for p in parts), 0
    for part in parts:
        end = up(end, part[1]) + part[2]
    size = up(end, align)
    return ('fault', n, 44) if size >= 1 << 32 else ('fills', align, size)


class RangeMaker(Maker):
    def __init__(self, seed):
        self.overrides = 0
        super().__init__(seed)
        r = self.random
        self.overrides = max(self.overrides, r.choice([0, 1, 3, 4]))
        self.least, self.greatest = [], []
        for _ in range(self.overrides):
            low = r.choice([1] * 8 + [2, 3, 1000, 1 << 28] + [0] * (r.random() < 0.02))
            high = low + r.choice([0, 1, 2, 2, 3, 3, 50, 1 << 28, (1 << 32) - 1 - low])
            self.least.append(low)
            self.greatest.append(high if r.random() < 0.98 else max(0, low - 1))

    def part(self):
        """An earlier type, mostly one that has a size at low counts."""
        good = [n for n in range(len(self.types)) if at(self.types, self.members, [1] * 4, n)[0] == 'fills']
        return self.random.choice(good if good and self.random.random() < 0.9 else range(len(self.types)))

    def one(self):
        t = super().one()
        if t['kind'] == 'array' and self.random.random() < 0.5:
            t['form'], t['count'] = 1, self.random.randrange(4)
            self.overrides = max(self.overrides, t['count'] + 1)
        return t

    def frame(self, t):
        if t['kind'] == 'array' and t['form'] == 1:
            return struct.pack('<BBHIII', 1, 8, t['base'], 1, t['count'], t['stride'])
        return super().frame(t)

    def text(self):
        return super().text() + (b'0302' + b'0' * 28 + b'\n') * self.overrides


def said(line):
    words = line.split()
    if words[-2] == 'to':
        return 'spans', int(words[-5].rstrip(',')), int(words[-3]), int(words[-1])
    return 'fault', int(words[-1]), int(words[-4])


def main():
    sizes, first, count = sys.argv[1], int(sys.argv[2]), int(sys.argv[3])
    met, wrong = collections.Counter(), 0
    for seed in range(first, first + count):
        m = RangeMaker(seed)
        words = ['%d-%d' % pair for pair in zip(m.least, m.greatest)]
        if not words:
            continue
        lines = ask([sizes] + words, m.text())
        spans = [o for o, (low, high) in enumerate(zip(m.least, m.greatest)) if low == 0 or low > high]
        if spans:
            met['number 45'] += 1
            if lines != ['number 45, span: override %d' % spans[0]]:
                wrong += 1
                print('differs:', seed, lines, spans)
            continue
        assert lines is not None and len(lines) == len(m.types), seed
        near = [sorted({low, min(low + 1, high), max(high - 1, low), high}) for low, high in zip(m.least, m.greatest)]
        choices = list(itertools.product(*near))
        for n, line in enumerate(lines):
            got = said(line)
            high = at(m.types, m.members, m.greatest, n)
            if high[0] == 'fault':
                want = high
            else:
                found = [at(m.types, m.members, c, n) for c in choices]
                assert {f[:2] for f in found} == {high[:2]}, seed
                want = 'spans', high[1], min(f[2] for f in found), max(f[2] for f in found)
            met['types'] += 1
            held = 'held' if holds(m.types, m.members, n) else 'fixed'
            met[held + ' ' + m.types[n]['kind'] + ' with a range' if want[0] == 'spans' else held + ' number %d' % want[2]] += 1
            if got != want:
                wrong += 1
                print('differs:', seed, line, want)
    for name in sorted(met):
        print(name, met[name])
    print(wrong, 'differences')
    return wrong > 0


if __name__ == '__main__':
    sys.exit(main())
