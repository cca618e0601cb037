#!/usr/bin/env python3
"""sizes.py ORACLE SIZES FIRST COUNT: the bytes that types fill, over generated files.

ORACLE is the program that build.sh builds, SIZES the listing program (crates/sizes/out/sizes). For each seed from FIRST on a file of types and members. Every line that SIZES prints is held against
`measure` below, which was written from the sentences of document 02's request 5; and every size against the source's `TypeInner::try_size`, which has none over 1 GB for an array.
"""

import collections
import random
import struct
import subprocess
import sys

LISTED = {(0, 4): 4, (1, 4): 4, (2, 4): 4, (2, 2): 2}
LIMIT = 0x4000_0000


def up(n, a):
    return (n + a - 1) // a * a


def vector(size, align):
    return align * (2 if size == 2 else 4), align * size


def measure(types, members, n):
    """(align, size), or (number, place): of the types that the size rests on the lowest faulty one."""
    t = types[n]
    kind = t['kind']
    scalar = LISTED.get(t.get('scalar'))
    if kind in ('scalar', 'vector') and scalar:
        return ('fills', scalar, scalar) if kind == 'scalar' else ('fills',) + vector(t['size'], scalar)
    if kind == 'matrix' and scalar and t['scalar'][0] == 2:
        align, size = vector(t['rows'], scalar)
        return 'fills', align, t['columns'] * up(size, align)
    if kind == 'atomic' and scalar and t['scalar'][0] < 2:
        return 'fills', 4, 4
    if kind == 'array' and t['form'] == 0:
        part = measure(types, members, t['base'])
        if part[0] == 'fault':
            return part
        if t['stride'] % part[1] or t['stride'] < part[2]:
            return 'fault', n, 43
        size = t['count'] * t['stride']
        return ('fault', n, 44) if size >= 1 << 32 else ('fills', part[1], size)
    if kind == 'struct' and t['count'] > 0:
        mine = members[t['first']:t['first'] + t['count']]
        parts = [measure(types, members, ty) for ty, _ in mine]
        faults = [p for p in parts if p[0] == 'fault']
        if faults:
            return min(faults, key=lambda f: f[1])
        align, end = max(p[1] for p in parts), 0
        for (_, offset), part in zip(mine, parts):
            if offset % part[1] or offset < end:
                return 'fault', n, 43
            end = offset + part[2]
        return ('fault', n, 43) if t['span'] < end or t['span'] % align else ('fills', align, t['span'])
    return 'fault', n, 42


class Maker:
    def __init__(self, seed):
        self.random = random.Random(seed)
        self.types, self.members = [], []
        for _ in range(self.random.randint(3, 24)):
            self.types.append(self.one())

    def part(self):
        """An earlier type, mostly one that has a size."""
        good = [n for n in range(len(self.types)) if measure(self.types, self.members, n)[0] == 'fills']
        return self.random.choice(good if good and self.random.random() < 0.9 else range(len(self.types)))

    def one(self):
        r = self.random
        kind = r.choice(['scalar', 'vector', 'matrix', 'atomic'] * 3 + ['array', 'struct'] * 8 + ['pointer', 'sampler', 'unknown'])
        if not self.types and kind in ('array', 'pointer'):
            kind = 'scalar'
        scalar = r.choice([(0, 4), (1, 4)] * 9 + [(2, 4), (2, 2)] * 18 + [(3, 1), (2, 8), (0, 2), (5, 8)])
        if kind in ('scalar', 'atomic'):
            return {'kind': kind, 'scalar': scalar}
        if kind == 'vector':
            return {'kind': kind, 'scalar': scalar, 'size': r.randint(2, 4)}
        if kind == 'matrix':
            return {'kind': kind, 'scalar': scalar, 'columns': r.randint(2, 4), 'rows': r.randint(2, 4)}
        if kind == 'array':
            base = self.part()
            found = measure(self.types, self.members, base)
            align, size = found[1:] if found[0] == 'fills' else (4, 4)
            stride = min(up(size, align) + align * r.choice([0, 0, 0, 1, 3]), (1 << 32) - 16)
            stride = r.choice([stride] * 6 + [stride + align // 2, max(1, stride - align), r.randint(1, 64)])
            edge = (1 << 32) // max(1, stride)
            count = r.choice([1, 2, 3, 5, 17, max(1, edge), max(1, edge - 1), edge + 1])
            return {'kind': kind, 'base': base, 'form': r.choice([0, 0, 0, 0, 2]), 'count': min(count, (1 << 32) - 1), 'stride': stride}
        if kind == 'struct':
            first, end = len(self.members), 0
            count = r.choice([0, 1, 1, 2, 2, 3, 4]) if self.types else 0
            for _ in range(count):
                ty = self.part()
                found = measure(self.types, self.members, ty)
                align, size = found[1:] if found[0] == 'fills' else (4, 4)
                offset = r.choice([up(end, align)] * 9 + [up(end, align) + align, max(0, end - 1), max(0, end - align), end + 1])
                offset = min(offset, (1 << 32) - 1)
                self.members.append((ty, offset))
                end = offset + size
            aligns = [f[1] for f in (measure(self.types, self.members, ty) for ty, _ in self.members[first:]) if f[0] == 'fills']
            align = max(aligns, default=4)
            span = r.choice([up(end, align)] * 9 + [up(end, align) + align, max(0, end - 1), up(end, align) + 2, max(0, up(end, align) - align)])
            return {'kind': kind, 'first': first, 'count': count, 'span': min(span, (1 << 32) - 1)}
        if kind == 'pointer':
            return {'kind': kind, 'base': r.randrange(len(self.types))}
        return {'kind': kind}

    def text(self):
        frames = [self.frame(t) for t in self.types]
        frames += [struct.pack('<BBHIII', 2, 0, ty, 0, 0, offset) for ty, offset in self.members]
        return b''.join(f.hex().encode() + b'\n' for f in frames)

    def frame(self, t):
        kind, (s, w) = t['kind'], t.get('scalar', (0, 0))
        short = {
            'scalar': [1, 0, 0, s, w],
            'vector': [2, t.get('size'), 0, s, w],
            'matrix': [3, t.get('columns'), t.get('rows'), s, w],
            'atomic': [5, 0, 0, s, w],
            'sampler': [11],
            'unknown': [200],
        }
        if kind in short:
            return bytes([1] + short[kind]).ljust(16, b'\0')
        if kind == 'pointer':
            return struct.pack('<BBHIII', 1, 6, t['base'], 0, 0, 0)
        if kind == 'array':
            return struct.pack('<BBHIII', 1, 8, t['base'], t['form'], t['count'] if t['form'] == 0 else 0, t['stride'])
        return struct.pack('<BBHIII', 1, 9, t['first'], t['count'], 0, t['span'])


def said(line):
    """What a line of the listing program says of a type's size."""
    words = line.split()
    if words[-2] == 'size':
        return 'fills', int(words[-3].rstrip(',')), int(words[-1])
    return 'fault', int(words[-1]), int(words[-4])


def ask(words, text):
    done = subprocess.run(words, input=text, capture_output=True)
    return done.stdout.decode().splitlines() if done.returncode == 0 else None


def main():
    oracle, sizes, first, count = sys.argv[1], sys.argv[2], int(sys.argv[3]), int(sys.argv[4])
    met, wrong = collections.Counter(), 0
    for seed in range(first, first + count):
        maker = Maker(seed)
        text = maker.text()
        lines, source = ask([sizes], text), ask([oracle, 'sizes'], text)
        assert lines is not None and source is not None and len(lines) == len(source) == len(maker.types), seed
        for n, (line, own) in enumerate(zip(lines, source)):
            got, want = said(line), measure(maker.types, maker.members, n)
            met['types'] += 1
            met[maker.types[n]['kind'] + ' with a size' if want[0] == 'fills' else 'number %d' % want[2]] += 1
            if got != want:
                wrong += 1
                print('differs:', seed, line, want)
            if got[0] == 'fills':
                over = maker.types[n]['kind'] == 'array' and got[2] > LIMIT
                met['sizes over the source\'s limit'] += over
                met['sizes held against the source'] += not over
                if own != ('none' if over else str(got[2])):
                    wrong += 1
                    print('differs:', seed, line, 'the source has', own)
    for name in sorted(met):
        print(name, met[name])
    print(wrong, 'differences')
    return wrong > 0


if __name__ == '__main__':
    sys.exit(main())
