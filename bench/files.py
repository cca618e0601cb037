#!/usr/bin/env python3
"""Writes the files that the speed is measured on, into a folder: files.py FOLDER. Each stands there with 64, 256 and
1,024 frames, as NAME-64, NAME-256 and NAME-1024; one of 1,024 has 500 rows or more. The same files are written each
time.

- mix: the generator's own mixture (oracle/generate.py). operands: mostly Multiply, Load and AccessIndex rows. composes:
  every other frame a compose, of vectors, matrices, arrays and structs. None has anything newer in it.
- Sixteen further mixtures of the generator's, MIXTURES below.
- shared_components, shared_vector: every compose has all the components, as an array's or a vector's. shared_members:
  every struct has all the members, and its rows read them.
- One row over and over: kinds.py.
"""

import os
import random
import sys

sys.dont_write_bytecode = True
sys.path.insert(0, os.path.join(os.path.dirname(os.path.abspath(__file__)), '..', 'oracle'))
import generate
import kinds
import model
from model import put

SIZES = ((64, 30), (256, 120), (1024, 500))
OWN_ROWS, OWN_TYPES = dict(generate.ROWS), dict(generate.TYPES)


class Operands(generate.Maker):
    """Products of scalars, vectors and matrices."""

    def binary(self):
        left, right = self.random.choice([(1, 2), (1, 1), (2, 1), (2, 2), (2, 3), (3, 2), (3, 3), (3, 1)])
        return put(4, 18, w2=self.fit(left), w4=self.fit(right), b6=2)


class Comparisons(generate.Maker):
    def binary(self):
        return put(4, 18, w2=self.fit(1, 2), w4=self.fit(1, 2), b6=self.random.randrange(5, 11))


class Bools(generate.Maker):
    def binary(self):
        rows, answers = self.by_kind.get(1, []), self.typing.answers
        bools = [at for at in rows if self.form(answers[at])[4:6] == bytes(model.BOOL)] or [self.fit(1)]
        return put(4, 18, w2=self.random.choice(bools), w4=self.random.choice(bools), b6=self.random.choice([14, 15]))


class Cooperative(generate.Maker):
    def binary(self):
        return put(4, 18, w2=self.fit(4), w4=self.fit(4, 4, 1), b6=2)


class Wgsl(generate.Maker):
    """Binary rows that WGSL types, and as document 01 does but for a number where WGSL has a value."""

    def operators(self, form):
        """Those that WGSL has for two of a form."""
        kind, float_, boolean = form[1], form[4] == 2, form[4:6] == bytes(model.BOOL)
        if kind == 3:
            return [0, 1] + [2] * (form[2] == form[3]) if float_ else []
        if float_:
            return range(11)
        if form[4] < 2:
            return [*range(14)] + [16, 17] * (form[4:6] == bytes(model.U32))
        return [5, 6, 11, 13] + [14, 15] * (kind == 1) if boolean else []

    def binary(self):
        r = self.random
        for _ in range(20):
            left = self.fit(1, 2, 3, chance=1)
            form = self.form(self.typing.answers[left])
            if form and form[1] < 4 and self.operators(form):
                alike = [at for at in self.by_kind[form[1]] if self.form(self.typing.answers[at])[1:] == form[1:]]
                return put(4, 18, w2=left, w4=r.choice(alike), b6=r.choice(self.operators(form)))
        return put(4, 1, b6=1)


class Deep(generate.Maker):
    """Each row over the ones just before it, as often as that can be."""

    def earlier(self, count):
        self.deep = 1
        return super().earlier(count)


LEAVES = {1: 2, 2: 2, 4: 4, 10: 2, 11: 4, 12: 4}
PLAIN = {1: 10, 2: 14, 3: 10}
# A name, the maker, its weights of rows and of types, and what share of its rows may be and must be refused.
MIXTURES = [
    ('operators', generate.Maker, {**LEAVES, 18: 60}, OWN_TYPES, 0.3, 0),
    ('comparisons', Comparisons, {**LEAVES, 18: 40, 21: 10}, PLAIN, 0.2, 0),
    ('products', Operands, {**LEAVES, 18: 60}, PLAIN, 0.2, 0),
    ('bools', Bools, {**LEAVES, 18: 50, 21: 20}, PLAIN, 0.3, 0),
    ('elements', generate.Maker, {1: 1, 4: 20, 6: 30, 7: 40}, {1: 4, 2: 8, 3: 8, 8: 10, 9: 14, 14: 4}, 0.3, 0),
    ('pointers', generate.Maker, {4: 4, 11: 10, 12: 10, 6: 20, 7: 30, 13: 20},
     {1: 4, 2: 8, 3: 8, 5: 2, 6: 10, 7: 6, 8: 10, 9: 14}, 0.3, 0),
    ('images', generate.Maker, {4: 4, 11: 10, 14: 40, 15: 30, 16: 20}, {1: 2, 10: 30}, 0.3, 0),
    ('conversions', generate.Maker, {**LEAVES, 8: 20, 9: 20, 17: 5, 19: 5, 20: 5, 23: 30}, PLAIN, 0.3, 0),
    ('leaves', generate.Maker, {1: 10, 2: 5, 3: 5, 4: 10, 10: 8, 11: 8, 12: 8, 24: 5, 25: 5, 26: 5, 27: 5, 28: 2, 29: 5,
                                30: 2, 31: 5, 32: 5}, OWN_TYPES, 0.3, 0),
    ('cooperative', Cooperative, {4: 6, 11: 4, 12: 4, 33: 30, 34: 10, 18: 30}, {1: 4, 2: 4, 4: 20, 6: 6, 7: 6}, 0.3, 0),
    ('vectors', generate.Maker, {**LEAVES, 5: 12}, PLAIN, 0.3, 0),
    ('structs', generate.Maker, {4: 14, 12: 8, 5: 12}, {1: 4, 2: 4, 6: 3, 8: 14, 9: 14}, 0.3, 0),
    ('wgsl', Wgsl, {**LEAVES, 5: 6, 7: 6, 8: 6, 9: 6, 18: 60, 23: 10}, {**PLAIN, 8: 4, 9: 4}, 0.2, 0),
    ('newer', generate.Maker, OWN_ROWS, OWN_TYPES, 0.9, 0.1),
    ('refused', generate.Maker, {1: 4, 4: 20, 10: 10, 6: 10, 8: 10, 9: 10, 13: 10, 18: 20, 23: 10}, OWN_TYPES,
     0.9, 0.4),
    ('deep', Deep, OWN_ROWS, OWN_TYPES, 0.3, 0),
]


def maker(kind, frames, least, rows=OWN_ROWS, types=OWN_TYPES, most=0.1, fewest=0, newer=False):
    """The first even seed whose file has so many rows, and of these a share refused within bounds."""
    generate.ROWS, generate.TYPES = rows, types
    for seed in range(2, 4000, 2):
        made = kind(seed, frames, newer=newer)
        answers = made.typing.answers
        refused = sum(a[0] == 10 for a in answers)
        if len(answers) >= least and fewest * len(answers) <= refused < most * len(answers):
            return seed, made.frames()
    raise SystemExit('no seed')


def composes(frames):
    r = random.Random(1)
    f32 = dict(b4=2, b5=4)
    types = [put(1, 1, **f32), put(1, 2, b2=2, **f32), put(1, 2, b2=3, **f32), put(1, 2, b2=4, **f32),
             put(1, 3, b2=2, b3=3, **f32), put(1, 3, b2=4, b3=4, **f32), put(1, 8, w2=2, d8=3, d12=16),
             put(1, 9, w2=0, w4=3, d12=32), put(1, 6, w2=3), put(1, 8, w2=8, d8=2, d12=8)]
    members = [put(2, 0, w2=0), put(2, 0, w2=2, d12=16), put(2, 0, w2=3, d12=32)]
    items = [put(3, 5, w2=3)]
    lead = [put(4, 1, b6=1), put(4, 4, w2=1), put(4, 4, w2=2), put(4, 4, w2=3), put(4, 12), put(4, 8, w2=0, b6=3),
            put(4, 8, w2=0, b6=4)]
    # what each type is made of: some by type number, some by value
    parts = {1: [[0, 0], [1]], 2: [[0, 0, 0], [1, 0], [0, 1], [5]], 3: [[0, 0, 0, 0], [1, 1], [2, 0], [0, 5], [6]],
             4: [[2, 2], [5, 2]], 5: [[3, 3, 3, 3], [6, 3, 3, 6]], 6: [[2, 2, 2], [2, 5, 2]], 7: [[0, 2, 3], [0, 5, 6]],
             9: [[4, 4]]}
    made, components = [], []
    many = frames * 500 // 1024
    room = frames - len(types) - len(members) - len(items) - len(lead) - many
    while len(made) < many:
        ty = r.choice(list(parts))
        part = r.choice(parts[ty])
        have = [model.two(c, 2) for c in components]
        at = next((i for i in range(len(have)) if have[i:i + len(part)] == part), None)
        fits = len(components) + len(part) <= room
        if at is None and not fits:
            continue
        if at is None or (fits and r.random() < 0.5):
            at = len(components)
            components += [put(5, 0, w2=n) for n in part]
        made.append(put(4, 5, w2=ty, w4=len(part), d12=at))
    while len(components) < room:
        components.append(put(5, 0, w2=0))
    return types + members + items + lead + made + components


def shared_components(frames, vector=False):
    """Composes of an array, or of a vector of fewer, that all have the same components: all there are."""
    many = frames // 2 - 8
    scalar = put(1, 1, b4=2, b5=4)
    ty = put(1, 2, b2=4, b4=2, b5=4) if vector else put(1, 8, w2=0, d8=many, d12=4)
    return ([scalar, ty, put(4, 4)] + [put(4, 5, w2=1, w4=many)] * (frames - 3 - many) + [put(5, 0)] * many)


def shared_members(frames):
    """Structs that all have the same members, all there are, and rows that read them."""
    many = frames // 4 - 2
    structs = [put(1, 9, w4=many, d12=16)] * many
    rows = [put(4, 4, w2=1 + at) for at in range(many)]
    rows += [put(4, 7, w2=at % many, d12=at % many) for at in range(frames - 1 - 3 * many)]
    return [put(1, 1, b4=2, b5=4)] + structs + [put(2, 0)] * many + rows


def files(frames, least):
    """Every name with its seed and frames, so many."""
    yield 'mix', *maker(generate.Maker, frames, least)
    yield 'operands', *maker(Operands, frames, least * 6 // 5, {1: 2, 4: 6, 7: 30, 11: 4, 12: 8, 13: 30, 18: 40})
    yield 'composes', None, composes(frames)
    for name, kind, rows, types, most, fewest in MIXTURES:
        yield name, *maker(kind, frames, least, rows, types, most, fewest, newer=name == 'newer')
    yield 'shared_components', None, shared_components(frames)
    yield 'shared_vector', None, shared_components(frames, vector=True)
    yield 'shared_members', None, shared_members(frames)
    for name, made in kinds.files(frames):
        yield name, None, made


def main():
    folder = sys.argv[1]
    os.makedirs(folder, exist_ok=True)
    for frames, least in SIZES:
        for name, seed, made in files(frames, least):
            assert len(made) == frames, (name, len(made))
            text = ''.join(f.hex() + '\n' for f in made)
            model.read(text.encode())
            rows = [f[1] for f in made if f[0] == 4]
            assert frames < 1024 or len(rows) >= 500, (name, len(rows))
            with open(os.path.join(folder, f'{name}-{frames}'), 'w') as out:
                out.write(text)
            if seed is not None:
                often = sorted(((rows.count(k), k) for k in set(rows)), reverse=True)[:5]
                print(f'{name}-{frames}: seed {seed}, {len(rows)} rows, {rows.count(5)} of them composes;',
                      'most frequent kinds', ', '.join(f'{k} ({n})' for n, k in often))


if __name__ == '__main__':
    main()
