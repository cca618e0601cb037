#!/usr/bin/env python3
"""Random files of document 01's form, to standard output.

    generate.py SEED [--frames N] [--newer | --known] [--damage]   a file
    generate.py SEED [...] --pairs COUNT                           pairs of frames to compare over that file

An odd seed gives a file with newer things in it, an even one a file without, unless told otherwise.
"""

import argparse
import random
import sys

sys.dont_write_bytecode = True
import model
from model import four, number, put, two

USUAL = [(2, 4)] * 6 + [(1, 4), (0, 4), (3, 1), (2, 2), (2, 8), (1, 2), (4, 8), (5, 8)]
TYPES = {1: 10, 2: 12, 3: 8, 4: 4, 5: 4, 6: 14, 7: 6, 8: 12, 9: 10, 10: 10, 11: 2, 12: 1, 13: 1, 14: 6}
ROWS = {
    1: 6, 2: 3, 3: 2, 4: 8, 5: 14, 6: 10, 7: 16, 8: 5, 9: 4, 10: 4, 11: 8, 12: 8, 13: 10, 14: 5, 15: 3, 16: 3,
    17: 2, 18: 22, 19: 3, 20: 2, 21: 4, 23: 7, 24: 3, 25: 1, 26: 1, 27: 1, 28: 1, 29: 1, 30: 1, 31: 1, 32: 1,
    33: 4, 34: 1,
}


class Maker:
    def __init__(self, seed, frames=None, newer=None):
        self.random = random.Random(seed)
        r = self.random
        self.newer = seed % 2 == 1 if newer is None else newer
        if frames is None:
            frames = r.choice([r.randint(3, 30)] * 3 + [r.randint(30, 120)] * 4 + [r.randint(120, 400)] * 2
                              + [r.randint(400, 1024)])
        self.room = frames
        self.deep = r.choice([0.1, 0.4, 0.9, 1])    # how often the latest type or row is taken up again
        self.file = model.File([])
        self.typing = model.Typing(self.file)
        self.make_types()
        self.make_items()
        self.make_rows()

    def frames(self):
        f = self.file
        return f.types + f.members + [i for kind in range(1, 9) for i in f.items[kind]] + f.rows + f.components

    def text(self):
        return ''.join(f.hex() + '\n' for f in self.frames())

    def weighed(self, weights):
        return self.random.choices(list(weights), list(weights.values()))[0]

    def often(self, chance):
        return self.random.random() < chance

    # Types, members and items.

    def scalar(self):
        if self.often(0.05):
            return self.random.randrange(6), self.random.choice(model.WIDTH)
        return self.random.choice(USUAL)

    def space(self):
        space = self.random.choice([0, 0, 0, 1, 2, 3, 4, 4, 5, 6, 7, 8, 9])
        return dict(b6=space, b7=self.random.randrange(8) if space == 4 else 0)

    def earlier(self, count):
        if self.often(self.deep):
            return count - 1 - min(self.random.randrange(3), count - 1)
        return self.random.randrange(count)

    def make_types(self):
        r, types = self.random, self.file.types
        share = r.choice([0.1, 0.25, 0.5])
        wanted = min(self.room, max(1, int(self.room * share)))
        self.overrides = r.choice([0, 1, 3]) if self.room > 20 else 0
        self.room -= self.overrides
        weights = {kind: TYPES[kind] / (1 if self.deep < 1 or kind in (6, 8, 9, 14) else 5) for kind in TYPES}
        for _ in range(wanted):
            if self.room <= 0:
                break
            if types and self.often(0.08):
                frame = r.choice(types)
            else:
                frame = self.type(self.weighed(weights) if types or self.often(0.3) else 1)
            types.append(frame)
            self.room -= 1
        for _ in range(r.choice([0, 0, 1])):
            if types and self.room > 10:    # a member of no struct
                self.file.members.append(put(2, 0, w2=r.randrange(len(types)), d12=r.randrange(64)))
                self.room -= 1

    def type(self, kind):
        r, count = self.random, len(self.file.types)
        if self.newer and self.often(0.1):
            free = {'b%d' % at: r.randrange(256) for at in range(2, 16)} if self.often(0.5) else {}
            return put(1, r.choice([0, 15, 16, 200, 255]), **free)
        if count == 0 and kind in (6, 8, 14):
            kind = 1
        s = self.scalar()
        scalar = dict(b4=s[0], b5=s[1])
        if kind in (1, 5):
            return put(1, kind, **scalar)
        if kind == 2:
            return put(1, 2, b2=r.randint(2, 4), **scalar)
        if kind == 3:
            return put(1, 3, b2=r.randint(2, 4), b3=r.randint(2, 4), **scalar)
        if kind == 4:
            return put(1, 4, b2=r.choice([8, 16]), b3=r.choice([8, 16]), b6=r.randrange(3), **scalar)
        if kind == 6:
            return put(1, 6, w2=self.earlier(count), **self.space())
        if kind == 7:
            return put(1, 7, b2=r.choice([0, 2, 3, 4]), **scalar, **self.space())
        if kind in (8, 14):
            stride = dict(d12=r.choice([0, 4, 4, 8, 16, 2 ** 32 - 1])) if kind == 8 else {}
            form = r.choice([0, 0, 0, 1, 2])
            if form == 1 and not self.overrides:
                form = 0
            size = [r.choice([1, 2, 2, 3, 4, 7, 1000, 2 ** 32 - 1]), r.randrange(max(1, self.overrides)), 0][form]
            return put(1, kind, w2=self.earlier(count), b4=form, d8=size, **stride)
        if kind == 9:
            return self.struct(count)
        if kind == 10:
            image = r.choice([0, 0, 0, 1, 1, 2, 3, 3])
            more = [dict(b5=s[0], b6=r.randrange(2)), dict(b6=r.randrange(2)), {},
                    dict(b5=r.randrange(41), b7=r.randrange(8))][image]
            return put(1, 10, b2=r.randint(1, 4), b3=r.randrange(2), b4=image, **more)
        return put(1, kind, b2=r.randrange(2))

    def struct(self, count):
        r, members = self.random, self.file.members
        span = r.choice([0, 4, 16, 64])
        if members and self.often(0.3):     # a range that others may have too
            first = r.randrange(len(members) + 1)
            many = r.randint(0, min(4, len(members) - first))
            return put(1, 9, w2=first, w4=many, d12=span)
        many = min(r.choice([0, 1, 2, 2, 3, 3, 4, 5]), max(0, self.room - 1), 6 * count)
        first = len(members)
        if first and self.often(0.2):
            first -= 1
        for _ in range(many):
            members.append(put(2, 0, w2=self.earlier(count), d12=r.choice([0, 4, 8, 16])))
            self.room -= 1
        return put(1, 9, w2=first, w4=len(members) - first, d12=span)

    def make_items(self):
        r, items, types = self.random, self.file.items, self.file.types
        ty = lambda: r.randrange(len(types))
        if not types:
            self.room += self.overrides
            return
        images = [at for at, f in enumerate(types) if f[1] in (10, 14)]
        items[2] = [put(3, 2, w2=ty()) for _ in range(self.overrides)]
        wanted = int(self.room * r.choice([0.1, 0.2, 0.3]))
        for _ in range(wanted):
            kind = r.choice([1, 3, 3, 3, 4, 4, 5, 5, 5, 6, 6, 7, 8])
            if kind == 3:
                item = put(3, 3, w2=ty(), **self.space())
                if images and self.often(0.3):
                    item = put(3, 3, w2=r.choice(images), b6=5)
            elif kind == 6:
                item = put(3, 6, w2=ty(), b4=1) if self.often(0.7) else put(3, 6)
            else:
                item = put(3, kind, w2=ty())
            if kind < 7 or not items[kind]:
                items[kind].append(item)
                self.room -= 1

    # Rows and components.

    def make_rows(self):
        self.depth = []         # how many rows stand below a row
        self.by_kind = {}       # rows by the kind of their type; a pointer's rows by (6, kind of its base) too
        weights = dict(ROWS)
        if self.newer:
            weights.update({22: 1, 'unknown': 1})
        leaves = (1, 2, 3, 4, 10, 11, 12, *range(24, 33))
        few = {kind: weights[kind] / (20 if kind in leaves else 1) for kind in weights}
        while self.room > 0:
            kind = self.weighed(few if self.deep == 1 and len(self.file.rows) > 10 else weights)
            if kind == 5:
                self.compose()
            else:
                self.add(self.row(kind))
        r, rows = self.random, self.file.rows
        if rows and self.often(0.2):        # a component of no compose, in the place of the last row
            row = rows[-1]
            named = any(two(c, 2) == len(rows) - 1 for c in self.file.components)
            if row[1] != 5 and not named and len(rows) > 1:
                rows.pop()
                self.depth.pop()
                self.typing.answers.pop()
                self.file.components.append(put(5, 0, w2=r.randrange(len(rows))))

    def form(self, answer):
        """The form of an answer, or None if it has none that is known."""
        if answer[0] == 10:
            return None
        form = self.file.types[two(answer, 2)] if answer[0] == 8 else answer
        return form if model.known_type(form) else None

    def add(self, row):
        at = len(self.file.rows)
        self.file.rows.append(row)
        self.room -= 1
        reads = row[1] in (*range(6, 10), *range(13, 22), 23, 33, 34)
        self.depth.append(1 + self.depth[two(row, 2)] if reads and at else 0)
        answer = self.typing.add(row)
        form = self.form(answer)
        kind = form[1] if form else 'none' if answer[0] == 10 else 'unknown'
        self.by_kind.setdefault(kind, []).append(at)
        if kind == 6:
            base = self.file.types[two(form, 2)]
            known = model.known_type(base)
            self.by_kind.setdefault((6, base[1] if known else 'unknown'), []).append(at)
        return at

    def fit(self, *kinds, chance=0.9):
        """An earlier row, mostly one whose type is of these kinds."""
        r, rows = self.random, len(self.file.rows)
        if self.newer and self.often(0.1):
            kinds, chance = ['unknown', 'unknown', (6, 'unknown'), 'none'], 1
        if self.often(chance):
            kinds = [k for k in kinds if self.by_kind.get(k)]
            if kinds:
                found = self.by_kind[r.choice(kinds)]
                if self.deep == 1 and self.often(0.8):
                    return max(found, key=lambda at: self.depth[at])
                return found[-1 - min(r.randrange(2), len(found) - 1)] if self.often(self.deep) else r.choice(found)
        return self.earlier(rows)

    def typed(self):
        kinds = [k for k in self.by_kind if k != 'none' and not isinstance(k, tuple)]
        return self.fit(*kinds, chance=0.95)

    def row(self, kind):
        r, file = self.random, self.file
        items = {2: 1, 3: 2, 11: 3, 12: 5, 24: 6}
        if kind == 'unknown':
            return put(4, r.choice([0, 35, 36, 99, 255]), **{'b%d' % at: r.randrange(256) for at in range(2, 16)})
        if kind == 22:
            return put(4, 22, **{'b%d' % at: r.randrange(256) for at in range(2, 16)})
        if kind in items and file.items[items[kind]]:
            return put(4, kind, w2=r.randrange(len(file.items[items[kind]])))
        if kind in (4, 25, 26, 32) and file.types:
            return put(4, kind, w2=r.randrange(len(file.types)))
        if kind == 10:
            index = r.randrange(len(file.items[4]) + 1) if self.often(0.9) else r.choice([2 ** 32 - 1, 65536])
            return put(4, 10, d12=index)
        if 27 <= kind <= 31:
            return put(4, kind)
        if kind == 16 and self.often(0.4):
            return put(4, 16, b6=r.randint(1, 3))
        if kind == 21 and self.often(0.3):
            return put(4, 21, b6=r.randrange(2))
        if not file.rows or kind == 1 or kind in items or kind in (4, 25, 26, 32):
            return put(4, 1, b6=r.choice([1, 1, 5, 6, 9, r.randrange(12)]))
        if kind in (6, 7):
            return self.access(kind)
        if kind == 8:
            return put(4, 8, w2=self.fit(1), b6=r.randint(2, 4))
        if kind == 9:
            return put(4, 9, w2=self.fit(2), b6=r.randint(2, 4))
        if kind == 13:
            return put(4, 13, w2=self.fit(6, 6, 7, (6, 5)))
        images = [at for at, f in enumerate(file.types) if f[1] == 10]
        if kind in (14, 15, 16) and images and not self.by_kind.get(10):
            return put(4, 4, w2=r.choice(images))
        if kind in (14, 15):
            return self.sample(kind)
        if kind == 16:
            return put(4, 16, w2=self.fit(10))
        if kind == 18:
            return self.binary()
        if kind == 21:
            return put(4, 21, w2=self.fit(1, 2), b6=r.randint(2, 3))
        if kind == 23:
            width = dict(b7=1, b8=r.choice([1, 2, 4, 4, 8])) if self.often(0.6) else {}
            return put(4, 23, w2=self.fit(1, 2, 3), b6=r.choice([0, 1, 2, 3, 4, 5]), **width)
        if kind == 33:
            return put(4, 33, w2=self.fit(7, (6, 1), (6, 2), (6, 3), (6, 4)), b6=r.choice([8, 16]),
                       b7=r.choice([8, 16]), b8=r.randrange(3))
        if kind == 34:
            return put(4, 34, w2=self.fit(4))
        return put(4, kind, w2=self.typed())

    def access(self, kind):
        r = self.random
        under = (2, 3, 8, 9, 14)
        base = self.fit(2, 3, 7, 8, 9, 14, *[(6, k) for k in under])
        if kind == 6:
            return put(4, 6, w2=base)
        form = self.form(self.typing.answers[base])
        if form and form[1] == 6:
            form = self.file.types[two(form, 2)]
        bound = 4 if form is None else two(form, 4) if form[1] == 9 else form[2]
        index = r.randrange(max(1, bound)) if self.often(0.85) else r.choice([bound, bound + 1, 2 ** 32 - 1])
        return put(4, 7, w2=base, d12=index)

    def sample(self, kind):
        r = self.random
        image, gather = self.fit(10), r.randrange(2)
        return put(4, kind, w2=image, b6=gather if kind == 14 else 0)

    def binary(self):
        r = self.random
        operator = r.choice(list(range(18)) + [2] * 10 + [14, 15])
        right = self.earlier(len(self.file.rows))
        if operator == 2:
            left, right = r.choice([(1, 2), (1, 1), (2, 1), (2, 2), (2, 3), (3, 2), (3, 3), (3, 1), (4, 4), (1, 8), (4, 1)])
            left, right = self.fit(left), self.fit(right)
        elif operator in (14, 15):
            left = self.fit(1)
            bools = [at for at in self.by_kind.get(1, []) if self.form(self.typing.answers[at])[4:6] == bytes(model.BOOL)]
            if bools and self.often(0.8):
                left = r.choice(bools)
        elif 5 <= operator <= 10:
            left = self.fit(1, 2)
        else:
            left = self.typed()
        return put(4, 18, w2=left, w4=right, b6=operator)

    def compose(self):
        r, file = self.random, self.file
        if not file.types:
            return self.add(self.row(1))
        good = [at for at, f in enumerate(file.types) if f[1] in (2, 3, 9) or (f[1] == 8 and f[4] == 0 and four(f, 8) < 9)]
        ty = r.choice(good) if good and self.often(0.9) else r.randrange(len(file.types))
        parts = self.parts(ty)
        if file.rows and self.often(0.3):
            self.spoil(parts)
        first, many = len(file.components), len(parts)
        if file.components and self.often(0.1):     # a range that others may have too
            first = r.randrange(len(file.components) + 1)
            many, parts = min(many, len(file.components) - first), []
        elif many and first and two(file.components[-1], 2) == parts[0]:
            first, parts = first - 1, parts[1:]
        if self.room < 1 + len(parts):
            if self.room:
                self.add(self.row(1))
            return None
        file.components += [put(5, 0, w2=part) for part in parts]
        self.room -= len(parts)
        return self.add(put(4, 5, w2=ty, w4=many, d12=first))

    def parts(self, ty):
        """Rows that make up a type, mostly; rows are added for what is not there."""
        r, f = self.random, self.file.types[ty]
        if f[1] == 2:
            left, parts = f[2], []
            while left:
                fit = [at for k in (1, 2) for at in self.by_kind.get(k, []) if self.piece(at, f) <= left
                       and self.piece(at, f)]
                if not fit:
                    return [self.zero(ty)]
                parts.append(r.choice(fit))
                left -= self.piece(parts[-1], f)
            return parts
        if f[1] == 3:
            column = model.vector(f[3], (f[4], f[5]))[1:]
            fit = [at for at in self.by_kind.get(2, []) if self.form(self.typing.answers[at])[1:] == column]
            if not fit:
                whole = self.zero(ty)
                fit = [self.add(put(4, 7, w2=whole)) if self.room > 0 else whole]
            return [r.choice(fit) for _ in range(f[2])]
        if f[1] == 8 and f[4] == 0 and four(f, 8) < 9:
            base = two(f, 2)
            return [self.like(base) for _ in range(four(f, 8))]
        if f[1] == 9:
            return [self.like(two(m, 2)) for m in self.file.members[two(f, 2):two(f, 2) + two(f, 4)]]
        return [self.earlier(len(self.file.rows)) for _ in range(r.randrange(3))] if self.file.rows else []

    def piece(self, at, f):
        form = self.form(self.typing.answers[at])
        return (form[2] if form[1] == 2 else 1) if form[4:6] == f[4:6] else 0

    def zero(self, ty):
        """A row of type number `ty`."""
        rows = [at for at, a in enumerate(self.typing.answers) if a == number(ty)]
        if rows and (self.room <= 0 or self.often(0.5)):
            return self.random.choice(rows)
        if self.room <= 0:
            return self.earlier(len(self.file.rows))
        return self.add(put(4, 4, w2=ty))

    def like(self, ty):
        """A row that is of the same type, mostly."""
        if self.often(0.5):
            sample = self.random.sample(range(len(self.typing.answers)), min(20, len(self.typing.answers)))
            for at in sample:
                answer = self.typing.answers[at]
                if answer[0] != 10 and self.typing.same(number(ty), answer) == 'yes':
                    return at
        return self.zero(ty)

    def spoil(self, parts):
        r, rows = self.random, len(self.file.rows)
        for _ in range(r.choice([1, 1, 2])):
            at = r.randrange(len(parts)) if parts else 0
            way = r.randrange(4)
            if way == 0 or not parts:
                parts.insert(at, self.earlier(rows))
            elif way == 1:
                parts.pop(at)
            elif way == 2:
                parts[at] = r.choice(self.by_kind.get('none') or [self.earlier(rows)])
            else:
                parts[at] = self.earlier(rows)

    # Comparisons and damage.

    def frame(self):
        """A frame to compare: mostly sound, and of few types."""
        r, types = self.random, self.file.types
        way = r.randrange(24)
        if way == 0:
            return bytes(r.randrange(256) for _ in range(16))
        if way == 1:
            return number(r.choice([len(types), len(types) + 1, 65535]))
        answers = [a for a in self.typing.answers if a[0] != 10 or self.often(0.02)]
        if way < 10 and answers:
            frame = r.choice(answers)
        elif way < 17 and types:
            frame = number(r.randrange(len(types)))
        elif types:
            frame = b'\x09' + r.choice(types)[1:]       # a struct or an unknown kind too
            if (frame[1] == 9 or not model.known_type(frame)) and self.often(0.8):
                frame = model.scalar(self.scalar())
        else:
            frame = model.scalar(self.scalar())
        if self.often(0.02):        # a width that no scalar has, mostly
            frame = model.scalar((r.randrange(6), r.randrange(256)))
        if self.often(0.05):
            frame = bytearray(frame)
            frame[r.randrange(16)] = r.choice([0, 1, 2, 3, 9, r.randrange(256)])
        return bytes(frame)

    def pair(self):
        left, right = self.frame(), self.frame()
        form = self.form(left) if left[0] == 8 and two(left, 2) < len(self.file.types) else None
        if self.often(0.3):     # the same by another form, or nearly
            right = left if form is None or form[1] == 9 else b'\x09' + form[1:]
            base = self.file.types[two(right, 2)] if right[1] == 6 and two(right, 2) < len(self.file.types) else None
            if base and base[1] in (1, 2) and self.often(0.7):
                right = model.value_pointer(base[2], (base[4], base[5]), right)
            alike = [at for at, f in enumerate(self.file.types) if f[1:] == right[1:]]
            if alike and self.often(0.4):
                right = number(self.random.choice(alike))
        return (left, right) if self.often(0.5) else (right, left)


def damaged(text, r):
    """One to three faults: a bit, a digit, a cut, a swap, a line lost or twice."""
    for _ in range(r.choice([1, 1, 2, 3])):
        if not text:
            return text
        way, at = r.randrange(8), r.randrange(len(text))
        lines = text.splitlines(True)
        line = r.randrange(len(lines))
        if way == 0:
            text = text[:at] + bytes([text[at] ^ 1 << r.randrange(8)]) + text[at + 1:]
        elif way < 4:
            at -= text[at] == 10
            text = text[:at] + r.choice([b'0', b'1', b'%x' % r.randrange(16)]) + text[at + 1:]
        elif way == 4:
            text = text[:at] + text[at + r.choice([1, 1, 2, 33, 100, len(text)]):]
        elif way == 5:
            other = r.randrange(len(lines))
            lines[line], lines[other] = lines[other], lines[line]
            text = b''.join(lines)
        else:
            text = b''.join(lines[:line] + ([lines[line]] * 2 if way == 6 else []) + lines[line + 1:])
    return text


def main():
    options = argparse.ArgumentParser(description=__doc__, formatter_class=argparse.RawDescriptionHelpFormatter)
    options.add_argument('seed', type=int)
    options.add_argument('--frames', type=int)
    options.add_argument('--newer', action='store_true', default=None)
    options.add_argument('--known', dest='newer', action='store_false')
    options.add_argument('--damage', action='store_true')
    options.add_argument('--pairs', type=int)
    given = options.parse_args()
    maker = Maker(given.seed, given.frames, given.newer)
    text = maker.text().encode()
    if given.pairs is not None:
        for _ in range(given.pairs):
            left, right = maker.pair()
            print(left.hex(), right.hex())
        return
    if given.damage:
        text = damaged(text, random.Random(given.seed))
    sys.stdout.buffer.write(text)


if __name__ == '__main__':
    main()
