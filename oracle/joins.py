#!/usr/bin/env python3
"""joins.py ORACLE READER FIRST COUNT: two files in one, over pairs of generated files.

ORACLE is the program that build.sh builds, READER the example join_cases of bindings/rust. For each seed from FIRST on a pair of generated files, each with its things that may not be joined taken
out or left in; then the pair turned, a file with itself and with the empty file, a damaged file as either, and limits about the number of frames. READER says of each pair the join: number, place
and whose it is, its lines, and whether the lent buffers are as the rules leave them.

Of two accepted files the number must be 49 where `joinable` below, written from document 02's request 14, refuses one of them by its frames or by ORACLE's answers; else 1 where they have more frames
than the limit together. Otherwise the frames must be those that `joined` below comes to, written from the same sentences. Then ORACLE is asked for the answers of the join: these must be its answers
of the first file, then its answers of the second with type numbers, bases, override numbers and 12's place moved by the first's types and overrides, and the places of 10, 11, 13 to 16 and a verdict's
row by its rows; nothing else. A file that is not accepted must have its number and place by model.py, the first's before the second's.
"""

import collections
import random
import subprocess
import sys

sys.dont_write_bytecode = True
import generate
import model
from model import four, put, two

BATCH = 50
ROW_PLACES = (10, 11, 13, 14, 15, 16)


def text_of(frames):
    return ''.join(f.hex() + '\n' for f in frames).encode()


def frames_of(text):
    return [bytes.fromhex(line) for line in text.decode().split()]


# What the oracle says.

def lines_of(oracle, text, known={}):
    """The oracle's answers and verdicts without their marks; None where it refuses the file."""
    if text not in known:
        if len(known) > 400:
            known.clear()
        done = subprocess.run([oracle], input=text, capture_output=True)
        assert done.returncode in (0, 2), done.returncode
        known[text] = None if done.returncode else [bytes.fromhex(l.lstrip('!')) for l in done.stdout.decode().split()]
    return known[text]


def joinable(frames, lines):
    """No unknown kind or Math row, no special type item, no row answered 19 or 20."""
    for f in frames:
        if f[0] == 1 and not 1 <= f[1] <= 14:
            return False
        if f[0] == 3 and f[1] in (7, 8):
            return False
        if f[0] == 4 and (f[1] == 22 or not 1 <= f[1] <= 34):
            return False
    return not any(l[0] == 10 and l[1] in (19, 20) for l in lines)


class Moved:
    """The second file's answers, by how many types, overrides and rows the first has."""

    def __init__(self, frames):
        self.types = sum(f[0] == 1 for f in frames)
        self.overrides = sum(f[0] == 3 and f[1] == 2 for f in frames)
        self.rows = sum(f[0] == 4 for f in frames)

    def line(self, line):
        out = bytearray(line)
        by = 0
        if line[0] == 8 or (line[0] == 9 and line[1] in (6, 8, 14)) or (line[0] == 10 and line[1] == 12):
            by = self.types
        if line[0] == 11 or (line[0] == 10 and line[1] in ROW_PLACES):
            by = self.rows
        out[2:4] = (two(line, 2) + by).to_bytes(2, 'little')
        if line[0] == 9 and line[1] in (8, 14) and line[4] == 1:
            out[8:12] = (four(line, 8) + self.overrides).to_bytes(4, 'little')
        return bytes(out)


# The join's frames.

ROW_OPERAND = (6, 7, 8, 9, 13, 14, 15, 17, 18, 19, 20, 23, 33, 34)
TYPE_NAMED = (4, 5, 25, 26, 32)


def group(f):
    return (f[0], f[1] if f[0] == 3 else 0)


def numbers(f):
    """Where a frame has numbers: the byte, how many bytes, and the group that they count in."""
    family, kind, mode = f[0], f[1], f[6]
    types, rows, overrides = (1, 0), (4, 0), (3, 2)
    if family == 1 and kind in (6, 8, 14):
        yield 2, 2, types
    if family == 1 and kind in (8, 14) and f[4] == 1:
        yield 8, 4, overrides
    if family == 1 and kind == 9:
        yield 2, 2, (2, 0)
    if family == 2 or (family == 3 and (kind != 6 or f[4] == 1)) or (family == 4 and kind in TYPE_NAMED):
        yield 2, 2, types
    if family == 5 or (family == 4 and (kind in ROW_OPERAND or (kind == 16 and mode == 0) or (kind == 21 and mode >= 2))):
        yield 2, 2, rows
    if family == 4 and kind == 18:
        yield 4, 2, rows
    if family == 4 and kind == 5:
        yield 12, 4, (5, 0)
    if family == 4 and kind == 10:
        yield 12, 4, (3, 4)
    if family == 4 and kind in (2, 3, 11, 12, 24):
        yield 2, 2, (3, {2: 1, 3: 2, 11: 3, 12: 5, 24: 6}[kind])


def joined(first, second):
    """The groups in order, in each the first's frames, then the second's with their numbers moved past the first's."""
    have = collections.Counter(group(f) for f in first)
    late = []
    for f in second:
        frame = bytearray(f)
        for at, size, counted in numbers(f):
            frame[at:at + size] = (int.from_bytes(f[at:at + size], 'little') + have[counted]).to_bytes(size, 'little')
        late.append(bytes(frame))
    return sorted(first + late, key=group)


# Pairs.

def sound(frames):
    """The file without what may not be joined, as far as one look can take it out: unknown kinds become an f32 or a literal, and so do rows that have a 19 or 20 of their own; special types go."""
    arguments = sum(f[0] == 3 and f[1] == 4 for f in frames)
    out = []
    for f in frames:
        if f[0] == 1 and not 1 <= f[1] <= 14:
            f = put(1, 1, b4=2, b5=4)
        elif f[0] == 3 and f[1] in (7, 8):
            continue
        elif f[0] == 4 and (f[1] in (22, 28, 30) or not 1 <= f[1] <= 34 or (f[1] == 10 and four(f, 12) >= arguments)):
            f = put(4, 1, b6=1)
        out.append(f)
    return out


def pairs_of(seed):
    r = random.Random(seed)
    few = lambda: r.choice([None, 20, 60, 120, 300])
    a, b = (generate.Maker(2 * seed + k, few()).frames() for k in (0, 1))
    plain, other = sound(a), sound(b)
    both = len(plain) + len(other)
    yield 'sound', plain, other, 0
    yield 'turned', other, plain, 0
    yield 'limit', plain, other, r.choice([both - 1, both, both + 1, both // 2, 256])
    yield r.choice([('as made', a, b, 0), ('first as made', a, other, 0), ('second as made', plain, b, 0)])
    if seed % 4 == 0:
        yield 'itself', plain, plain, 0
    if seed % 4 == 1:
        yield 'empty', plain, [], 0
        yield 'empty first', [], other, 0
    if seed % 4 == 2:
        yield 'damaged', generate.damaged(text_of(plain), r), other, 0
    if seed % 4 == 3:
        yield 'damaged second', plain, generate.damaged(text_of(other), r), 0


class Tally:
    def __init__(self):
        self.met, self.wrong = collections.Counter(), 0

    def differs(self, *words):
        self.wrong += 1
        print('differs:', *words)

    def hold(self, name, what, want, got):
        self.met[what] += 1
        if want != got:
            self.differs(name, what, want, got)


def own_number(oracle, text, limit):
    """A file's number and place by model.py, its frames and the oracle's lines."""
    most = limit if 1 <= limit <= 1024 else 1024
    if len(text) > 33 * most:
        return (1, most), [], []
    lines = lines_of(oracle, text)
    try:
        model.read(text)
    except model.Refused as refused:
        assert lines is None, 'refused by model.py alone'
        return (refused.number, refused.place), [], []
    assert lines is not None, 'refused by the oracle alone'
    return (0, 0), frames_of(text), lines


def hold_pair(oracle, name, first, second, limit, said, tally):
    number, place, whose, kept = next(said).split()
    lines = []
    while line := next(said):
        lines.append(line)
    got = (int(number), int(place), int(whose))
    tally.met['pairs'] += 1
    if kept != 'kept':
        tally.differs(name, 'buffers', kept)
    of_first, a, said_a = own_number(oracle, first, limit)
    of_second, b, said_b = own_number(oracle, second, limit)
    most = limit if 1 <= limit <= 1024 else 1024
    if of_first[0]:
        want = (*of_first, 0)
    elif of_second[0]:
        want = (*of_second, 1)
    elif not (joinable(a, said_a) and joinable(b, said_b)):
        want = (49, 0, 2)
    elif len(a) + len(b) > most:
        want = (1, most, 2)
    else:
        want = (0, len(a) + len(b), 0)
    what = 'joins' if want[0] == 0 else 'number %d of the %s' % (want[0], ('first', 'second', 'join')[want[2]])
    tally.hold(name, what, want, got)
    if want[0] or got[0]:
        if lines:
            tally.differs(name, 'lines with a number')
        return
    join = [bytes.fromhex(l) for l in lines]
    tally.met['frames of joins'] += len(join)
    if join != joined(a, b):
        tally.differs(name, 'the frames of the join')
    answered = lines_of(oracle, ''.join(l + '\n' for l in lines).encode())
    if answered is None:
        return tally.differs(name, 'the join is refused')
    moved = Moved(a)
    wanted = said_a + [moved.line(l) for l in said_b]
    if len(wanted) != len(answered):
        return tally.differs(name, len(wanted), 'lines against', len(answered))
    for k, (w, g) in enumerate(zip(wanted, answered)):
        tally.met['lines of joins answered by the source'] += 1
        if k >= len(said_a):
            sort = 'family %d' % w[0] if w[0] == 8 or w[0] == 11 else 'value of kind %d' % w[1] if w[0] == 9 else 'number %d' % w[1]
            tally.met['second, ' + sort] += 1
            tally.met['second, ' + sort + ', moved'] += w != said_b[k - len(said_a)]
        if w != g:
            tally.differs(name, 'line', k, w.hex(), g.hex())


def batch(oracle, reader, pairs, more, tally):
    asked = b''.join(b'%d %d %d %d\n' % (len(a), len(b), limit, more.choice([0, 0, 1, 16, 100])) + a + b for _, a, b, limit in pairs)
    done = subprocess.run([reader], input=asked, capture_output=True)
    assert done.returncode == 0, 'the reader ended with %d' % done.returncode
    said = iter(done.stdout.decode().split('\n'))
    for name, a, b, limit in pairs:
        hold_pair(oracle, name, a, b, limit, said, tally)


def main():
    oracle, reader, first, count = sys.argv[1], sys.argv[2], int(sys.argv[3]), int(sys.argv[4])
    tally, more = Tally(), random.Random(first)
    as_text = lambda file: file if isinstance(file, bytes) else text_of(file)
    for at in range(first, first + count, BATCH):
        pairs = []
        for seed in range(at, min(at + BATCH, first + count)):
            pairs += [('%d %s' % (seed, name), as_text(a), as_text(b), limit) for name, a, b, limit in pairs_of(seed)]
        batch(oracle, reader, pairs, more, tally)
    for name in sorted(tally.met):
        print(name, tally.met[name])
    for number in (12, *ROW_PLACES):
        if not tally.met['second, number %d, moved' % number]:
            tally.differs('no moved place of number', number)
    print(tally.wrong, 'differences')
    return tally.wrong > 0


if __name__ == '__main__':
    sys.exit(main())
