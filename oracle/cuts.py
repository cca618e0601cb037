#!/usr/bin/env python3
"""cuts.py ORACLE READER FIRST COUNT: the smallest part that shows a refusal, over files made by hand and generated ones.

ORACLE is the program that build.sh builds, READER the example cut_cases of bindings/rust. For each row of each file READER says its part: number and place, the marked rows, the lines of the
cut, and whether the lent buffers are as the rules leave them.

Of a row that ORACLE gives a type the number must be 48, of the number past the last row 6, and no row is marked. Of any other the marked rows must be those that `follow` below comes to, which was
written from document 01's sentence on a row's reading; and the cut must be all types, members and items as they are, the marked rows with their numbers renumbered, and no component, by the
sentences of document 02's request 12. Then ORACLE is asked for the answers of the cut: each row's must be its answer in the whole file, with the places of 10, 11, 13 to 16 and 22 renumbered, so
the named row's too, which is the last. Verdicts are not compared.
"""

import collections
import random
import subprocess
import sys

sys.dont_write_bytecode = True
import generate
from model import put, two

BATCH = 20
OPERAND = (6, 7, 8, 9, 13, 14, 15, 17, 19, 20, 23, 33, 34)
ROW_PLACES = (10, 11, 13, 14, 15, 16, 22)


def operands(row):
    """The rows that a row's rule reads, in order."""
    kind, mode = row[1], row[6]
    if kind == 18:
        return [two(row, 2), two(row, 4)] if mode == 2 else [two(row, 2)]
    if kind in OPERAND or (kind == 16 and mode == 0) or (kind == 21 and mode >= 2):
        return [two(row, 2)]
    return []


def follow(rows, answers, named):
    """The rows that the reading of a row comes to: the row itself, then what it reads with its own reading, to the first refusal."""
    come, left = set(), [named]
    while left:
        at = left.pop()
        if at in come:
            continue
        come.add(at)
        for operand in operands(rows[at]):
            left.append(operand)
            if answers[operand][0] == 10:
                break
    return sorted(come)


def renumbered(row, new):
    """A row of the cut: the rows that it names by their new numbers, 0 where they are gone; a compose without components."""
    kind, frame = row[1], bytearray(row)
    if kind in OPERAND or kind == 18 or (kind == 16 and row[6] == 0) or (kind == 21 and row[6] >= 2):
        frame[2:4] = new.get(two(row, 2), 0).to_bytes(2, 'little')
    if kind == 18:
        frame[4:6] = new.get(two(row, 4), 0).to_bytes(2, 'little')
    if kind == 5:
        frame[4:6], frame[12:16] = bytes(2), bytes(4)
    return bytes(frame)


def moved(answer, new):
    """An answer of the whole file as the cut must give it."""
    if answer[0] == 10 and answer[1] in ROW_PLACES:
        return answer[:2] + new[two(answer, 2)].to_bytes(2, 'little') + answer[4:]
    return answer


def row_answers(oracle, text, rows):
    """The oracle's answers of the rows; None where it refuses the file. A 22 is marked by it, and no other answer is."""
    done = subprocess.run([oracle], input=text, capture_output=True)
    if done.returncode != 0:
        return None
    lines, answers = iter(done.stdout.decode().split()), []
    for row in rows:
        line = next(lines)
        answer = bytes.fromhex(line.lstrip('!'))
        assert line.startswith('!') == (answer[0] == 10 and answer[1] == 22), line
        answers.append(answer)
        if row[1] == 5:
            next(lines)
    return answers


def text_of(frames):
    return ''.join(f.hex() + '\n' for f in frames).encode()


# Files by hand.

F32, VEC3, UNKNOWN = put(1, 1, b4=2, b5=4), put(1, 2, b2=3, b4=2, b5=4), put(1, 200)
LITERAL = put(4, 1, b6=1)


class Rows:
    def __init__(self):
        self.rows = []

    def add(self, row):
        self.rows.append(row)
        return len(self.rows) - 1

    def unary(self, at):
        return self.add(put(4, 17, w2=at))

    def binary(self, left, right, operator=2):
        return self.add(put(4, 18, w2=left, w4=right, b6=operator))


def each_number():
    """Each number with rows between that are no part of it; passed on, and as left, right and both of a product, under a sound and a refused fellow, and as a right that is not read."""
    front = [F32, VEC3, UNKNOWN, put(3, 5), put(3, 5, w2=2), put(3, 6)]
    r = Rows()
    r.add(LITERAL)
    value = r.add(put(4, 4, w2=0))
    vector = r.add(put(4, 5, w2=1, w4=3))
    unknown = r.add(put(4, 4, w2=2))
    pointer, far = r.add(put(4, 12)), r.add(put(4, 12, w2=1))
    faults = [
        lambda: put(4, 7, w2=r.unary(vector), d12=5), lambda: put(4, 6, w2=r.unary(value)), lambda: put(4, 7, w2=r.unary(value)),
        lambda: put(4, 6, w2=r.unary(pointer)), lambda: put(4, 7, w2=r.unary(pointer)), lambda: put(4, 8, w2=r.unary(vector), b6=2),
        lambda: put(4, 9, w2=r.unary(value), b6=2), lambda: put(4, 13, w2=r.unary(value)), lambda: put(4, 33, w2=r.unary(value), b6=8, b7=8),
        lambda: put(4, 14, w2=r.unary(value), b6=1), lambda: put(4, 15, w2=r.unary(value)), lambda: put(4, 16, w2=r.unary(value)),
        lambda: put(4, 24), lambda: put(4, 18, w2=r.unary(pointer), w4=value, b6=5), lambda: put(4, 18, w2=r.unary(value), w4=pointer, b6=14),
        lambda: put(4, 18, w2=r.unary(vector), w4=r.unary(pointer), b6=2), lambda: put(4, 21, w2=r.unary(pointer), b6=2),
        lambda: put(4, 23, w2=r.unary(pointer), b6=2), lambda: put(4, 10, d12=7), lambda: put(4, 28), lambda: put(4, 30),
        lambda: put(4, 22, d8=77), lambda: put(4, 35, w2=9), lambda: put(4, 9, w2=r.unary(unknown), b6=2), lambda: put(4, 13, w2=r.unary(far)),
        lambda: put(4, 18, w2=value, w4=r.unary(unknown), b6=2), lambda: put(4, 18, w2=unknown, w4=r.unary(value), b6=2),
    ]
    last = 0
    for fault in faults:
        r.add(LITERAL)
        at = r.add(fault())
        r.add(put(4, 5, w2=1, w4=3))
        passed = r.unary(at)
        sound = r.binary(r.unary(value), at, 0)
        for left, right in ((passed, sound), (sound, passed), (passed, last), (last, passed), (sound, sound)):
            r.binary(left, right)
        r.add(put(4, 19, w2=r.binary(sound, at)))
        last = passed
    return front + r.rows + [put(5, 0)] * 3


def each_operator():
    """Each operator between bools under a swizzle, which refuses it, with a right that no other row reads; and what has an operand in the source and reads none."""
    r = Rows()
    r.add(LITERAL)
    for operator in range(18):
        left = r.unary(r.add(put(4, 1, b6=9)))
        r.add(LITERAL)
        r.add(put(4, 9, w2=r.binary(left, r.add(LITERAL), operator), b6=3))
    for row in (put(4, 16, b6=1), put(4, 16, b6=2), put(4, 16, b6=3), put(4, 21), put(4, 21, b6=1), put(4, 27)):
        r.add(put(4, 9, w2=r.add(row), b6=4))
    return [F32, put(2, 0)] + r.rows


def chain(first, step, last=None, filler=0):
    """1,000 rows, each over the one before, with so many rows between that no row reads."""
    r = Rows()
    at = r.add(first)
    while len(r.rows) < 1000:
        for _ in range(filler):
            r.add(LITERAL)
        at = r.add(step(at))
    if last:
        r.add(last(at))
    return [F32, VEC3] + r.rows


def by_hand():
    product = lambda at: put(4, 18, w2=at, w4=max(at - 1, 0), b6=2)
    yield 'each number', each_number()
    yield 'each operator', each_operator()
    yield '1,000 refused', chain(put(4, 10, d12=3), lambda at: put(4, 17, w2=at))
    yield '1,000 newer', chain(put(4, 22), lambda at: put(4, 19, w2=at))
    yield '1,000 sound, then refused', chain(LITERAL, product, lambda at: put(4, 9, w2=at, b6=2))
    yield '500 of 1,000', chain(LITERAL, lambda at: put(4, 18, w2=at, w4=at + 1, b6=3), lambda at: put(4, 13, w2=at), 1)
    yield '250 of 1,000, products', chain(LITERAL, lambda at: put(4, 18, w2=at, w4=at, b6=2), lambda at: put(4, 6, w2=at), 3)


# Parts.

class Tally:
    def __init__(self):
        self.met, self.numbers, self.wrong = collections.Counter(), collections.Counter(), 0

    def differs(self, *words):
        self.wrong += 1
        print('differs:', *words)

    def hold(self, name, what, want, got):
        self.met[what] += 1
        if want != got:
            self.differs(name, what, want, got)


def hold_file(oracle, name, frames, said, tally):
    text = text_of(frames)
    front, rows = [f for f in frames if f[0] < 4], [f for f in frames if f[0] == 4]
    answers = row_answers(oracle, text, rows)
    assert answers is not None, name
    tally.met['files'] += 1
    for row in range(len(rows) + 1):
        words = next(said).split()
        lines = []
        while line := next(said):
            lines.append(line)
        at = words.index('cut')
        part, marks, cut = words[:3], [int(word) for word in words[3:at]], words[at + 1:-1]
        where = '%s row %d' % (name, row)
        if words[-1] != 'kept':
            tally.differs(where, 'buffers', words[-1])
        if row == len(rows) or answers[row][0] != 10:
            number = '6' if row == len(rows) else '48'
            tally.hold(where, 'rows without a part', ([str(row), number, '0'], [], [number, '0'], []), (part, marks, cut, lines))
            continue
        tally.numbers[answers[row][1]] += 1
        followed = follow(rows, answers, row)
        new = {old: k for k, old in enumerate(followed)}
        whole = front + [renumbered(rows[k], new) for k in followed]
        tally.hold(where, 'marks', ([str(row), '0', '0'], followed), (part, marks))
        tally.hold(where, 'cuts', (['0', str(len(whole))], text_of(whole)), (cut, ''.join(l + '\n' for l in lines).encode()))
        own = [bytes.fromhex(l) for l in lines]
        answered = row_answers(oracle, ''.join(l + '\n' for l in lines).encode(), [f for f in own if f[0] == 4])
        if answered is None:
            tally.differs(where, 'the cut is refused')
            continue
        tally.met['rows of cuts answered by the source'] += len(answered)
        tally.met['rows that are gone'] += len(rows) - len(followed)
        tally.met['composes in cuts'] += sum(rows[k][1] == 5 for k in followed)
        tally.met['rows named and not marked'] += sum(
            rows[k][1] == 18 and two(rows[k], 4) not in new for k in followed)
        tally.hold(where, 'answers of cuts', [moved(answers[k], new).hex() for k in followed], [a.hex() for a in answered])


def batch(oracle, reader, files, more, tally):
    asked = b''.join(b'%d %d\n' % (33 * len(frames), more.choice([0, 0, 1, 16, 100])) + text_of(frames) for _, frames in files)
    done = subprocess.run([reader], input=asked, capture_output=True)
    assert done.returncode == 0, 'the reader ended with %d' % done.returncode
    said = iter(done.stdout.decode().splitlines())
    for name, frames in files:
        hold_file(oracle, name, frames, said, tally)


def main():
    oracle, reader, first, count = sys.argv[1], sys.argv[2], int(sys.argv[3]), int(sys.argv[4])
    tally, more = Tally(), random.Random(first)
    for file in by_hand():
        batch(oracle, reader, [file], more, tally)
    for at in range(first, first + count, BATCH):
        seeds = range(at, min(at + BATCH, first + count))
        batch(oracle, reader, [('%d' % seed, generate.Maker(seed).frames()) for seed in seeds], more, tally)
    for name in sorted(tally.met):
        print(name, tally.met[name])
    for number in sorted(tally.numbers):
        print('parts of number', number, tally.numbers[number])
    missing = [n for n in (*range(10, 21), 22) if not tally.numbers[n]]
    if missing:
        tally.differs('no part of the numbers', missing)
    print(tally.wrong, 'differences')
    return tally.wrong > 0


if __name__ == '__main__':
    sys.exit(main())
