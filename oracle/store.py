#!/usr/bin/env python3
"""store.py ORACLE: writes the cases of cases.py, with what must be printed of each, for the program replay_answers.
store.py ORACLE --confirm: asks the oracle and model.py again for each stored case, and counts differences.
store.py ORACLE --first: holds the answers of the first rules (first_rules/) against the oracle, which must give the same but where they are 22.

Each case has the source of its output: `hand` (written by hand from documents 01 and 02; of an accepted file the oracle prints the same),
`rust` (printed by the oracle) or `model` (a refused file's number and place, by model.py; the oracle only refuses it).
"""

import collections
import pathlib
import subprocess
import sys
import tempfile

sys.dont_write_bytecode = True
import cases
import model
from model import four, two

HOME = pathlib.Path(__file__).parent.parent / 'crates' / 'replay_answers'
FIRST = pathlib.Path(__file__).parent / 'first_rules'
READS = (*range(6, 10), *range(13, 22), 23, 33, 34)
MODES = {1: 12, 14: 2, 16: 4, 18: 18, 21: 4}
TYPES = ('Scalar', 'Vector', 'Matrix', 'CooperativeMatrix', 'Atomic', 'Pointer', 'ValuePointer', 'Array', 'Struct', 'Image', 'Sampler',
         'AccelerationStructure', 'RayQuery', 'BindingArray')
SIZES = ('constant', 'pending', 'dynamic')


def oracle_says(oracle, text, pairs):
    """The oracle's lines, marks included, and its words on the pairs; None where it refuses the file."""
    done = subprocess.run([oracle], input=text, capture_output=True)
    if done.returncode == 2:
        return None
    done.check_returncode()
    words = ''
    if pairs:
        with tempfile.NamedTemporaryFile('w') as file:
            file.write(''.join('%s %s\n' % (left.hex(), right.hex()) for left, right in pairs))
            file.flush()
            words = subprocess.run([oracle, 'compare-many', file.name], input=text, capture_output=True, check=True).stdout.decode()
    return done.stdout.decode() + words


def model_says(text, pairs):
    """The same by model.py, and the file; a refused file has its number for every pair, and None for the file."""
    try:
        file = model.read(text)
    except model.Refused as refused:
        return model.marked(refused.frame()) + '!%d\n' % refused.number * len(pairs), None
    return model.lines(file) + ''.join(model.compare(file, *pair) + '\n' for pair in pairs), file


def hand_says(case):
    return ''.join(map(model.marked, case.says)) + ''.join(word + '\n' for _, _, word in case.pairs)


# What a case shows.

def kind_of(row):
    return (row[1], row[6]) if row[1] in MODES else (row[1],)


def type_kind(frame):
    if not model.known_type(frame):
        return 'unknown'
    name = TYPES[frame[1] - 1]
    return '%s %s' % (SIZES[frame[4]], name) if frame[1] in (8, 14) else name


def newer(file, answers, at):
    """Where a row's 22 was met."""
    row = file.rows[at]
    if two(answers[at], 2) != at:
        return 'passed on'
    if not model.known_row(row):
        return 'own kind'
    operands = [two(row, 2)] + ([two(row, 4)] if kind_of(row) == (18, 2) else [])
    forms = [file.types[two(a, 2)] if a[0] == 8 else a for a in (answers[n] for n in operands)]
    for word, form in zip(('looked into', 'right looked into'), forms):
        if not model.known_type(form):
            return word
    return 'base looked into'


def newer_part(file, answer):
    """Where a verdict's 22 at a component was met."""
    if answer[0] == 10:
        return 'row'
    form = file.types[two(answer, 2)] if answer[0] == 8 else answer
    if not model.known_type(form):
        return 'type'
    return 'base' if form[1] == 6 and not model.known_type(file.types[two(form, 2)]) else 'wanted'


def shown(file, frames):
    """The classes of an accepted file's rows and verdicts, a class for each line, and those of the whole file."""
    answers = [f for f in frames if f[0] != 11]
    verdicts = iter([f for f in frames if f[0] == 11])
    depth = []
    for at, (row, answer) in enumerate(zip(file.rows, answers)):
        yield 'row', *(kind_of(row) if model.known_row(row) or row[1] == 22 else ('unknown',))
        if answer[0] == 10:
            yield ('refusal', 22, newer(file, answers, at), *kind_of(row)) if answer[1] == 22 else ('refusal', answer[1])
        elif row[1] in (14, 15):
            image = answers[two(row, 2)]
            form = file.types[two(image, 2)] if image[0] == 8 else image
            if form[4] == 3:
                yield 'storage', *kind_of(row), form[2], form[5]
        depth.append(1 + depth[two(row, 2)] if row[1] in READS and two(row, 2) < at else 0)
        if row[1] == 5:
            verdict, ty = next(verdicts), type_kind(file.types[two(row, 2)])
            where = ()
            if verdict[1] == 22 and four(verdict, 4) < 2 ** 32 - 1:
                where = (newer_part(file, answers[two(file.components[four(row, 12) + four(verdict, 4)], 2)]),)
            yield 'verdict', verdict[1], ty, *where
    rows, composes = len(file.rows), sum(row[1] == 5 for row in file.rows)
    yield from [(word,) for word, met in (
        ('empty file', not file.frames), ('1,024 frames', len(file.frames) == 1024),
        ('1,024 frames, 500 rows', len(file.frames) == 1024 and rows >= 500), ('500 composes', composes >= 500),
        ('chain of 300 rows', depth and max(depth) >= 300), ('newer', any(f[0] > 9 and f[1] == 22 for f in frames))) if met]


def wanted():
    """What must be there, what must be there by hand, and what must be there by the source."""
    row = {('row', kind) for kind in range(1, 35) if kind not in MODES} | {('row', 'unknown')}
    row |= {('row', kind, mode) for kind, many in MODES.items() for mode in range(many)}
    refusals = {('refusal', n) for n in range(10, 21)}
    made = ['Vector', 'Matrix', 'constant Array', 'Struct']
    others = {size + ' ' + name for size in SIZES for name in ('Array', 'BindingArray')} | set(TYPES) - {'Array', 'BindingArray'}
    others -= set(made)
    verdicts = {('verdict', 30, ty) for ty in others} | {('verdict', n, ty) for ty in made for n in (0, 31, 32)}
    looks = {(6,), (7,), (8,), (9,), (13,), (14, 0), (14, 1), (15,), (16, 0), (21, 2), (21, 3), (23,), (33,)}
    looks |= {(18, op) for op in (2, *range(5, 11), 14, 15)}
    passes = {(17,), (19,), (20,), (34,)} | {(18, op) for op in range(18)}
    sorts = {('own kind', n) for n in (0, 22, 35, 255)} | {('looked into', *kind) for kind in looks} | {('right looked into', 18, 2)}
    sorts |= {('base looked into', kind) for kind in (6, 7, 13, 33)}
    sorts |= {('passed on', *kind) for kind in looks | passes}
    hand = {('refusal', 22, *sort) for sort in sorts} | {('verdict', 33, ty) for ty in made} | {('verdict', 22, 'unknown')}
    hand |= {('verdict', 22, ty, where) for ty in made for where in ('row', 'type')}
    hand |= {('verdict', 22, ty, where) for ty in made[2:] for where in ('base', 'wanted')}
    hand |= {('compared', word) for word in ('yes', 'no', '22', '5', '6')} | {('refused', n) for n in (1, 2, 4, 5, 6)}
    files = {('empty file',), ('1,024 frames',), ('1,024 frames, 500 rows',), ('500 composes',), ('chain of 300 rows',), ('33,793 bytes',),
             ('last line without its feed',)}
    reads = {('storage', *kind, dimension, form) for kind in ((14, 0), (14, 1), (15,)) for dimension in range(1, 5) for form in range(41)}
    return row | refusals | verdicts | files | hand, hand | {('empty file',)}, reads


def classes(text, pairs, said, file):
    """The classes of a case, from its stored output without marks."""
    lines = said.splitlines()
    words = lines[len(lines) - len(pairs):]
    frames = [bytes.fromhex(line) for line in lines[:len(lines) - len(pairs)]]
    if file is None:
        yield 'refused', frames[0][1]
        if len(text) == 33793:
            yield '33,793 bytes',
        if len(text) % 33 == 32 and b'\n' not in text[-32:]:
            yield 'last line without its feed',
        return
    yield from shown(file, frames)
    for word in words:
        yield 'compared', word


def write(oracle):
    data, out, met = [], [], {'hand': set(), 'rust': set(), 'model': set()}
    newer_files = collections.Counter()
    for name, case in cases.CASES.items():
        pairs = [(left, right) for left, right, _ in case.pairs]
        by_model, file = model_says(case.text, pairs)
        asked = oracle_says(oracle, case.text, pairs)
        assert asked == (by_model if file else None), name
        by_hand = None if case.says is None else hand_says(case)
        assert by_hand in (None, by_model), name
        source = 'hand' if by_hand is not None else 'rust' if file else 'model'
        said = {'hand': by_hand, 'rust': asked, 'model': by_model}[source].replace('!', '')
        head = '%-40s %-5s %05d %05d\n' % (name, source, len(case.text), 66 * len(pairs))
        frames = ''.join('%s\n%s\n' % (left.hex(), right.hex()) for left, right in pairs)
        data.append(head.encode() + case.text + frames.encode() + b'\n')
        out.append(head + said)
        shows = set(classes(case.text, pairs, said, file))
        met[source] |= shows
        if name.startswith('seed-') and file:
            newer_files[('newer',) in shows] += 1
    every, hand, rust = wanted()
    assert not every - set.union(*met.values()), every - set.union(*met.values())
    assert not hand - met['hand'], hand - met['hand']
    assert not rust - met['rust'], rust - met['rust']
    assert cases.CASES['p-example'].says
    assert len(data) >= 300 and newer_files[False] >= newer_files[True], newer_files
    (HOME / 'data').mkdir(parents=True, exist_ok=True)
    (HOME / 'data' / 'cases').write_bytes(b''.join(data))
    (HOME / 'stdout').write_text(''.join(out))
    print(len(data), 'cases; of the generated files', newer_files[True], 'meet newer things,', newer_files[False], 'none')


def stored(data, out):
    """The stored cases: name, source, text, pairs, and what must be printed."""
    data, out = data.read_bytes(), out.read_text()
    while data:
        head, data = data[:59], data[59:]
        name, source, size, more = head.decode().split()
        size, end = int(size), int(size) + int(more)
        lines = bytes.fromhex(data[size:end].decode())
        pairs = [(lines[at:at + 16], lines[at + 16:at + 32]) for at in range(0, len(lines), 32)]
        text, data = data[:size], data[end + 1:]
        assert out.startswith(head.decode()), name
        out = out[59:]
        next_at = out.find(data[:59].decode()) if data else len(out)
        yield name, source, text, pairs, out[:next_at]
        out = out[next_at:]
    assert not out


def confirm(oracle):
    met, wrong = collections.Counter(), 0
    for name, source, text, pairs, said in stored(HOME / 'data' / 'cases', HOME / 'stdout'):
        asked = oracle_says(oracle, text, pairs)
        by_model, file = model_says(text, pairs)
        if by_model.replace('!', '') != said or (asked.replace('!', '') != said if asked is not None else file is not None):
            wrong += 1
            print(name, 'differs')
        met['cases', source] += 1
        met['bytes of files'] += len(text)
        for line in said.splitlines():
            if len(line) == 32:
                frame = bytes.fromhex(line)
                met['lines of family %d' % frame[0], *([frame[1]] if frame[0] > 9 else [])] += 1
        for line in by_model.splitlines():
            met['lines', source, 'by document 01' if line[0] == '!' or asked is None else 'by the source'] += 1
        for shows in classes(text, pairs, said, file):
            if shows[0] in ('verdict', 'compared') or len(shows) == 1:
                met[shows] += 1
    for words in sorted(met, key=str):
        print(*(words if isinstance(words, tuple) else [words]), met[words])
    print(wrong, 'differences')
    return wrong > 0


def first(oracle):
    met, wrong = collections.Counter(), 0
    for name, _, text, pairs, said in stored(FIRST / 'cases', FIRST / 'answers'):
        asked = oracle_says(oracle, text, pairs)
        met['cases'] += 1
        if asked is None:
            met['cases refused'] += 1
            continue
        met['files with a 22 that is another answer now'] += said != asked.replace('!', '')
        for old, now in zip(said.split(), asked.replace('!', '').split(), strict=True):
            frame = bytes.fromhex(old) if len(old) == 32 else bytes(2)
            newer = frame[0] in (10, 11) and frame[1] == 22
            met['comparisons with a width that is none' if old != now and now == '5' else 'lines kept' if not newer else '22 as before' if old == now else '22 before, and another answer now'] += 1
            if old != now and not newer and now != '5':  # 5: a frame to compare has a width that is none (request 2)
                wrong += 1
                print(name, old, now)
    for words in sorted(met):
        print(words, met[words])
    print(wrong, 'differences')
    return wrong > 0


if __name__ == '__main__':
    ways = {'--confirm': confirm, '--first': first}
    sys.exit(ways[sys.argv[2]](sys.argv[1]) if sys.argv[2:] else write(sys.argv[1]))
