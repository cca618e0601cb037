"""The stored cases: whole files by hand, and the seeds and sizes of generated ones. store.py writes them.

A case with `says` has its whole output written here by hand, from document 01, and document 02 for storage loads.
"""

import random

import generate
from model import BOOL, F32, U32, number, put, refusal, scalar, vector, verdict_frame


class Case:
    """A file, as its text. `says` is its output by hand, as frames, and `pairs` has two frames to compare each, with the answer by hand."""

    def __init__(self, text, says=None, pairs=()):
        self.text, self.says, self.pairs = text, says, list(pairs)


CASES = {}


def store(name, text, says=None, pairs=()):
    assert len(name) <= 40 and name not in CASES, name
    CASES[name] = Case(text, says, pairs)


def text_of(frames):
    return ''.join(frame.hex() + '\n' for frame in frames).encode()


def case(name, types=(), members=(), items=(), rows=(), parts=(), says=None, pairs=()):
    store(name, text_of([*types, *members, *items, *rows, *parts]), says, pairs)


def refused(name, n, place, text, pairs=()):
    """A file that is not accepted: its number and place, by hand."""
    store(name, text, [refusal(n, place)], [(left, right, '!%d' % n) for left, right in pairs])


# Types, members, items and rows in short.

def t_scalar(s=F32): return put(1, 1, b4=s[0], b5=s[1])
def t_vector(size, s=F32): return put(1, 2, b2=size, b4=s[0], b5=s[1])
def t_matrix(columns, rows, s=F32): return put(1, 3, b2=columns, b3=rows, b4=s[0], b5=s[1])
def t_atomic(s=U32): return put(1, 5, b4=s[0], b5=s[1])
def t_pointer(base, space=0, access=0): return put(1, 6, w2=base, b6=space, b7=access)
def t_array(base, count, stride=0): return put(1, 8, w2=base, d8=count, d12=stride)
def t_struct(first, count, span=0): return put(1, 9, w2=first, w4=count, d12=span)
def member(ty, offset=0): return put(2, 0, w2=ty, d12=offset)
def part(row): return put(5, 0, w2=row)
def local(ty): return put(3, 5, w2=ty)
def unknown(kind=200): return put(1, kind)
def literal(kind): return put(4, 1, b6=kind)
def zero(ty): return put(4, 4, w2=ty)
def compose(ty, count, first): return put(4, 5, w2=ty, w4=count, d12=first)
def access(row): return put(4, 6, w2=row)
def index(row, at): return put(4, 7, w2=row, d12=at)
def local_row(n): return put(4, 12, w2=n)
def load(row): return put(4, 13, w2=row)
def binary(op, left, right): return put(4, 18, b6=op, w2=left, w4=right)
def over(kind, row, **more): return put(4, kind, w2=row, **more)


def value_of(ty, **more): return put(9, ty, **more)


# Document 01's own cases.

case('p-example', [t_scalar(), t_vector(3), unknown()], items=[local(1), local(2)],
     rows=[local_row(0), index(0, 2), load(1), local_row(1), load(3), index(0, 3)],
     says=[value_of(6, w2=1), value_of(7, b4=2, b5=4), scalar(F32), value_of(6, w2=2), refusal(22, 4), refusal(10, 0, 3)])
case('p-empty', says=[])
case('p-matrix-index', [t_matrix(3, 2)], rows=[zero(0), index(0, 2), index(0, 3)],
     says=[number(0), vector(2, F32), refusal(10, 0, 3)])
case('p-scalar-times-vector', [t_scalar(), t_vector(4)], rows=[zero(0), zero(1), binary(2, 0, 1), literal(1), binary(2, 3, 1)],
     says=[number(0), number(1), number(1), scalar(F32), number(1)])
case('p-vec4', [t_scalar(), t_vector(3), t_vector(4)], rows=[zero(0), zero(1), compose(2, 2, 0), compose(2, 2, 1)],
     parts=[part(0), part(1), part(1)],
     says=[number(0), number(1), number(2), verdict_frame(0, 2), number(2), verdict_frame(31, 3, 4, 6)])
case('p-same', [t_scalar(), t_pointer(0), t_struct(0, 1), t_struct(0, 1)], [member(0)], says=[],
     pairs=[(number(1), value_of(7, b4=2, b5=4), 'yes'), (number(2), number(3), 'no'), (number(2), number(2), 'yes')])

# Points of reading.

case('refusal-fields', [t_scalar(), t_vector(2), t_struct(0, 1), t_scalar()], [member(0)],
     [put(3, 4, w2=1), put(3, 4, w2=0), local(1), local(2), local(3), put(3, 6)],
     [put(4, 10, d12=1), put(4, 10, d12=2), put(4, 10, d12=2 ** 32 - 1), put(4, 24), put(4, 28), put(4, 30),
      local_row(0), index(6, 2), local_row(1), index(8, 1), access(8), local_row(2), access(11), index(11, 0),
      zero(2), access(14), index(14, 1), zero(0), access(17), index(17, 0), binary(2, 14, 14)],
     says=[number(0), refusal(19, 0, 2), refusal(19, 0, 2 ** 32 - 1), refusal(17), refusal(20), refusal(20),
           value_of(6, w2=1), refusal(10, 6, 2), value_of(6, w2=2), refusal(10, 8, 1), refusal(12, 2),
           value_of(6, w2=3), refusal(12, 3), refusal(12, 3, 0, 1),
           number(2), refusal(11, 14), refusal(10, 14, 1), number(0), refusal(11, 17), refusal(11, 17, 0, 1), refusal(18)])
case('newer-place', [unknown(), t_scalar()],
     rows=[zero(0), put(4, 22, d4=5), over(17, 1), over(17, 0), access(3), over(17, 4), zero(1), over(8, 6, b6=2),
           over(8, 3, b6=2), put(4, 35), over(19, 9)],
     says=[number(0), refusal(22, 1), refusal(22, 1), number(0), refusal(22, 4), refusal(22, 4), number(1), vector(2, F32),
           refusal(22, 8), refusal(22, 9), refusal(22, 9)])
case('multiply-order', [unknown(), t_scalar(), t_struct(0, 0)],
     rows=[zero(0), zero(1), put(4, 10, d12=9), put(4, 22), binary(2, 0, 2), binary(2, 1, 0), binary(2, 0, 1),
           binary(2, 3, 2), binary(2, 2, 3), binary(2, 0, 3), zero(2), binary(2, 10, 0), binary(0, 0, 2)],
     says=[number(0), number(1), refusal(19, 0, 9), refusal(22, 3), refusal(19, 0, 9), refusal(22, 5), refusal(22, 6),
           refusal(22, 3), refusal(19, 0, 9), refusal(22, 3), number(2), refusal(22, 11), number(0)])
case('storage-image', [put(1, 10, b2=2, b4=3, b5=40, b7=7), t_scalar(), t_pointer(0)],
     rows=[zero(0), over(14, 0), over(14, 0, b6=1), over(15, 0), over(16, 0), put(4, 16, b6=1), zero(1), over(14, 6),
           over(15, 6), zero(2), over(15, 9), load(9), over(15, 11), put(4, 22), over(15, 13)],
     says=[number(0), vector(4, F32), vector(4, F32), vector(4, F32), vector(2, U32), scalar(U32), number(1), refusal(16, 6),
           refusal(16, 6), number(2), refusal(16, 9), number(0), vector(4, F32), refusal(22, 13), refusal(22, 13)])
case('storage-global', [put(1, 10, b2=2, b4=3, b5=1, b7=3)], items=[put(3, 3, b6=5), put(3, 5)],
     rows=[put(4, 11), local_row(0)] + [over(kind, n, **more) for n in (0, 1) for kind, more in ((14, {}), (14, dict(b6=1)), (15, {}), (16, {}))] +
     [load(1), over(15, 10), over(17, 11)],
     says=[number(0), value_of(6), vector(4, F32), vector(4, F32), vector(4, F32), vector(2, U32)] + [refusal(16, 1)] * 4 +
     [number(0), vector(4, F32), vector(4, F32)])
# Rgba8Unorm, R16Snorm, Rg11b10Ufloat, R16Float, R32Sint, Rgb10a2Uint, R64Uint, Rg32Uint: loads, samples, gathers, and what goes on from a load
case('storage-scalars', [put(1, 10, b2=2, b4=3, b5=f, b7=1) for f in (17, 36, 24, 6, 12, 22, 25, 26)],
     rows=[zero(n) for n in range(8)] + [over(15, n) for n in range(8)] + [over(14, n) for n in range(8)] + [over(14, n, b6=1) for n in range(8)] +
     [index(14, 3), index(14, 4), binary(2, 14, 14)],
     says=[number(n) for n in range(8)] + [vector(4, s) for s in (F32, F32, F32, F32, (0, 4), U32, (1, 8), U32)] * 2 + [vector(4, F32)] * 8 +
     [scalar((1, 8)), refusal(10, 14, 4), vector(4, (1, 8))])
case('logical-exact', [t_scalar(BOOL), t_scalar((3, 4)), t_vector(2, BOOL), unknown()],
     rows=[zero(0), binary(14, 0, 0), literal(9), binary(15, 2, 0), zero(1), binary(14, 4, 0), zero(2), binary(15, 6, 0),
           zero(3), binary(14, 8, 0), binary(15, 8, 0), binary(14, 0, 8)],
     says=[number(0), scalar(BOOL), scalar(BOOL), scalar(BOOL), number(1), refusal(18), number(2), refusal(18), number(3),
           refusal(22, 9), refusal(22, 10), scalar(BOOL)])
case('as-matrix', [t_matrix(2, 3, (0, 4)), t_vector(3), t_scalar()],
     rows=[zero(0), over(23, 0, b6=2), over(23, 0, b6=3, b7=1, b8=1), zero(1), over(23, 3, b6=1), zero(2),
           over(23, 5, b6=1, b7=1, b8=2), over(23, 5, b6=4, b7=1, b8=8)],
     says=[number(0), value_of(3, b2=2, b3=3, b4=0, b5=4), value_of(3, b2=2, b3=3, b4=0, b5=1), number(1), vector(3, (1, 4)),
           number(2), scalar((1, 2)), scalar((4, 8))])
case('pass-unlooked', [unknown(), t_pointer(0), t_array(0, 2), t_pointer(2), t_pointer(1)],
     items=[local(0), put(3, 1, w2=0)][::-1],
     rows=[put(4, 2), zero(1), zero(2), access(2), zero(3), index(4, 9), load(5), zero(4), load(7), load(8), binary(1, 0, 0),
           over(34, 0), over(20, 1), over(8, 1, b6=3), over(23, 1, b6=0)],
     says=[number(0), number(1), number(2), number(0), number(3), value_of(6, w2=0), refusal(22, 6), number(4), number(1),
           refusal(22, 9), number(0), number(0), number(1), refusal(13, 1), refusal(18)])
case('atomic', [t_atomic(), t_scalar(), t_array(0, 2), t_pointer(2)], items=[local(0), local(1), local(2)],
     rows=[local_row(0), load(0), access(0), local_row(1), load(3), zero(3), access(5), load(6), zero(0), load(8), over(33, 0, b6=8, b7=8)],
     says=[value_of(6, w2=0), scalar(U32), refusal(12, 0), value_of(6, w2=1), number(1), number(3), value_of(6, w2=0),
           scalar(U32), number(0), refusal(15, 8), refusal(15, 0)])
case('verdict-newer', [t_scalar(), unknown(), t_pointer(1), t_vector(2), t_matrix(2, 2), t_array(1, 2), t_array(0, 2), t_struct(0, 2), t_struct(0, 0)],
     [member(1), member(0)],
     rows=[zero(0), zero(1), zero(2), put(4, 22), put(4, 10), zero(8), zero(3),
           compose(1, 1, 0), compose(3, 2, 0), compose(3, 1, 2), compose(4, 2, 4), compose(4, 2, 6), compose(5, 2, 8),
           compose(5, 2, 0), compose(5, 2, 10), compose(6, 2, 0), compose(6, 2, 12), compose(6, 2, 14), compose(6, 2, 16),
           compose(6, 1, 4), compose(7, 2, 3), compose(3, 2, 14), compose(3, 3, 14)],
     parts=[part(n) for n in (0, 1, 2, 1, 0, 1, 6, 2, 1, 1, 5, 1, 2, 0, 0, 3, 4, 3)],
     says=[number(0), number(1), number(2), refusal(22, 3), refusal(19), number(8), number(3),
           number(1), verdict_frame(22, 7, 0xffffffff), number(3), verdict_frame(22, 8, 1), number(3), verdict_frame(32, 9, 0),
           number(4), verdict_frame(32, 10, 0), number(4), verdict_frame(32, 11, 1), number(5), verdict_frame(0, 12),
           number(5), verdict_frame(22, 13, 0), number(5), verdict_frame(32, 14, 0), number(6), verdict_frame(22, 15, 1),
           number(6), verdict_frame(22, 16, 0), number(6), verdict_frame(22, 17, 1), number(6), verdict_frame(33, 18, 0),
           number(6), verdict_frame(31, 19, 2, 1), number(7), verdict_frame(0, 20), number(3), verdict_frame(22, 21, 1),
           number(3), verdict_frame(22, 22, 1)])
case('verdict-order', [t_scalar(), t_vector(2), t_matrix(2, 2), t_array(0, 2), t_struct(0, 1), t_scalar(U32)], [member(0)],
     rows=[zero(0), zero(1), zero(5), put(4, 10), put(4, 22), compose(1, 2, 0), compose(1, 3, 2), compose(1, 0, 0),
           compose(2, 1, 0), compose(3, 3, 0), compose(4, 0, 0), compose(3, 2, 5), compose(2, 2, 7), compose(1, 2, 8)],
     parts=[part(n) for n in (2, 3, 1, 1, 0, 3, 4, 1, 4, 3)],
     says=[number(0), number(1), number(5), refusal(19), refusal(22, 4), number(1), verdict_frame(32, 5, 0),
           number(1), verdict_frame(31, 6, 2, 5), number(1), verdict_frame(31, 7, 2, 0), number(2), verdict_frame(31, 8, 2, 1),
           number(3), verdict_frame(31, 9, 2, 3), number(4), verdict_frame(31, 10, 1, 0), number(3), verdict_frame(33, 11, 0),
           number(2), verdict_frame(22, 12, 1), number(1), verdict_frame(22, 13, 0)])
case('compare-points', [t_scalar(), unknown(), t_pointer(1), t_struct(0, 1), t_pointer(2), t_scalar(), t_array(0, 2), t_array(5, 2), t_pointer(0), t_pointer(5),
                        t_atomic(), t_pointer(10), t_atomic(), t_pointer(12)], [member(0)],
     [put(3, 2)], says=[],
     pairs=[(number(1), number(1), 'yes'), (number(1), number(3), 'no'), (number(3), number(1), 'no'), (number(0), number(1), '!22'),
            (number(0), number(2), '!22'), (number(2), number(0), '!22'), (number(2), number(3), 'no'), (number(2), value_of(6, w2=1), '!22'),
            (value_of(6, w2=1), value_of(6, w2=1), 'yes'), (number(4), number(0), 'no'), (number(4), value_of(6, w2=2), 'yes'),
            (number(0), scalar(F32), 'yes'), (number(0), number(5), 'yes'), (number(6), number(7), 'no'), (number(8), number(9), 'yes'),
            (number(11), number(13), 'no'), (number(11), value_of(6, w2=10), 'yes'), (value_of(8, w2=0, d8=2), number(6), 'yes'),
            (value_of(8, w2=0, d8=2, d12=4), number(6), 'no'), (value_of(14, w2=0, b4=1), value_of(14, w2=0, b4=1), 'yes'),
            (value_of(14, w2=0, b4=1, d8=1), number(0), '!6'), (value_of(8, w2=0, b4=1, d8=1), number(0), '!6'), (value_of(14, w2=14, d8=1), number(0), '!6'),
            (number(14), number(14), '!6'), (number(14), bytes(16), '!6'),
            (bytes(16), number(14), '!5'), (value_of(9), value_of(9), '!5'), (value_of(200), number(0), '!5'),
            (put(8, 1), number(0), '!5'), (put(8, 0, b4=1), number(0), '!5'), (put(8, 0, w2=14, b15=1), number(0), '!5'),
            (value_of(6, w2=14, b6=10), number(0), '!5'), (value_of(6, w2=14), number(0), '!6'), (refusal(17), number(0), '!5'),
            (value_of(8, w2=0), number(0), '!5'), (value_of(8, w2=14), number(0), '!5'), (number(0), value_of(8, w2=14, b4=2), '!6'),
            (value_of(10, b2=2, b4=3, b5=41), number(0), '!5'), (value_of(11, b2=1), value_of(12, b2=1), 'no'),
            (value_of(4, b2=8, b3=16, b4=2, b5=2, b6=2), value_of(4, b2=8, b3=16, b4=2, b5=2, b6=2), 'yes')])
case('ranges-overlap', [t_scalar(), t_vector(2), t_struct(0, 2), t_struct(1, 2), t_struct(1, 0), t_array(1, 2)], [member(0), member(1), member(0)],
     rows=[zero(0), zero(1), compose(2, 2, 0), compose(3, 2, 1), compose(4, 0, 3), compose(5, 2, 3), compose(2, 2, 1)],
     parts=[part(n) for n in (0, 1, 0, 1, 1, 6)],
     says=[number(0), number(1), number(2), verdict_frame(0, 2), number(3), verdict_frame(0, 3), number(4), verdict_frame(0, 4),
           number(5), verdict_frame(0, 5), number(2), verdict_frame(32, 6, 0)])

# Each rule over each form. The types, from 0; 20 is of unknown kind, 21 points to it, 27 to an atomic.

FORMS = [
    t_scalar(), t_scalar(BOOL), t_vector(3), t_matrix(4, 2), put(1, 4, b2=8, b3=16, b4=2, b5=2, b6=1), t_atomic(),
    t_pointer(2), put(1, 7, b4=2, b5=4, b6=1), put(1, 7, b2=2, b4=2, b5=4, b6=4, b7=3), t_array(2, 5, 16),
    put(1, 8, b4=2, d12=4), t_struct(0, 2, 28), put(1, 10, b2=2, b5=1), put(1, 10, b2=4, b3=1, b4=1, b6=1),
    put(1, 10, b2=2, b4=2), put(1, 10, b2=3, b4=3, b5=25, b7=1), put(1, 11, b2=1), put(1, 12), put(1, 13, b2=1),
    put(1, 14, w2=12, d8=4), unknown(), t_pointer(20), t_vector(2, BOOL), put(1, 8, w2=3, b4=1, d12=32),
    put(1, 14, w2=16, b4=2), t_pointer(11, 4, 7), t_struct(2, 0), t_pointer(5, 2), put(1, 10, b2=1, b5=0),
]
MEMBERS = [member(0), member(2, 16)]
OVERRIDE = [put(3, 2, w2=0)]
MANY = len(FORMS)


def table(name, *rules):
    """Each rule over a value of each form, and over a pointer to it."""
    for word, row, items in ('values', zero, []), ('pointers', local_row, [local(n) for n in range(MANY)]):
        case('%s-%s' % (name, word), FORMS, MEMBERS, OVERRIDE + items,
             [row(n) for n in range(MANY)] + [rule(n) for rule in rules for n in range(MANY)])


def over_some(name, forms, *rules):
    """Each rule over a value of some forms."""
    case(name, FORMS, MEMBERS, OVERRIDE, [zero(n) for n in forms] + [rule(n) for rule in rules for n in range(len(forms))])


table('access', access, lambda n: index(n, 1))
table('index-bounds', lambda n: index(n, 2), lambda n: index(n, 4), lambda n: index(n, 2 ** 32 - 1))
table('load', load, lambda n: over(33, n, b6=8, b7=16, b8=2))
table('images', lambda n: over(14, n), lambda n: over(14, n, b6=1), lambda n: over(15, n), lambda n: over(16, n))
table('parts-of-vectors', lambda n: over(8, n, b6=4), lambda n: over(9, n, b6=2))
over_some('passed-on', (0, 2, 6, 11, 20, 21), *[lambda n, kind=kind: over(kind, n) for kind in (17, 19, 20, 34)],
      *[lambda n, op=op: binary(op, n, 0) for op in (0, 1, 3, 4, 11, 12, 13, 16, 17)])
table('compared', *[lambda n, op=op: binary(op, n, 0) for op in (5, 14, 15)], lambda n: over(21, n, b6=2))
over_some('compared-more', (0, 1, 2, 3, 6, 20, 21, 22), *[lambda n, op=op: binary(op, n, 0) for op in range(6, 11)],
          lambda n: over(21, n, b6=3))
table('as', lambda n: over(23, n, b6=1), lambda n: over(23, n, b6=0, b7=1, b8=8))
over_some('multiply', (0, 2, 3, 4, 5, 6, 7, 9, 11, 12, 16, 18, 19, 20, 21),
          *[lambda n, right=right: binary(2, n, right) for right in range(15)])
case('multiply-sizes', [t_matrix(2, 3), t_matrix(4, 2, (1, 4)), t_matrix(3, 4, (2, 2)), t_vector(2), t_vector(3), t_vector(4, (2, 8)),
                        put(1, 4, b2=8, b3=16, b4=2, b5=4, b6=2), put(1, 4, b2=16, b3=8, b4=2, b5=2), t_scalar()],
     rows=[zero(n) for n in range(9)] + [binary(2, a, b) for a in range(9) for b in range(9)])
case('composed-kinds', FORMS, MEMBERS, OVERRIDE,
     [zero(n) for n in range(MANY)] + [compose(n, 1, m) for m in (0, 2) for n in range(MANY)], [part(0), part(1), part(2)])
case('refusals-passed', [t_scalar(), t_vector(2), t_struct(0, 0)], items=[put(3, 5, w2=2), put(3, 6)],
     rows=[zero(0), zero(1), index(1, 2), access(0), local_row(0), access(4), over(8, 1, b6=2), over(9, 0, b6=2), load(0),
           over(15, 0), put(4, 24), binary(2, 1, 4), put(4, 10), put(4, 30), put(4, 22)] +
     [over(kind, n, **more) for n in (2, 3, 5, 6, 7, 8, 9, 10, 11, 12, 13, 14) for kind, more in
      ((6, {}), (7, {}), (8, dict(b6=2)), (9, dict(b6=2)), (13, {}), (14, {}), (15, {}), (16, {}), (17, {}), (18, dict(b6=2)), (18, dict(b6=5)),
       (18, dict(b6=14)), (19, {}), (20, {}), (21, dict(b6=3)), (23, {}), (33, dict(b6=8, b7=8)), (34, {}))])

# Rows that read nothing.

case('literals', rows=[literal(n) for n in range(12)],
     says=[scalar(s) for s in ((2, 8), (2, 4), (2, 2), (1, 2), (0, 2), (1, 4), (0, 4), (1, 8), (0, 8), (3, 1), (4, 8), (5, 8))])
case('carry-nothing', rows=[put(4, n) for n in range(27, 32)] + [put(4, 16, b6=n) for n in (1, 2, 3)] + [put(4, 21, b6=n) for n in (0, 1)],
     says=[scalar(U32), refusal(20), scalar(BOOL), refusal(20), vector(4, U32)] + [scalar(U32)] * 3 + [scalar(BOOL)] * 2)
case('special-types', [t_scalar(), t_struct(0, 0)], items=[put(3, 7, w2=1), put(3, 8)], rows=[put(4, 28), put(4, 30)],
     says=[number(0), number(1)])
case('special-intersection', [t_scalar()], items=[put(3, 7)], rows=[put(4, 28), put(4, 30)], says=[refusal(20), number(0)])
case('special-vertices', [t_scalar()], items=[put(3, 8)], rows=[put(4, 28), put(4, 30)], says=[number(0), refusal(20)])
case('named-types', [t_scalar(), unknown(), t_struct(0, 0)], rows=[put(4, kind, w2=n) for kind in (4, 25, 26, 32) for n in range(3)])
case('items', [t_scalar(), t_vector(2), unknown()],
     items=[put(3, 1, w2=1), put(3, 1, w2=2), put(3, 2, w2=1), put(3, 4, w2=2), put(3, 4, w2=1), put(3, 5, w2=2), put(3, 5, w2=0),
            put(3, 6, w2=2, b4=1), put(3, 6), put(3, 6, w2=1, b4=1)],
     rows=[put(4, 2), put(4, 2, w2=1), put(4, 3), put(4, 10), put(4, 10, d12=1), put(4, 10, d12=2), put(4, 10, d12=65536),
           local_row(0), local_row(1), put(4, 24), put(4, 24, w2=1), put(4, 24, w2=2)])
case('globals', [t_scalar(), unknown()],
     items=[put(3, 3, b6=n) for n in range(10)] + [put(3, 3, b6=4, b7=n) for n in range(8)] + [put(3, 3, w2=1, b6=5), put(3, 3, w2=1)],
     rows=[put(4, 11, w2=n) for n in range(20)] + [load(n) for n in range(20)])
case('math-and-unknown-rows', [t_scalar()], rows=[put(4, kind, d2=0xffffffff, d12=0xffffffff) for kind in (22, 0, 35, 99, 255)] + [over(17, n) for n in range(5)])
case('items-only', [t_scalar()], items=[put(3, 1)], says=[])
case('void-function-without-types', items=[put(3, 6)], rows=[put(4, 24)], says=[refusal(17)])
case('image-dimensions', [put(1, 10, b2=d, b3=a, b4=c) for d in (1, 2, 3, 4) for a in (0, 1) for c in range(4)],
     rows=[zero(n) for n in range(32)] + [over(kind, n, **more) for kind, more in ((14, {}), (14, dict(b6=1)), (15, {}), (16, {})) for n in range(32)])
case('image-kinds', [put(1, 10, b2=2, b5=k, b6=m) for k in range(6) for m in (0, 1)],
     rows=[zero(n) for n in range(12)] + [over(kind, n, **more) for kind, more in ((14, {}), (14, dict(b6=1)), (15, {})) for n in range(12)])
for dimension in 1, 2, 3, 4:
    case('storage-formats-dimension-%d' % dimension, [put(1, 10, b2=dimension, b3=f % 2, b4=3, b5=f, b7=f % 8) for f in range(41)],
         rows=[zero(n) for n in range(41)] + [over(kind, n, **more) for kind, more in ((15, {}), (14, {}), (14, dict(b6=1))) for n in range(41)])
# Widths (document 02, request 2): 1, 2, 4 and 8 in every kind that holds a scalar, and in As.

WIDTHS, OTHER_WIDTHS = (1, 2, 4, 8), (0, 3, 5, 7, 16, 255)
HOLDERS = [(1, {}), (2, dict(b2=3)), (3, dict(b2=3, b3=2)), (4, dict(b2=8, b3=16)), (5, {}), (7, dict(b2=2))]

case('scalar-widths', [t_scalar((k, w)) for k in range(6) for w in WIDTHS] + [t_vector(2, (3, 8)), t_atomic((5, 1)), t_pointer(25)],
     rows=[zero(n) for n in range(27)] + [over(8, n, b6=2) for n in range(24)] + [binary(14, n, 0) for n in range(24)] +
     [access(24), over(23, 24, b6=2), load(26)])
case('value-widths', [t for w in WIDTHS for t in (t_scalar((2, w)), t_vector(3, (2, w)), t_matrix(3, 2, (2, w)), t_atomic((1, w)))],
     items=[local(n) for n in range(16)],
     rows=[local_row(n) for n in range(16)] + [load(n) for n in range(16)] + [access(n) for n in range(32)] +
     [index(n, 1) for n in range(32)] + [over(8, 16 + n, b6=2) for n in range(16)] + [over(9, 16 + n, b6=4) for n in range(16)] +
     [binary(2, 18 + 4 * n, 17 + 4 * n) for n in range(4)] + [binary(7, 17 + 4 * n, 17) for n in range(4)] +
     [over(23, 16 + n, b6=1) for n in range(16)] + [over(23, 16 + n, b6=0, b7=1, b8=w) for n in range(16) for w in WIDTHS])
case('compare-widths', [t_scalar()], says=[],
     pairs=[(value_of(k, b4=2, b5=w, **more), value_of(k, b4=2, b5=v, **more), 'yes' if w == v else 'no')
            for k, more in HOLDERS for w in WIDTHS for v in WIDTHS] +
     [pair for k, more in HOLDERS for w in OTHER_WIDTHS
      for pair in ((value_of(k, b4=2, b5=w, **more), number(0), '!5'), (number(0), value_of(k, b4=2, b5=w, **more), '!5'))] +
     [(value_of(1, b4=2, b5=3), number(1), '!5'), (number(1), value_of(1, b4=2, b5=3), '!6')])
case('free-widths', [put(1, 200, b4=2, b5=3)], rows=[put(4, 22, b6=2, b7=1, b8=3), zero(0)], says=[refusal(22, 0), number(0)])
for kind, more in HOLDERS:
    for width in OTHER_WIDTHS:
        refused('field-width-%d-in-kind-%d' % (width, kind), 5, 1, text_of([t_scalar(), put(1, kind, b4=2, b5=width, **more), zero(0)]))
for width in OTHER_WIDTHS:
    refused('field-as-width-%d' % width, 5, 1, text_of([literal(1), over(23, 0, b6=2, b7=1, b8=width)]))
case('chain', [t_scalar()] + [t_array(n, 2) if n % 2 else t_struct(n // 2, 1) for n in range(40)] + [t_pointer(40)],
     [member(2 * n) for n in range(20)], items=[local(40)],
     rows=[local_row(0)] + [index(n, 0) for n in range(40)] + [load(40), zero(40)] + [index(42 + n, 0) for n in range(40)] +
     [over((17, 19, 20)[n % 3], 82 + n) for n in range(40)])
case('compose-alike', [t_scalar(), t_scalar(), t_vector(2), t_array(0, 2), t_array(1, 2), t_array(3, 1), t_pointer(0), t_pointer(1), t_array(6, 2), t_atomic(),
                       t_atomic(), t_pointer(9), t_pointer(10), t_array(11, 1), t_matrix(2, 2), t_struct(0, 1), t_struct(0, 1), t_array(15, 1)], [member(0)],
     rows=[zero(n) for n in range(18)] + [literal(1), over(8, 18, b6=2),
           compose(3, 2, 0), compose(4, 2, 0), compose(5, 1, 2), compose(5, 1, 3), compose(8, 2, 4), compose(13, 1, 6), compose(13, 1, 7),
           compose(14, 2, 8), compose(15, 1, 0), compose(17, 1, 10), compose(17, 1, 11), compose(2, 2, 12), compose(2, 1, 13)],
     parts=[part(n) for n in (0, 1, 3, 4, 6, 7, 11, 12, 2, 19, 15, 16, 18, 1)])

# Where the source parts from WGSL (docs/DIFFERENCES.md): the smallest input for each difference.

SAMPLER, F16, RUNTIME = put(1, 11), (2, 2), put(1, 8, b4=2, d12=4)


def global_row(n): return put(4, 11, w2=n)
def in_handle(ty): return put(3, 3, w2=ty, b6=5)
def image(dim, **more): return put(1, 10, b2=dim, **more)


case('differs-literal', rows=[literal(0)])
case('differs-zero-value', [SAMPLER], rows=[zero(0)])
case('differs-index-past-array', [t_scalar(), t_array(0, 2, 4)], rows=[zero(1), index(0, 2)])
case('differs-load-rule', [t_scalar()], items=[local(0)], rows=[local_row(0), over(8, 0, b6=2)])
case('differs-load-runtime-array', [t_scalar(), RUNTIME], items=[put(3, 3, w2=1, b6=4, b7=1)], rows=[global_row(0), load(0)])
case('differs-load-write-only', [t_scalar()], items=[put(3, 3, b6=4, b7=2)], rows=[global_row(0), load(0)])
case('differs-sample-uint', [image(2, b5=1)], items=[in_handle(0)], rows=[global_row(0), over(14, 0)])
case('differs-gather-storage', [image(2, b4=3, b5=32, b7=1)], items=[in_handle(0)], rows=[global_row(0), over(14, 0, b6=1)])
case('differs-load-cube', [image(4, b5=2)], items=[in_handle(0)], rows=[global_row(0), over(15, 0)])
case('differs-storage-image', [image(2, b4=3, b5=17, b7=1), image(2, b4=3, b5=25, b7=1), image(2, b4=3, b5=32, b7=2), image(4, b4=3, b5=35, b7=1)],
     items=[in_handle(n) for n in range(4)],
     rows=[global_row(0), over(15, 0), over(14, 0), global_row(1), over(15, 3), global_row(2), over(15, 5), global_row(3), over(15, 7)])
case('differs-operand-unread', rows=[put(4, 16, b6=n) for n in (1, 2, 3)] + [put(4, 21, b6=n) for n in (0, 1)] + [put(4, 27)])
case('differs-unary', [t_scalar(), t_array(0, 2, 4)], rows=[zero(1), over(17, 0)])
case('differs-scalar-plus-vector', [t_scalar(), t_vector(2)], rows=[zero(0), zero(1), binary(0, 0, 1)])
case('differs-right-unread', rows=[literal(1), put(4, 10), binary(0, 0, 1)])
case('differs-add-bools', rows=[literal(9), binary(0, 0, 0)])
case('differs-abstract-plus-float', rows=[literal(10), literal(1), binary(0, 0, 1)])
case('differs-matrix-product', [t_matrix(2, 2), t_matrix(3, 4)], rows=[zero(0), zero(1), binary(2, 0, 1)])
case('differs-matrix-times-vector', [t_matrix(2, 3), t_vector(4)], rows=[zero(0), zero(1), binary(2, 0, 1), binary(2, 1, 0)])
case('differs-vector-product', [t_vector(2), t_vector(3)], rows=[zero(0), zero(1), binary(2, 0, 1)])
case('differs-scalar-times-any', [t_scalar(), t_array(0, 2, 4)], rows=[zero(0), zero(1), binary(2, 0, 1), binary(2, 1, 0)])
case('differs-less-bools', rows=[literal(9), binary(7, 0, 0)])
case('differs-compare-kinds', rows=[literal(1), literal(9), binary(5, 0, 1)])
case('differs-logical-right', rows=[literal(9), literal(5), binary(14, 0, 1)])
case('differs-bits-of-floats', rows=[literal(1), binary(11, 0, 0), binary(16, 0, 0)])
case('differs-select', [t_scalar(), t_array(0, 2, 4)], rows=[zero(1), over(19, 0)])
case('differs-derivative', rows=[literal(5), over(20, 0)])
case('differs-is-nan', rows=[literal(5), over(21, 0, b6=2)])
case('differs-as-matrix', [t_matrix(2, 2)], rows=[zero(0), over(23, 0, b6=0, b7=1, b8=4)])
case('differs-as-bits-bool', rows=[literal(9), over(23, 0, b6=1)])
case('differs-as-bits-halves', [t_vector(2, F16)], rows=[zero(0), over(23, 0, b6=1)])
case('differs-as-abstract', rows=[literal(1), over(23, 0, b6=4, b7=1, b8=8)])
case('differs-as-width', rows=[literal(1), over(23, 0, b6=2, b7=1, b8=1)])
case('differs-named-result', [SAMPLER], rows=[put(4, kind) for kind in (25, 26, 32)])
case('differs-width', [t_scalar((2, 1))], rows=[zero(0), over(8, 0, b6=2)])
case('differs-not-carried', [t_vector(2)], rows=[zero(0), access(0), over(9, 0, b6=4)])


# 22 of rows: their own kind, what they look into, a pointer's base, and what is passed on.

MATH, ARGUMENT = put(4, 22), put(4, 10)     # newer, and refused with 19 where the file has no argument
OPERATORS = range(18)
LOOKS = [(6, {}), (7, {}), (8, dict(b6=2)), (9, dict(b6=4)), (13, {}), (14, {}), (14, dict(b6=1)), (15, {}), (16, {}), (21, dict(b6=2)),
         (21, dict(b6=3)), (23, dict(b6=1)), (33, dict(b6=8, b7=8))]
PASSES = [(17, {}), (19, {}), (20, {}), (34, {})]
LOOKING = (2, 5, 6, 7, 8, 9, 10, 14, 15)


def reads(n):
    """Each row that reads row n, and Binary with each operator over it twice."""
    return [over(kind, n, **more) for kind, more in LOOKS + PASSES] + [binary(op, n, n) for op in OPERATORS]


case('newer-kinds', rows=[MATH, put(4, 0), put(4, 35), put(4, 99), put(4, 255, d12=7)] + [put(4, 22, w2=65535, d8=1)],
     says=[refusal(22, n) for n in range(6)])
case('newer-looks', [unknown()], rows=[zero(0)] + reads(0) + [literal(1), binary(2, 36, 0), binary(2, 0, 36)],
     says=[number(0)] + [refusal(22, n) for n in range(1, 14)] + [number(0)] * 4 +
     [refusal(22, 18 + op) if op in LOOKING else number(0) for op in OPERATORS] + [scalar(F32), refusal(22, 37), refusal(22, 38)])
case('newer-bases', [unknown(15), t_pointer(0)], rows=[zero(1)] + reads(0),
     says=[number(1), refusal(22, 1), refusal(22, 2), refusal(13), refusal(14), refusal(22, 5)] + [refusal(16)] * 4 + [refusal(18)] * 3 +
     [refusal(22, 13)] + [number(1)] * 4 + [refusal(18) if op in LOOKING else number(1) for op in OPERATORS])
case('newer-passed', rows=[MATH] + reads(0) + [literal(1), binary(2, 36, 0), binary(2, 0, 36)],
     says=[refusal(22)] * 36 + [scalar(F32)] + [refusal(22)] * 2)
case('refused-passed', rows=[ARGUMENT] + reads(0) + [MATH, literal(1), binary(2, 0, 36), binary(2, 36, 0), binary(2, 37, 0), binary(0, 37, 0)],
     says=[refusal(19)] * 36 + [refusal(22, 36), scalar(F32), refusal(19), refusal(22, 36), refusal(19), scalar(F32)])
case('newer-not-read', [unknown()], rows=[MATH, put(4, 16, b6=1), put(4, 21), put(4, 21, b6=1), literal(9), binary(0, 4, 0), binary(5, 4, 0), binary(14, 4, 0)],
     says=[refusal(22), scalar(U32), scalar(BOOL), scalar(BOOL), scalar(BOOL), scalar(BOOL), scalar(BOOL), scalar(BOOL)])

# Verdicts of each composed kind.


def judged(name, types, members, items, rows, answers, made):
    """Composes after `rows`: each has its type, its component rows, and the verdict's number and values."""
    at, composes, parts, says = len(rows), [], [], list(answers)
    for ty, taken, *verdict in made:
        composes.append(compose(ty, len(taken), len(parts)))
        parts += [part(n) for n in taken]
        says += [number(ty), verdict_frame(verdict[0], at, *verdict[1:])]
        at += 1
    case(name, types, members, items, rows + composes, parts, says)


WHOLE = 0xffffffff      # the composed type, where a component would stand
judged('verdicts-vector', [t_scalar(), t_vector(2), t_vector(4), t_scalar(U32), unknown(), t_pointer(4), t_vector(2, U32)], [], [],
       [zero(0), zero(1), literal(1), zero(3), zero(4), zero(5), MATH, ARGUMENT, over(17, 6), over(17, 7), zero(6)],
       [number(0), number(1), scalar(F32), number(3), number(4), number(5), refusal(22, 6), refusal(19), refusal(22, 6), refusal(19), number(6)],
       [(2, [2, 2, 2, 2], 0), (2, [1, 1], 0), (2, [0, 1, 2], 0), (1, [1], 0), (2, [1, 0], 31, 4, 3), (2, [], 31, 4, 0), (2, [1, 1, 1], 31, 4, 6),
        (2, [3], 32, 0), (2, [2, 3], 32, 1), (2, [1, 10], 32, 1), (2, [5], 32, 0), (2, [4], 22, 0), (2, [0, 4], 22, 1), (2, [6], 22, 0),
        (2, [2, 6], 22, 1), (2, [7], 33, 0), (2, [1, 1, 1, 7], 33, 3), (2, [1, 1, 1, 6], 22, 3), (2, [1, 1, 1, 4], 22, 3), (2, [3, 7], 32, 0),
        (2, [7, 3], 33, 0), (2, [6, 7], 22, 0), (2, [7, 6], 33, 0), (2, [8], 22, 0), (2, [9], 33, 0), (2, [3, 4], 32, 0)])
judged('verdicts-matrix', [t_scalar(), t_vector(2), t_vector(3), t_matrix(3, 2), unknown(), t_pointer(4), t_pointer(1), t_vector(2, U32)], [], [],
       [literal(1), over(8, 0, b6=2), zero(1), zero(2), zero(4), zero(5), zero(6), MATH, ARGUMENT, zero(7), zero(0)],
       [scalar(F32), vector(2, F32), number(1), number(2), number(4), number(5), number(6), refusal(22, 7), refusal(19), number(7), number(0)],
       [(3, [1, 2, 1], 0), (3, [2, 2, 2], 0), (3, [1, 2], 31, 3, 2), (3, [], 31, 3, 0), (3, [8, 7, 4, 1], 31, 3, 4), (3, [3, 1, 1], 32, 0),
        (3, [1, 1, 9], 32, 2), (3, [1, 10, 1], 32, 1), (3, [0, 1, 1], 32, 0), (3, [1, 5, 1], 32, 1), (3, [6, 1, 1], 32, 0), (3, [4, 1, 1], 22, 0),
        (3, [1, 1, 4], 22, 2), (3, [7, 1, 1], 22, 0), (3, [1, 1, 7], 22, 2), (3, [8, 1, 1], 33, 0), (3, [1, 8, 7], 33, 1), (3, [3, 4, 7], 32, 0)])
judged('verdicts-array', [t_scalar(), t_array(0, 2), unknown(), t_pointer(2), t_array(2, 2), t_array(3, 1), t_struct(0, 0), t_array(6, 1), t_struct(0, 0),
                          t_pointer(0), t_array(9, 1), t_scalar(U32), unknown(201), put(1, 7, b4=2, b5=4)], [], [],
       [literal(1), zero(0), zero(2), zero(3), MATH, ARGUMENT, zero(6), zero(8), zero(9), zero(13), zero(11), zero(12)],
       [scalar(F32), number(0), number(2), number(3), refusal(22, 4), refusal(19), number(6), number(8), number(9), number(13), number(11), number(12)],
       [(1, [0, 1], 0), (1, [0], 31, 2, 1), (1, [], 31, 2, 0), (1, [4, 5, 2], 31, 2, 3), (1, [10, 0], 32, 0), (1, [0, 10], 32, 1), (1, [6, 0], 32, 0),
        (1, [2, 0], 22, 0), (1, [0, 2], 22, 1), (1, [3, 0], 22, 0), (1, [4, 0], 22, 0), (1, [0, 4], 22, 1), (1, [5, 0], 33, 0), (1, [0, 5], 33, 1),
        (1, [10, 5], 32, 0), (4, [2, 2], 0), (4, [2, 11], 22, 1), (4, [0, 2], 22, 0), (4, [6, 2], 32, 0), (4, [5, 2], 33, 0), (5, [3], 0), (5, [0], 22, 0),
        (5, [2], 22, 0), (5, [6], 32, 0), (7, [6], 0), (7, [7], 32, 0), (7, [2], 32, 0), (7, [3], 32, 0), (7, [4], 22, 0), (7, [5], 33, 0),
        (10, [8], 0), (10, [9], 0), (10, [0], 32, 0)])
judged('verdicts-struct', [t_scalar(), unknown(), t_struct(0, 2), t_struct(0, 1), t_pointer(1), t_struct(2, 1), t_struct(3, 1), t_struct(0, 1), t_scalar(U32),
                           t_struct(0, 0)], [member(0), member(1), member(4), member(3)], [],
       [literal(1), zero(0), zero(1), zero(4), MATH, ARGUMENT, zero(3), zero(7), zero(8)],
       [scalar(F32), number(0), number(1), number(4), refusal(22, 4), refusal(19), number(3), number(7), number(8)],
       [(2, [0, 2], 0), (2, [1, 2], 0), (2, [0], 31, 2, 1), (2, [], 31, 2, 0), (2, [4, 5, 0], 31, 2, 3), (2, [8, 2], 32, 0), (2, [0, 0], 22, 1),
        (2, [2, 2], 22, 0), (2, [3, 2], 22, 0), (2, [4, 2], 22, 0), (2, [0, 4], 22, 1), (2, [5, 2], 33, 0), (2, [0, 5], 33, 1), (2, [0, 6], 32, 1),
        (2, [6, 2], 32, 0), (5, [3], 0), (5, [0], 22, 0), (5, [2], 22, 0), (6, [6], 0), (6, [7], 32, 0), (6, [2], 32, 0), (9, [], 0), (9, [0], 31, 0, 1)])
OTHERS = [t_scalar(), put(1, 4, b2=8, b3=8, b4=2, b5=4), t_atomic(), t_pointer(0), put(1, 7, b4=2, b5=4), put(1, 8, b4=1), put(1, 8, b4=2),
          put(1, 10, b2=2, b5=2), put(1, 11), put(1, 12), put(1, 13), put(1, 14, d8=2), put(1, 14, b4=1), put(1, 14, b4=2)]
judged('verdicts-other-kinds', OTHERS, [], [put(3, 2)], [zero(0), MATH, ARGUMENT], [number(0), refusal(22, 1), refusal(19)],
       [(ty, taken, 30) for ty in range(14) for taken in ([0], [], [1], [2])])
judged('verdicts-unknown-kinds', [unknown(0), unknown(15), unknown(255), put(1, 200, d8=1)], [], [], [zero(0), MATH, ARGUMENT],
       [number(0), refusal(22, 1), refusal(19)], [(ty, taken, 22, WHOLE) for ty in range(4) for taken in ([], [0], [1], [2])])

# Hundreds of rows, each over the one before.

case('chain-unary', rows=[literal(1)] + [over(17, n) for n in range(900)], says=[scalar(F32)] * 901)
case('chain-binary', [t_matrix(2, 2)], rows=[zero(0)] + [binary(2, n, n) for n in range(400)],
     says=[number(0)] + [value_of(3, b2=2, b3=2, b4=2, b5=4)] * 400)
case('chain-splat-and-index', rows=[literal(6)] + [index(n, 1) if n % 2 else over(8, n, b6=2) for n in range(500)],
     says=[scalar((0, 4))] + [vector(2, (0, 4)), scalar((0, 4))] * 250)
case('chain-refused', [t_vector(2)], rows=[zero(0), index(0, 2)] + [over(*((6, 7, 13, 17, 19, 20, 34)[n % 7], n + 1)) for n in range(500)],
     says=[number(0)] + [refusal(10, 0, 2)] * 501)
case('chain-newer', rows=[put(4, 99)] + [over(*((6, 7, 13, 17, 19, 20, 34)[n % 7], n)) for n in range(500)], says=[refusal(22)] * 501)
case('chain-loads', [t_scalar()] + [t_pointer(n) for n in range(300)], rows=[zero(300)] + [load(n) for n in range(302)],
     says=[number(300 - n) for n in range(301)] + [refusal(15, 300)] * 2)
case('chain-arrays', [t_scalar()] + [t_array(n, 1) for n in range(250)], items=[local(250)],
     rows=[local_row(0)] + [index(n, 9) for n in range(250)] + [load(250), index(250, 0)],
     says=[value_of(6, w2=250 - n) for n in range(251)] + [number(0), refusal(12, 0, 0, 1)])
case('chain-composes', [t_scalar()] + [t_array(n, 1) for n in range(300)], rows=[zero(0)] + [compose(n + 1, 1, n) for n in range(300)],
     parts=[part(n) for n in range(300)], says=[number(0)] + [f for n in range(1, 301) for f in (number(n), verdict_frame(0, n))])
case('chain-of-each-rule', [t_scalar(), t_vector(4), t_matrix(4, 4)], rows=[zero(2)] + [
     row for n in range(0, 600, 10) for row in (
         binary(2, n, n), index(n + 1, 3), over(9, n + 2, b6=3), over(23, n + 3, b6=0, b7=1, b8=4), binary(7, n + 4, n), over(17, n + 5), access(n + 6),
         binary(14, n + 7, n), over(8, n + 8, b6=4), binary(2, n + 9, 0))])

# Files as long as they may be, and many rows and composes.

case('frames-1024-types', [t_scalar()] * 1024, says=[])
case('frames-1024-rows', [t_vector(3)], rows=[zero(0)] + [index(0, n % 4) for n in range(1022)],
     says=[number(0)] + [refusal(10, 0, 3) if n % 4 == 3 else scalar(F32) for n in range(1022)])
case('frames-1024-composes', [t_struct(0, 0)], rows=[compose(0, 0, 0)] * 1023,
     says=[f for n in range(1023) for f in (number(0), verdict_frame(0, n))])
case('composes-640', [t_scalar(), t_vector(2), t_vector(3), t_matrix(2, 2), t_array(0, 3), t_struct(0, 2), unknown(), t_pointer(0)], [member(0), member(1)],
     rows=[literal(1), zero(0), zero(1), zero(2), zero(6), MATH, ARGUMENT, zero(7)] + [compose(n % 8, n // 8 % 4, n // 32) for n in range(640)],
     parts=[part(n) for n in (0, 1, 0, 2, 2, 1, 2, 0, 1, 1, 4, 0, 2, 5, 2, 1, 6, 0, 3, 2, 7, 0, 2)])
refused('long-one-byte', 1, 1024, text_of([t_scalar()] * 1024) + b'\n')
refused('p-long-1025-lines', 1, 1024, text_of([t_scalar()] * 1025), [(number(0), number(0))])

# Damaged files.

LINE = text_of([t_scalar()])
PAIR = [(number(0), number(0))]
refused('torn-no-last-feed', 2, 1, LINE + LINE[:-1], PAIR)
refused('torn-one-line-without-feed', 2, 0, LINE[:-1])
refused('torn-one-feed', 2, 0, b'\n')
refused('torn-empty-line', 2, 1, LINE + b'\n' + LINE)
refused('torn-byte-after-the-last-feed', 2, 2, LINE * 2 + b'0')
refused('torn-upper-case', 2, 1, LINE + LINE.replace(b'02', b'0A') + LINE)
refused('torn-carriage-return', 2, 0, LINE[:-1] + b'\r\n' + LINE)
refused('torn-control-byte', 2, 2, LINE * 2 + b'\x0b' + LINE[1:])
refused('torn-long-line', 2, 1, LINE + b'0' + LINE + LINE)
refused('torn-33792-bytes', 2, 1023, LINE * 1023 + LINE[:-1] + b'0')
refused('torn-before-order', 2, 2, text_of([put(9, 1), t_scalar((6, 0))]) + b'x')
refused('order-family-0', 4, 1, text_of([t_scalar(), bytes(16)]), PAIR)
refused('order-family-6', 4, 2, text_of([t_scalar(), literal(1), put(6, 0)]))
refused('order-output-family', 4, 0, text_of([number(0)]))
refused('order-item-kind-0', 4, 1, text_of([t_scalar(), put(3, 0)]))
refused('order-item-kind-9', 4, 1, text_of([t_scalar(), put(3, 9)]))
refused('order-row-before-type', 4, 1, text_of([literal(1), t_scalar()]))
refused('order-item-kinds-fall', 4, 2, text_of([t_scalar(), put(3, 5), put(3, 4)]))
refused('order-second-intersection', 4, 2, text_of([t_scalar(), put(3, 7), put(3, 7)]))
refused('order-second-vertex-return', 4, 3, text_of([t_scalar(), put(3, 7), put(3, 8), put(3, 8)]))
refused('order-before-field', 4, 2, text_of([t_scalar((6, 4)), literal(12), put(3, 1)]))
refused('p-array-count-0', 5, 1, text_of([t_scalar(), t_array(0, 0)]), PAIR)
refused('field-scalar-kind', 5, 0, text_of([t_scalar((6, 4))]))
refused('field-vector-size', 5, 1, text_of([t_scalar(), t_vector(5)]))
refused('field-dynamic-count', 5, 1, text_of([t_scalar(), put(1, 8, b4=2, d8=1)]))
refused('field-binding-array-count-0', 5, 1, text_of([t_scalar(), put(1, 14)]))
refused('field-access-not-storage', 5, 1, text_of([t_scalar(), t_pointer(0, 3, 1)]))
refused('field-image-format', 5, 0, text_of([put(1, 10, b2=2, b4=3, b5=41)]))
refused('field-member-kind', 5, 1, text_of([t_scalar(), put(2, 1)]))
refused('field-component-kind', 5, 1, text_of([literal(1), put(5, 1)]))
refused('field-void-function-type', 5, 2, text_of([t_scalar(), t_scalar(), put(3, 6, w2=1)]))
refused('field-literal-kind', 5, 0, text_of([literal(12)]))
refused('field-operator', 5, 1, text_of([literal(1), binary(18, 0, 0)]))
refused('field-all-operand', 5, 2, text_of([literal(9), literal(9), put(4, 21, w2=1)]))
refused('field-query-operand', 5, 2, text_of([literal(9), literal(9), put(4, 16, w2=1, b6=3)]))
refused('field-as-width', 5, 1, text_of([literal(1), put(4, 23, b6=1, b8=4)]))
refused('field-unused-byte', 5, 1, text_of([literal(1), put(4, 6, b12=1)]))
refused('field-before-index', 5, 1, text_of([t_pointer(0), t_scalar((0, 4))[:15] + b'\1']))
refused('index-type-names-itself', 6, 1, text_of([t_scalar(), t_pointer(1)]), PAIR)
refused('index-array-names-itself', 6, 1, text_of([t_scalar(), t_array(1, 2)]))
refused('index-binding-array-names-itself', 6, 1, text_of([t_scalar(), put(1, 14, w2=1, d8=2)]))
refused('index-override', 6, 1, text_of([t_scalar(), put(1, 8, b4=1, d8=1), put(3, 2)]))
refused('index-override-of-binding-array', 6, 1, text_of([t_scalar(), put(1, 14, b4=1, d8=1), put(3, 2)]))
refused('index-member-range', 6, 1, text_of([t_scalar(), t_struct(0, 2), member(0)]))
refused('index-member-names-its-struct', 6, 2, text_of([t_scalar(), t_struct(0, 1), member(1)]))
refused('index-item-type', 6, 1, text_of([t_scalar(), put(3, 1, w2=1)]))
refused('index-row-type', 6, 1, text_of([t_scalar(), zero(1)]))
refused('index-composed-type', 6, 1, text_of([t_scalar(), compose(1, 0, 0)]))
refused('index-row-names-itself', 6, 1, text_of([literal(1), over(17, 1)]))
refused('index-right-unread', 6, 1, text_of([literal(1), binary(0, 0, 1)]))
refused('index-constant', 6, 2, text_of([t_scalar(), put(3, 1), put(4, 2, w2=1)]))
refused('index-compose-range', 6, 2, text_of([t_vector(2), literal(1), compose(0, 2, 1), part(0), part(0)]))
refused('index-component-names-its-compose', 6, 3, text_of([t_vector(2), literal(1), compose(0, 1, 0), part(1)]))
refused('index-component-of-none', 6, 1, text_of([literal(1), part(1)]))

# Generated files. An odd seed may give newer things, an even one gives none. Some have pairs too.

FRAMES = (8, 90, 25, 140, 40, 220, 15, 60, 110, 30, 75, 180)
SIZES = [FRAMES[n % 12] for n in range(90)] + [400, 700, 1024, 1024]
DAMAGED = [(seed, FRAMES[seed // 2 % 12]) for seed in range(1001, 1061)]


def made(newer):
    """A file of each size, by the lowest odd seeds whose rows meet newer things, or by the lowest even ones."""
    seed = 1 if newer else 2
    for frames in SIZES:
        maker = generate.Maker(seed, frames)
        while newer and not any(answer[:2] == refusal(22)[:2] for answer in maker.typing.answers):
            seed += 2
            maker = generate.Maker(seed, frames)
        yield seed, frames, maker
        seed += 2


def generated():
    for newer in True, False:
        for at, (seed, frames, maker) in enumerate(made(newer)):
            store('seed-%d-frames-%d' % (seed, frames), maker.text().encode(), None,
                  [(*maker.pair(), None) for _ in range(40)] if at % 10 == 1 else [])
    for seed, frames in DAMAGED:
        text = generate.Maker(seed, frames).text().encode()
        store('seed-%d-frames-%d-damaged' % (seed, frames), generate.damaged(text, random.Random(seed)))


generated()
