#!/usr/bin/env python3
"""Writes crates/replay/data/cases and crates/replay/stdout from the list below.

The outcomes were written by hand from document 01 ("The file", "Numbers handed back"); no program made them.
A case has a name, the text (frames, or bytes where the text is damaged), the limit of frames, 1,024 unless the case says
another, and the number and place that reading it must give; an accepted text has number 0 and its number of frames. The frame buffer is one frame longer than it must be, unless
the case says how long it is. Numbers 1 to 3 leave the buffer as it was lent, and so does a text without frames; otherwise
the frames stand at its front, and its bytes past them stay.
Run it from anywhere: python3 tools/replay_cases.py
"""
import os

CASES = []


def store(name, text, room, number, place, limit=1024):
    assert len(name) <= 40 and all(name != c[0] for c in CASES), name
    CASES.append((name, text, room, number, place, limit))


def text_of(frames):
    return ''.join(f + '\n' for f in frames).encode()


def given(name, number, place, frames, room=None):
    """Frames that are refused with a number at a place."""
    store(name, text_of(frames), 16 * len(frames) + 16 if room is None else room, number, place)


def accepted(name, frames, room=None):
    given(name, 0, len(frames), frames, room)


def order(name, place, frames):
    given(name, 4, place, frames)


def field(name, place, frames):
    given(name, 5, place, frames)


def index(name, place, frames):
    given(name, 6, place, frames)


def torn(name, line, text):
    store(name, text, len(text) // 33 * 16 + 16, 2, line)


def frame(family, kind, **fields):
    """A frame's 32 digits. b2=v is byte 2; h2=v is the two bytes from 2 on, and w8=v the four from 8 on, little-endian."""
    b = [family, kind] + [0] * 14
    for at, v in fields.items():
        n = {'b': 1, 'h': 2, 'w': 4}[at[0]]
        i = int(at[1:])
        b[i:i + n] = v.to_bytes(n, 'little')
    return bytes(b).hex()


def changed(f, byte, value):
    """The frame f with one byte set."""
    return f[:2 * byte] + '%02x' % value + f[2 * byte + 2:]


def unused(name, before, f, bytes_, after=()):
    """f is accepted as it stands. Each of these bytes is unused, so number 5 where it is 1."""
    for b in bytes_:
        field('%s-unused-b%d' % (name, b), len(before), before + [changed(f, b, 1)] + list(after))


def ty(kind, **fields):
    return frame(1, kind, **fields)


def member(type_, **fields):
    return frame(2, 0, h2=type_, **fields)


def item(kind, type_=0, **fields):
    return frame(3, kind, h2=type_, **fields)


def row(kind, **fields):
    return frame(4, kind, **fields)


def component(row_, **fields):
    return frame(5, 0, h2=row_, **fields)


# Type kinds, in `TypeInner` order from 1.
SCALAR, VECTOR, MATRIX, COOPERATIVE, ATOMIC, POINTER, VALUE_POINTER = 1, 2, 3, 4, 5, 6, 7
ARRAY, STRUCT, IMAGE, SAMPLER, ACCELERATION, RAY_QUERY, BINDING = 8, 9, 10, 11, 12, 13, 14
# Item kinds.
CONSTANT, OVERRIDE, GLOBAL, ARGUMENT, LOCAL, FUNCTION, INTERSECTION, VERTEX = 1, 2, 3, 4, 5, 6, 7, 8
# Row kinds, in `Expression` order from 1.
LITERAL, R_CONSTANT, R_OVERRIDE, ZERO_VALUE, COMPOSE, ACCESS, ACCESS_INDEX, SPLAT, SWIZZLE = 1, 2, 3, 4, 5, 6, 7, 8, 9
R_ARGUMENT, R_GLOBAL, R_LOCAL, LOAD, SAMPLE, IMAGE_LOAD, QUERY, UNARY, BINARY = 10, 11, 12, 13, 14, 15, 16, 17, 18
SELECT, DERIVATIVE, RELATIONAL, MATH, AS, CALL, ATOMIC_RESULT, UNIFORM_LOAD = 19, 20, 21, 22, 23, 24, 25, 26
ARRAY_LENGTH, POSITIONS, PROCEED, GET_INTERSECTION, BALLOT, SUBGROUP = 27, 28, 29, 30, 31, 32
COOPERATIVE_LOAD, MULTIPLY_ADD = 33, 34
# Scalar kinds and address spaces.
SINT, UINT, FLOAT, BOOL = 0, 1, 2, 3
STORAGE = 4

F32 = ty(SCALAR, b4=FLOAT, b5=4)
U32 = ty(SCALAR, b4=UINT, b5=4)
VEC3 = ty(VECTOR, b2=3, b4=FLOAT, b5=4)
MAT32 = ty(MATRIX, b2=3, b3=2, b4=FLOAT, b5=4)
COOP = ty(COOPERATIVE, b2=8, b3=16, b4=FLOAT, b5=4, b6=1)
ATOMIC_U32 = ty(ATOMIC, b4=UINT, b5=4)
BAD_SCALAR = ty(SCALAR, b4=6, b5=4)
LIT = row(LITERAL, b6=1)


def pointer(base, space=0, access=0):
    return ty(POINTER, h2=base, b6=space, b7=access)


def array(base, form=0, count=0, stride=4):
    return ty(ARRAY, h2=base, b4=form, w8=count, w12=stride)


def binding(base, form=0, count=0):
    return ty(BINDING, h2=base, b4=form, w8=count)


def struct(first, count, span=16):
    return ty(STRUCT, h2=first, h4=count, w12=span)


def function(type_=None):
    return item(FUNCTION) if type_ is None else item(FUNCTION, type_, b4=1)


def compose(type_, count, first):
    return row(COMPOSE, h2=type_, h4=count, w12=first)


def binary(left, right, operator=0):
    return row(BINARY, h2=left, h4=right, b6=operator)


# ---- Number 1: over 1,024 frames, which is 33,792 bytes; place 1,024.
LINE = (F32 + '\n').encode()
accepted('lines-1024', [F32] * 1024, room=16384)
store('lines-1024-and-a-digit', LINE * 1024 + b'0', 16400, 1, 1024)
store('lines-1025', LINE * 1025, 16400, 1, 1024)
store('long-before-torn-and-short', b'x' * 33793, 16, 1, 1024)
store('garbage-33792', b'x' * 33792, 16400, 2, 0)

# ---- Number 1 within a limit (document 02, request 7): 1 to 1,024, any other counting as 1,024; more than 33 bytes for each of
# its frames; place: the limit that holds. Then the order of the numbers, a torn line, a short buffer and disorder at the limit.
HOLDS = {0: 1024, 1: 1, 255: 255, 256: 256, 257: 257, 1023: 1023, 1024: 1024, 1025: 1024, 65792: 1024}
for asked, holds in HOLDS.items():
    room = 16 * holds + 16
    store('limit-%d-just' % asked, LINE * holds, room, 0, holds, asked)
    store('limit-%d-and-a-digit' % asked, LINE * holds + b'0', room, 1, holds, asked)
    store('limit-%d-and-a-line' % asked, LINE * (holds + 1), room + 16, 1, holds, asked)
    store('limit-%d-garbage' % asked, b'x' * (33 * holds), room, 2, 0, asked)
    store('limit-%d-garbage-and-one' % asked, b'x' * (33 * holds + 1), 0, 1, holds, asked)
    store('limit-%d-torn-last' % asked, LINE * (holds - 1) + LINE[:-1] + b'0', room, 2, holds - 1, asked)
    store('limit-%d-short' % asked, LINE * holds, 16 * holds - 1, 3, 0, asked)
    store('limit-%d-one-line' % asked, LINE, 16, 0, 1, asked)
    store('limit-%d-none' % asked, b'', 0, 0, 0, asked)
    if holds > 1:
        store('limit-%d-disorder' % asked, text_of([F32] * (holds - 2) + [LIT, F32]), room, 4, holds - 1, asked)

# ---- Number 2: the lowest line that isn't 32 digits and a line feed.
store('empty-text', b'', 16, 0, 0)
store('empty-text-empty-buffer', b'', 0, 0, 0)
torn('torn-short-first', 0, LINE[1:] + LINE + LINE)
torn('torn-short-middle', 1, LINE + LINE[1:] + LINE)
torn('torn-short-last', 2, LINE + LINE + LINE[1:])
torn('torn-long-first', 0, b'0' + LINE + LINE + LINE)
torn('torn-long-middle', 1, LINE + b'0' + LINE + LINE)
torn('torn-long-last', 2, LINE + LINE + b'0' + LINE)
torn('torn-upper-a', 1, LINE + b'A' + LINE[1:] + LINE)
torn('torn-upper-f', 1, LINE + LINE[:31] + b'F\n' + LINE)
torn('torn-upper-in-the-middle', 0, LINE[:16] + b'C' + LINE[17:])
torn('torn-g', 1, LINE + LINE[:31] + b'g\n' + LINE)
torn('torn-slash', 0, b'/' + LINE[1:] + LINE)
torn('torn-colon', 0, LINE[:5] + b':' + LINE[6:] + LINE)
torn('torn-back-quote', 0, LINE[:5] + b'`' + LINE[6:] + LINE)
torn('torn-at-sign', 0, LINE[:5] + b'@' + LINE[6:] + LINE)
torn('torn-zero-byte', 1, LINE + LINE[:9] + b'\0' + LINE[10:])
torn('torn-byte-255', 1, LINE + LINE[:9] + b'\xff' + LINE[10:])
torn('torn-byte-176', 1, LINE + LINE[:9] + b'\xb0' + LINE[10:])
torn('torn-blank-in-front', 0, b' ' + LINE[1:] + LINE)
torn('torn-blank-for-the-last-digit', 0, LINE[:31] + b' \n' + LINE)
torn('torn-blank-before-the-feed', 0, LINE[:32] + b' \n' + LINE)
torn('torn-tab', 2, LINE + LINE + b'\t' + LINE[1:])
torn('torn-carriage-return', 0, LINE[:32] + b'\r\n' + LINE)
torn('torn-carriage-return-for-feed', 0, LINE[:32] + b'\r' + LINE)
torn('torn-carriage-return-last', 1, LINE + LINE[:32] + b'\r')
torn('torn-digit-for-feed', 0, LINE[:32] + b'0' + LINE)
torn('torn-two-lines-joined', 0, LINE[:32] + LINE)
torn('torn-feed-inside', 1, LINE + LINE[:16] + b'\n' + LINE[17:] + LINE)
torn('torn-empty-line-first', 0, b'\n' + LINE + LINE)
torn('torn-empty-line-middle', 1, LINE + b'\n' + LINE)
torn('torn-empty-line-last', 1, LINE + b'\n')
torn('torn-feed-alone', 0, b'\n')
torn('torn-digit-alone', 0, b'0')
torn('torn-no-feed-at-all', 0, LINE[:32])
torn('torn-no-last-feed', 2, LINE + LINE + LINE[:32])
torn('torn-digit-after-the-last-feed', 2, LINE + LINE + b'0')
torn('torn-31-digits-after-the-last-feed', 1, LINE + LINE[:31])
torn('torn-lowest-of-two', 1, LINE + b'g' + LINE[1:] + LINE + b'g' + LINE[1:])
torn('torn-line-1023', 1023, LINE * 1023 + LINE[:32] + b'0')
torn('torn-line-256', 256, LINE * 256 + b' ' + LINE[1:] + LINE)
accepted('every-digit', ['01c8' + '0123456789abcdef' + 'fedcba987654'])

# ---- Number 3: a frame needs 16 bytes of the buffer; place 0.
given('short-by-one', 3, 0, [F32], room=15)
given('short-empty-buffer', 3, 0, [F32], room=0)
accepted('room-exact', [F32], room=16)
accepted('room-one-more', [F32], room=17)
accepted('room-much-longer', [F32], room=1000)
given('short-by-one-of-three', 3, 0, [F32, F32, F32], room=47)
given('short-by-a-frame', 3, 0, [F32, F32, F32], room=32)
accepted('room-exact-of-three', [F32, F32, F32], room=48)
given('short-by-one-of-1024', 3, 0, [F32] * 1024, room=16383)
store('torn-before-short', LINE + b'g' + LINE[1:], 0, 2, 1)
store('torn-before-short-cut-line', LINE + LINE[:32], 16, 2, 1)
given('short-before-order', 3, 0, [frame(255, 0)], room=15)
given('short-before-field', 3, 0, [F32, BAD_SCALAR], room=31)
given('short-before-index', 3, 0, [pointer(0)], room=8)
given('order-in-an-exact-buffer', 4, 0, [frame(255, 0)], room=16)
given('field-in-an-exact-buffer', 5, 1, [F32, BAD_SCALAR], room=32)
given('index-in-an-exact-buffer', 6, 0, [pointer(0)], room=16)
given('index-in-a-longer-buffer', 6, 0, [pointer(0)], room=500)

# ---- Number 4: unknown family or item kind, out of order, a second item of kind 7 or 8.
order('family-0', 0, [frame(0, 1)])
order('family-6', 0, [frame(6, 0)])
order('family-7', 0, [frame(7, 0)])
order('family-8', 0, [frame(8, 0)])
order('family-9', 0, [frame(9, 1, b4=FLOAT, b5=4)])
order('family-10', 0, [frame(10, 22)])
order('family-11', 0, [frame(11, 0)])
order('family-12', 0, [frame(12, 0)])
order('family-255', 0, [frame(255, 0)])
order('family-0-middle', 1, [F32, frame(0, 0), LIT])
order('family-6-middle', 1, [F32, frame(6, 0), LIT])
order('family-6-last', 2, [F32, LIT, frame(6, 0)])
order('family-255-last', 2, [F32, F32, frame(255, 0)])
order('family-unknown-then-lower', 1, [F32, frame(200, 0), F32])
order('family-1-after-2', 2, [F32, member(0), F32])
order('family-2-after-3', 2, [F32, item(CONSTANT), member(0)])
order('family-3-after-4', 2, [F32, LIT, item(CONSTANT)])
order('family-4-after-5', 2, [LIT, component(0), LIT])
order('family-1-after-5', 2, [LIT, component(0), F32])
order('family-1-after-4-first-pair', 1, [LIT, F32])
order('family-1-after-3', 2, [F32, item(LOCAL), F32, F32])
order('family-2-after-4', 2, [F32, LIT, member(0)])
order('item-kind-0', 1, [F32, item(0)])
order('item-kind-0-first', 0, [item(0), LIT])
order('item-kind-9', 1, [F32, item(9)])
order('item-kind-255', 1, [F32, item(255)])
order('item-kind-9-middle', 2, [F32, item(CONSTANT), item(9), LIT])
order('item-kind-9-after-8', 2, [F32, item(VERTEX), item(9)])
order('item-kind-1-after-2', 2, [F32, item(OVERRIDE), item(CONSTANT)])
order('item-kind-2-after-3', 2, [F32, item(GLOBAL), item(OVERRIDE)])
order('item-kind-3-after-4', 2, [F32, item(ARGUMENT), item(GLOBAL)])
order('item-kind-4-after-5', 2, [F32, item(LOCAL), item(ARGUMENT)])
order('item-kind-5-after-6', 2, [F32, function(), item(LOCAL)])
order('item-kind-6-after-7', 2, [F32, item(INTERSECTION), function()])
order('item-kind-7-after-8', 2, [F32, item(VERTEX), item(INTERSECTION)])
order('item-kind-1-after-8', 3, [F32, item(CONSTANT), item(VERTEX), item(CONSTANT)])
order('item-kind-7-twice', 2, [F32, item(INTERSECTION), item(INTERSECTION)])
order('item-kind-7-three-times', 2, [F32, item(INTERSECTION), item(INTERSECTION), item(INTERSECTION)])
order('item-kind-8-twice', 2, [F32, item(VERTEX), item(VERTEX)])
order('item-kind-8-twice-after-7', 3, [F32, item(INTERSECTION), item(VERTEX), item(VERTEX)])
order('item-kind-7-twice-of-two-types', 3, [F32, U32, item(INTERSECTION, 0), item(INTERSECTION, 1)])
order('item-of-unknown-kind-out-of-order', 1, [LIT, item(9)])
order('order-lowest-of-two', 1, [F32, frame(6, 0), F32, frame(0, 0)])
order('order-lowest-item-before-family', 2, [F32, item(LOCAL), item(CONSTANT), frame(0, 0)])
order('order-at-300', 300, [F32] * 300 + [frame(0, 0), F32])
order('order-before-a-lower-field', 2, [BAD_SCALAR, LIT, F32])
order('order-before-a-lower-index', 2, [pointer(0), LIT, F32])
order('order-before-a-field-of-its-frame', 1, [F32, frame(7, 255, b2=255)])
order('second-kind-7-before-a-lower-field', 2, [BAD_SCALAR, item(INTERSECTION), item(INTERSECTION)])
accepted('items-7-and-8-once-each', [F32, item(INTERSECTION), item(VERTEX)])
accepted('items-of-kind-8-without-7', [F32, item(VERTEX)])
accepted('equal-families', [F32, F32, member(0), member(0), item(CONSTANT), item(CONSTANT), LIT, LIT, component(0), component(1)])
accepted('equal-item-kinds', [F32] + [item(k) for k in (1, 1, 2, 2, 3, 3, 4, 4, 5, 5)] + [function(), function()])
accepted('missing-item-kinds', [F32, item(CONSTANT), item(LOCAL), item(VERTEX)])
accepted('types-alone', [F32, VEC3])
accepted('rows-alone', [LIT, LIT])
accepted('items-alone', [function()])
accepted('types-and-members', [F32, member(0)])
accepted('types-and-rows', [F32, LIT])
accepted('rows-and-components', [LIT, component(0)])
accepted('types-rows-components', [F32, LIT, component(0)])
accepted('type-kinds-in-any-order', [ty(SAMPLER), VEC3, F32, ty(RAY_QUERY), MAT32])
accepted('row-kinds-in-any-order', [row(BALLOT), row(UNARY), LIT, row(PROCEED), row(LOAD)])
accepted('all-families-and-item-kinds', [
    F32, struct(0, 1), member(0), item(CONSTANT), item(OVERRIDE), item(GLOBAL), item(ARGUMENT), item(LOCAL), function(0),
    item(INTERSECTION), item(VERTEX), LIT, compose(0, 1, 0), component(0)])
accepted('example-of-the-document', [
    '01010000020400000000000000000000', '01020300020400000000000000000000', '01c80000000000000000000000000000',
    '03050100000000000000000000000000', '03050200000000000000000000000000', '040c0000000000000000000000000000',
    '04070000000000000000000002000000', '040d0100000000000000000000000000', '040c0100000000000000000000000000',
    '040d0300000000000000000000000000', '04070000000000000000000003000000'])

# ---- Number 5, types.
accepted('scalar', [F32])
accepted('scalar-every-kind', [ty(SCALAR, b4=k, b5=4) for k in range(6)])
field('scalar-kind-6', 0, [ty(SCALAR, b4=6, b5=4)])
field('scalar-kind-255', 0, [ty(SCALAR, b4=255, b5=4)])
unused('scalar', [], F32, [2, 3, 6, 7, 8, 9, 10, 11, 12, 13, 14, 15])

accepted('vector-every-size', [ty(VECTOR, b2=n, b4=FLOAT, b5=4) for n in (2, 3, 4)])
accepted('vector-kind-5', [ty(VECTOR, b2=2, b4=5, b5=8)])
field('vector-size-0', 0, [ty(VECTOR, b2=0, b4=FLOAT, b5=4)])
field('vector-size-1', 0, [ty(VECTOR, b2=1, b4=FLOAT, b5=4)])
field('vector-size-5', 0, [ty(VECTOR, b2=5, b4=FLOAT, b5=4)])
field('vector-kind-6', 0, [ty(VECTOR, b2=2, b4=6, b5=4)])
unused('vector', [], VEC3, [3, 6, 7, 8, 9, 10, 11, 12, 13, 14, 15])

accepted('matrix-every-size', [ty(MATRIX, b2=c, b3=r, b4=FLOAT, b5=4) for c in (2, 3, 4) for r in (2, 3, 4)])
accepted('matrix-of-bool', [ty(MATRIX, b2=2, b3=2, b4=BOOL, b5=1)])
field('matrix-columns-1', 0, [ty(MATRIX, b2=1, b3=2, b4=FLOAT, b5=4)])
field('matrix-columns-5', 0, [ty(MATRIX, b2=5, b3=2, b4=FLOAT, b5=4)])
field('matrix-rows-1', 0, [ty(MATRIX, b2=2, b3=1, b4=FLOAT, b5=4)])
field('matrix-rows-5', 0, [ty(MATRIX, b2=2, b3=5, b4=FLOAT, b5=4)])
field('matrix-rows-0', 0, [ty(MATRIX, b2=2, b3=0, b4=FLOAT, b5=4)])
field('matrix-kind-6', 0, [ty(MATRIX, b2=2, b3=2, b4=6, b5=4)])
unused('matrix', [], MAT32, [6, 7, 8, 9, 10, 11, 12, 13, 14, 15])

accepted('cooperative-every-size-and-role', [
    ty(COOPERATIVE, b2=c, b3=r, b4=k, b5=2, b6=o) for c, r, k, o in ((8, 8, 0, 0), (8, 16, 2, 1), (16, 8, 5, 2), (16, 16, 3, 0))])
field('cooperative-columns-7', 0, [ty(COOPERATIVE, b2=7, b3=8, b4=FLOAT, b5=4)])
field('cooperative-columns-9', 0, [ty(COOPERATIVE, b2=9, b3=8, b4=FLOAT, b5=4)])
field('cooperative-columns-15', 0, [ty(COOPERATIVE, b2=15, b3=8, b4=FLOAT, b5=4)])
field('cooperative-columns-17', 0, [ty(COOPERATIVE, b2=17, b3=8, b4=FLOAT, b5=4)])
field('cooperative-columns-4', 0, [ty(COOPERATIVE, b2=4, b3=8, b4=FLOAT, b5=4)])
field('cooperative-rows-7', 0, [ty(COOPERATIVE, b2=8, b3=7, b4=FLOAT, b5=4)])
field('cooperative-rows-9', 0, [ty(COOPERATIVE, b2=8, b3=9, b4=FLOAT, b5=4)])
field('cooperative-rows-17', 0, [ty(COOPERATIVE, b2=8, b3=17, b4=FLOAT, b5=4)])
field('cooperative-kind-6', 0, [ty(COOPERATIVE, b2=8, b3=8, b4=6, b5=4)])
field('cooperative-role-3', 0, [ty(COOPERATIVE, b2=8, b3=8, b4=FLOAT, b5=4, b6=3)])
unused('cooperative', [], COOP, [7, 8, 9, 10, 11, 12, 13, 14, 15])

accepted('atomic', [ATOMIC_U32])
accepted('atomic-kind-5', [ty(ATOMIC, b4=5, b5=8)])
field('atomic-kind-6', 0, [ty(ATOMIC, b4=6, b5=4)])
unused('atomic', [], ATOMIC_U32, [2, 3, 6, 7, 8, 9, 10, 11, 12, 13, 14, 15])

accepted('pointer-every-space', [F32] + [pointer(0, s) for s in range(10)])
accepted('pointer-storage-every-access', [F32] + [pointer(0, STORAGE, a) for a in range(8)])
field('pointer-space-10', 1, [F32, pointer(0, 10)])
field('pointer-space-255', 1, [F32, pointer(0, 255)])
field('pointer-storage-access-8', 1, [F32, pointer(0, STORAGE, 8)])
field('pointer-storage-access-255', 1, [F32, pointer(0, STORAGE, 255)])
for s in (0, 1, 2, 3, 5, 6, 7, 8, 9):
    field('pointer-space-%d-with-an-access' % s, 1, [F32, pointer(0, s, 1)])
unused('pointer', [F32], pointer(0, STORAGE, 3), [4, 5, 8, 9, 10, 11, 12, 13, 14, 15])

accepted('value-pointer-every-size', [ty(VALUE_POINTER, b2=n, b4=FLOAT, b5=4) for n in (0, 2, 3, 4)])
accepted('value-pointer-every-space', [ty(VALUE_POINTER, b4=UINT, b5=4, b6=s) for s in range(10)])
accepted('value-pointer-storage-access-7', [ty(VALUE_POINTER, b4=5, b5=8, b6=STORAGE, b7=7)])
field('value-pointer-size-1', 0, [ty(VALUE_POINTER, b2=1, b4=FLOAT, b5=4)])
field('value-pointer-size-5', 0, [ty(VALUE_POINTER, b2=5, b4=FLOAT, b5=4)])
field('value-pointer-kind-6', 0, [ty(VALUE_POINTER, b2=2, b4=6, b5=4)])
field('value-pointer-space-10', 0, [ty(VALUE_POINTER, b2=2, b4=FLOAT, b5=4, b6=10)])
field('value-pointer-storage-access-8', 0, [ty(VALUE_POINTER, b2=2, b4=FLOAT, b5=4, b6=STORAGE, b7=8)])
field('value-pointer-space-3-with-an-access', 0, [ty(VALUE_POINTER, b2=2, b4=FLOAT, b5=4, b6=3, b7=1)])
field('value-pointer-space-5-with-an-access', 0, [ty(VALUE_POINTER, b2=2, b4=FLOAT, b5=4, b6=5, b7=7)])
unused('value-pointer', [], ty(VALUE_POINTER, b2=2, b4=FLOAT, b5=4), [3, 8, 9, 10, 11, 12, 13, 14, 15])

# ---- Number 5, widths (document 02, request 2): 1, 2, 4 and 8 in every kind that holds a scalar, of every scalar kind; no other.
WIDTHS = (1, 2, 4, 8)
OTHERS = (0, 3, 5, 7, 16, 255)
for name, kind, fields in (
        ('scalar', SCALAR, {}), ('vector', VECTOR, dict(b2=3)), ('matrix', MATRIX, dict(b2=3, b3=2)),
        ('cooperative', COOPERATIVE, dict(b2=8, b3=16, b6=1)), ('atomic', ATOMIC, {}),
        ('value-pointer', VALUE_POINTER, dict(b2=2, b6=STORAGE, b7=3))):
    accepted(name + '-every-width', [ty(kind, b4=k, b5=w, **fields) for k in range(6) for w in WIDTHS])
    for w in OTHERS:
        field('%s-width-%d' % (name, w), 0, [ty(kind, b4=FLOAT, b5=w, **fields)])
for k in range(6):
    field('scalar-kind-%d-width-3' % k, 0, [ty(SCALAR, b4=k, b5=3)])
field('width-3-lowest-of-two', 1, [F32, ty(VECTOR, b2=3, b4=FLOAT, b5=3), ty(SCALAR, b4=FLOAT, b5=0)])
accepted('unknown-kind-width-3', [ty(200, b4=FLOAT, b5=3)])

accepted('array-constant', [F32, array(0, 0, 1)])
accepted('array-constant-every-count-byte', [F32] + [array(0, 0, c) for c in (1, 256, 65536, 16777216, 0xffffffff)])
accepted('array-stride-0-and-highest', [F32, array(0, 0, 5, 0), array(0, 0, 5, 0xffffffff)])
accepted('array-dynamic', [F32, array(0, 2, 0)])
accepted('array-pending', [F32, array(0, 1, 0), item(OVERRIDE)])
field('array-constant-count-0', 1, [F32, array(0, 0, 0)])
field('array-dynamic-count-1', 1, [F32, array(0, 2, 1)])
field('array-dynamic-count-256', 1, [F32, array(0, 2, 256)])
field('array-dynamic-count-65536', 1, [F32, array(0, 2, 65536)])
field('array-dynamic-count-high-byte', 1, [F32, array(0, 2, 16777216)])
field('array-form-3', 1, [F32, array(0, 3, 1)])
field('array-form-255', 1, [F32, array(0, 255, 1)])
unused('array', [F32], array(0, 0, 1), [5, 6, 7])
unused('array-dynamic', [F32], array(0, 2, 0), [5, 6, 7])
unused('array-pending', [F32], array(0, 1, 0), [5, 6, 7], [item(OVERRIDE)])

accepted('binding-array-constant', [F32, binding(0, 0, 1)])
accepted('binding-array-constant-count-highest', [F32, binding(0, 0, 0xffffffff), binding(0, 0, 16777216)])
accepted('binding-array-dynamic', [F32, binding(0, 2, 0)])
accepted('binding-array-pending', [F32, binding(0, 1, 0), item(OVERRIDE)])
field('binding-array-constant-count-0', 1, [F32, binding(0, 0, 0)])
field('binding-array-dynamic-count-1', 1, [F32, binding(0, 2, 1)])
field('binding-array-dynamic-count-high-byte', 1, [F32, binding(0, 2, 16777216)])
field('binding-array-form-3', 1, [F32, binding(0, 3, 1)])
field('binding-array-with-a-stride', 1, [F32, ty(BINDING, w8=1, w12=4)])
unused('binding-array', [F32], binding(0, 0, 1), [5, 6, 7, 12, 13, 14, 15])
unused('binding-array-dynamic', [F32], binding(0, 2, 0), [12, 15])
unused('binding-array-pending', [F32], binding(0, 1, 0), [12, 15], [item(OVERRIDE)])

accepted('struct', [F32, struct(0, 1), member(0)])
accepted('struct-without-members', [struct(0, 0)])
accepted('struct-span-0-and-highest', [struct(0, 0, 0), struct(0, 0, 0xffffffff)])
unused('struct', [F32], struct(0, 1), [6, 7, 8, 9, 10, 11], [member(0)])

accepted('image-every-dimension', [ty(IMAGE, b2=d) for d in (1, 2, 3, 4)])
field('image-dimension-0', 0, [ty(IMAGE, b2=0)])
field('image-dimension-5', 0, [ty(IMAGE, b2=5)])
accepted('image-arrayed', [ty(IMAGE, b2=2, b3=1)])
field('image-arrayed-2', 0, [ty(IMAGE, b2=2, b3=2)])
field('image-class-4', 0, [ty(IMAGE, b2=2, b4=4)])
field('image-class-255', 0, [ty(IMAGE, b2=2, b4=255)])
accepted('image-sampled-every-kind', [ty(IMAGE, b2=2, b4=0, b5=k) for k in range(6)])
accepted('image-sampled-multi', [ty(IMAGE, b2=2, b4=0, b5=FLOAT, b6=1)])
field('image-sampled-kind-6', 0, [ty(IMAGE, b2=2, b4=0, b5=6)])
field('image-sampled-multi-2', 0, [ty(IMAGE, b2=2, b4=0, b5=FLOAT, b6=2)])
field('image-sampled-with-an-access', 0, [ty(IMAGE, b2=2, b4=0, b5=FLOAT, b7=1)])
accepted('image-depth', [ty(IMAGE, b2=2, b4=1)])
accepted('image-depth-multi', [ty(IMAGE, b2=2, b4=1, b6=1)])
field('image-depth-with-a-kind', 0, [ty(IMAGE, b2=2, b4=1, b5=1)])
field('image-depth-multi-2', 0, [ty(IMAGE, b2=2, b4=1, b6=2)])
field('image-depth-with-an-access', 0, [ty(IMAGE, b2=2, b4=1, b7=1)])
accepted('image-external', [ty(IMAGE, b2=2, b4=2)])
field('image-external-with-a-kind', 0, [ty(IMAGE, b2=2, b4=2, b5=1)])
field('image-external-multi', 0, [ty(IMAGE, b2=2, b4=2, b6=1)])
field('image-external-with-an-access', 0, [ty(IMAGE, b2=2, b4=2, b7=1)])
accepted('image-storage-every-format', [ty(IMAGE, b2=2, b4=3, b5=f, b7=1) for f in range(41)])
accepted('image-storage-every-access', [ty(IMAGE, b2=2, b4=3, b5=9, b7=a) for a in range(8)])
field('image-storage-format-41', 0, [ty(IMAGE, b2=2, b4=3, b5=41, b7=1)])
field('image-storage-format-255', 0, [ty(IMAGE, b2=2, b4=3, b5=255, b7=1)])
field('image-storage-multi', 0, [ty(IMAGE, b2=2, b4=3, b5=9, b6=1, b7=1)])
field('image-storage-access-8', 0, [ty(IMAGE, b2=2, b4=3, b5=9, b7=8)])
unused('image', [], ty(IMAGE, b2=2, b4=0, b5=FLOAT), [8, 9, 10, 11, 12, 13, 14, 15])
unused('image-storage', [], ty(IMAGE, b2=2, b4=3, b5=9, b7=3), [8, 15])

accepted('sampler', [ty(SAMPLER, b2=0), ty(SAMPLER, b2=1)])
field('sampler-flag-2', 0, [ty(SAMPLER, b2=2)])
unused('sampler', [], ty(SAMPLER, b2=1), [3, 4, 5, 6, 7, 8, 9, 10, 11, 12, 13, 14, 15])
accepted('acceleration-structure', [ty(ACCELERATION, b2=0), ty(ACCELERATION, b2=1)])
field('acceleration-structure-flag-2', 0, [ty(ACCELERATION, b2=2)])
unused('acceleration-structure', [], ty(ACCELERATION, b2=1), [3, 4, 5, 6, 7, 8, 9, 10, 11, 12, 13, 14, 15])
accepted('ray-query', [ty(RAY_QUERY, b2=0), ty(RAY_QUERY, b2=1)])
field('ray-query-flag-2', 0, [ty(RAY_QUERY, b2=2)])
unused('ray-query', [], ty(RAY_QUERY, b2=1), [3, 4, 5, 6, 7, 8, 9, 10, 11, 12, 13, 14, 15])

FREE = dict(h2=0xffff, w4=0xffffffff, w8=0xffffffff, w12=0xffffffff)
accepted('type-kind-0-free', [ty(0, **FREE)])
accepted('type-kind-15-free', [ty(15, **FREE)])
accepted('type-kind-200-free', [ty(200, b2=9)])
accepted('type-kind-255-free', [ty(255, **FREE), F32])

# ---- Number 5, members and components.
accepted('member-offset-highest', [F32, member(0, w12=0xffffffff)])
field('member-kind-1', 1, [F32, frame(2, 1)])
field('member-kind-255', 2, [F32, member(0), frame(2, 255)])
unused('member', [F32], member(0), [4, 5, 6, 7, 8, 9, 10, 11])
field('component-kind-1', 1, [LIT, frame(5, 1)])
field('component-kind-255', 2, [LIT, component(0), frame(5, 255)])
unused('component', [LIT], component(0), [4, 5, 6, 7, 8, 9, 10, 11, 12, 13, 14, 15])

# ---- Number 5, items.
FROM_4 = [4, 5, 6, 7, 8, 9, 10, 11, 12, 13, 14, 15]
accepted('item-constant', [F32, item(CONSTANT)])
unused('item-constant', [F32], item(CONSTANT), FROM_4)
accepted('item-override', [F32, item(OVERRIDE)])
unused('item-override', [F32], item(OVERRIDE), FROM_4)
accepted('item-argument', [F32, item(ARGUMENT)])
unused('item-argument', [F32], item(ARGUMENT), FROM_4)
accepted('item-local', [F32, item(LOCAL)])
unused('item-local', [F32], item(LOCAL), FROM_4)
accepted('item-ray-intersection', [F32, item(INTERSECTION)])
unused('item-ray-intersection', [F32], item(INTERSECTION), FROM_4)
accepted('item-ray-vertex-return', [F32, item(VERTEX)])
unused('item-ray-vertex-return', [F32], item(VERTEX), FROM_4)
accepted('item-global-every-space', [F32] + [item(GLOBAL, b6=s) for s in range(10)])
accepted('item-global-storage-every-access', [F32] + [item(GLOBAL, b6=STORAGE, b7=a) for a in range(8)])
field('item-global-space-10', 1, [F32, item(GLOBAL, b6=10)])
field('item-global-storage-access-8', 1, [F32, item(GLOBAL, b6=STORAGE, b7=8)])
field('item-global-space-0-with-an-access', 1, [F32, item(GLOBAL, b7=1)])
field('item-global-space-3-with-an-access', 1, [F32, item(GLOBAL, b6=3, b7=1)])
field('item-global-space-5-with-an-access', 1, [F32, item(GLOBAL, b6=5, b7=1)])
unused('item-global', [F32], item(GLOBAL, b6=STORAGE, b7=3), [4, 5, 8, 9, 10, 11, 12, 13, 14, 15])
accepted('item-function-with-a-result', [F32, U32, function(1)])
accepted('item-function-without-a-result', [F32, function()])
field('item-function-flag-2', 1, [F32, item(FUNCTION, 0, b4=2)])
field('item-function-type-but-no-result', 2, [F32, U32, item(FUNCTION, 1)])
field('item-function-type-high-byte-no-result', 1, [F32, item(FUNCTION, 256)])
unused('item-function', [F32], function(0), [5, 6, 7, 8, 9, 10, 11, 12, 13, 14, 15])
unused('item-function-no-result', [F32], function(), [5, 15])

# ---- Number 5, rows. Each form is accepted as it stands, after the frames that it names.
FROM_8 = [8, 9, 10, 11, 12, 13, 14, 15]
accepted('row-literal-every-kind', [row(LITERAL, b6=k) for k in range(12)])
field('row-literal-kind-12', 0, [row(LITERAL, b6=12)])
field('row-literal-kind-255', 0, [row(LITERAL, b6=255)])
unused('row-literal', [], LIT, [2, 3, 4, 5, 7] + FROM_8)
accepted('row-constant', [F32, item(CONSTANT), row(R_CONSTANT)])
unused('row-constant', [F32, item(CONSTANT)], row(R_CONSTANT), FROM_4)
accepted('row-override', [F32, item(OVERRIDE), row(R_OVERRIDE)])
unused('row-override', [F32, item(OVERRIDE)], row(R_OVERRIDE), FROM_4)
accepted('row-zero-value', [F32, row(ZERO_VALUE)])
unused('row-zero-value', [F32], row(ZERO_VALUE), FROM_4)
accepted('row-compose', [F32, LIT, compose(0, 1, 0), component(0)])
unused('row-compose', [F32, LIT], compose(0, 1, 0), [6, 7, 8, 9, 10, 11], [component(0)])
accepted('row-access', [LIT, row(ACCESS)])
unused('row-access', [LIT], row(ACCESS), FROM_4)
accepted('row-access-index', [LIT, row(ACCESS_INDEX, w12=7), row(ACCESS_INDEX, h2=1, w12=0xffffffff)])
unused('row-access-index', [LIT], row(ACCESS_INDEX, w12=7), [4, 5, 6, 7, 8, 9, 10, 11])
accepted('row-splat-every-size', [LIT] + [row(SPLAT, b6=n) for n in (2, 3, 4)])
field('row-splat-size-1', 1, [LIT, row(SPLAT, b6=1)])
field('row-splat-size-5', 1, [LIT, row(SPLAT, b6=5)])
field('row-splat-size-0', 1, [LIT, row(SPLAT, b6=0)])
unused('row-splat', [LIT], row(SPLAT, b6=2), [4, 5, 7] + FROM_8)
accepted('row-swizzle-every-size', [LIT] + [row(SWIZZLE, b6=n) for n in (2, 3, 4)])
field('row-swizzle-size-1', 1, [LIT, row(SWIZZLE, b6=1)])
field('row-swizzle-size-5', 1, [LIT, row(SWIZZLE, b6=5)])
unused('row-swizzle', [LIT], row(SWIZZLE, b6=2), [4, 5, 7] + FROM_8)
accepted('row-argument', [F32, item(ARGUMENT), row(R_ARGUMENT)])
unused('row-argument', [F32, item(ARGUMENT)], row(R_ARGUMENT), [2, 3, 4, 5, 6, 7, 8, 9, 10, 11])
accepted('row-global', [F32, item(GLOBAL), row(R_GLOBAL)])
unused('row-global', [F32, item(GLOBAL)], row(R_GLOBAL), FROM_4)
accepted('row-local', [F32, item(LOCAL), row(R_LOCAL)])
unused('row-local', [F32, item(LOCAL)], row(R_LOCAL), FROM_4)
accepted('row-load', [LIT, row(LOAD)])
unused('row-load', [LIT], row(LOAD), FROM_4)
accepted('row-image-sample', [LIT, row(SAMPLE), row(SAMPLE, b6=1)])
field('row-image-sample-gather-2', 1, [LIT, row(SAMPLE, b6=2)])
unused('row-image-sample', [LIT], row(SAMPLE), [4, 5, 7] + FROM_8)
accepted('row-image-load', [LIT, row(IMAGE_LOAD)])
unused('row-image-load', [LIT], row(IMAGE_LOAD), FROM_4)
accepted('row-image-query-every-query', [LIT] + [row(QUERY, b6=q) for q in range(4)])
accepted('row-image-query-size-of-row-1', [LIT, LIT, row(QUERY, h2=1, b6=0)])
field('row-image-query-4', 1, [LIT, row(QUERY, b6=4)])
field('row-num-levels-with-an-operand', 2, [LIT, LIT, row(QUERY, h2=1, b6=1)])
field('row-num-layers-with-an-operand', 2, [LIT, LIT, row(QUERY, h2=1, b6=2)])
field('row-num-samples-with-an-operand', 2, [LIT, LIT, row(QUERY, h2=1, b6=3)])
field('row-num-levels-operand-high-byte', 1, [LIT, row(QUERY, h2=256, b6=1)])
unused('row-image-query-size', [LIT], row(QUERY), [4, 5, 7] + FROM_8)
unused('row-num-levels', [LIT], row(QUERY, b6=1), [4, 5, 7] + FROM_8)
accepted('row-unary', [LIT, row(UNARY)])
unused('row-unary', [LIT], row(UNARY), FROM_4)
accepted('row-binary-every-operator', [LIT, LIT] + [binary(0, 1, o) for o in range(18)])
field('row-binary-operator-18', 2, [LIT, LIT, binary(0, 1, 18)])
field('row-binary-operator-255', 2, [LIT, LIT, binary(0, 1, 255)])
unused('row-binary', [LIT, LIT], binary(0, 1), [7] + FROM_8)
accepted('row-select', [LIT, row(SELECT)])
unused('row-select', [LIT], row(SELECT), FROM_4)
accepted('row-derivative', [LIT, row(DERIVATIVE)])
unused('row-derivative', [LIT], row(DERIVATIVE), FROM_4)
accepted('row-relational-every-function', [LIT] + [row(RELATIONAL, b6=k) for k in range(4)])
accepted('row-is-nan-and-is-inf-of-row-1', [LIT, LIT, row(RELATIONAL, h2=1, b6=2), row(RELATIONAL, h2=1, b6=3)])
field('row-relational-function-4', 1, [LIT, row(RELATIONAL, b6=4)])
field('row-all-with-an-operand', 2, [LIT, LIT, row(RELATIONAL, h2=1, b6=0)])
field('row-any-with-an-operand', 2, [LIT, LIT, row(RELATIONAL, h2=1, b6=1)])
field('row-all-operand-high-byte', 1, [LIT, row(RELATIONAL, h2=256, b6=0)])
unused('row-all', [LIT], row(RELATIONAL), [4, 5, 7] + FROM_8)
unused('row-is-nan', [LIT], row(RELATIONAL, b6=2), [4, 5, 7] + FROM_8)
accepted('row-all-with-no-row-before', [row(RELATIONAL, b6=0), row(RELATIONAL, b6=1)])
accepted('row-queries-with-no-row-before', [row(QUERY, b6=q) for q in (1, 2, 3)])
accepted('row-math', [row(MATH)])
accepted('row-math-free', [row(MATH, **FREE)])
accepted('row-as-every-kind', [LIT] + [row(AS, b6=k, b7=1, b8=4) for k in range(6)])
accepted('row-as-every-width', [LIT] + [row(AS, b6=k, b7=1, b8=w) for k in range(6) for w in WIDTHS] + [row(AS, b7=0, b8=0)])
for w in OTHERS:
    field('row-as-width-%d' % w, 1, [LIT, row(AS, b6=FLOAT, b7=1, b8=w)])
for w in (1, 2, 3, 8, 255):
    field('row-as-flag-clear-with-width-%d' % w, 1, [LIT, row(AS, b6=FLOAT, b7=0, b8=w)])
field('row-as-width-3-second', 2, [LIT, row(AS, b6=FLOAT, b7=1, b8=4), row(AS, b6=FLOAT, b7=1, b8=3), row(AS, b7=1, b8=0)])
accepted('row-math-width-3', [LIT, row(MATH, b6=FLOAT, b7=1, b8=3)])
field('row-as-kind-6', 1, [LIT, row(AS, b6=6, b7=1, b8=4)])
field('row-as-flag-2', 1, [LIT, row(AS, b6=FLOAT, b7=2, b8=4)])
field('row-as-flag-2-width-0', 1, [LIT, row(AS, b6=FLOAT, b7=2)])
field('row-as-flag-clear-with-a-width', 1, [LIT, row(AS, b6=FLOAT, b7=0, b8=4)])
unused('row-as', [LIT], row(AS, b6=FLOAT, b7=1, b8=4), [4, 5, 9, 10, 11, 12, 13, 14, 15])
unused('row-as-flag-clear', [LIT], row(AS, b6=FLOAT), [4, 5, 8, 9, 15])
accepted('row-call', [F32, function(0), row(CALL)])
accepted('row-call-without-a-result', [function(), row(CALL)])
unused('row-call', [F32, function(0)], row(CALL), FROM_4)
accepted('row-atomic-result', [F32, row(ATOMIC_RESULT)])
unused('row-atomic-result', [F32], row(ATOMIC_RESULT), FROM_4)
accepted('row-uniform-load', [F32, row(UNIFORM_LOAD)])
unused('row-uniform-load', [F32], row(UNIFORM_LOAD), FROM_4)
FROM_2 = [2, 3] + FROM_4
accepted('row-array-length', [row(ARRAY_LENGTH)])
unused('row-array-length', [LIT, LIT], row(ARRAY_LENGTH), FROM_2)
accepted('row-vertex-positions', [row(POSITIONS)])
unused('row-vertex-positions', [LIT, LIT], row(POSITIONS), FROM_2)
accepted('row-proceed', [row(PROCEED)])
unused('row-proceed', [LIT, LIT], row(PROCEED), FROM_2)
accepted('row-get-intersection', [row(GET_INTERSECTION)])
unused('row-get-intersection', [LIT, LIT], row(GET_INTERSECTION), FROM_2)
accepted('row-ballot', [row(BALLOT)])
unused('row-ballot', [LIT, LIT], row(BALLOT), FROM_2)
accepted('row-subgroup', [F32, row(SUBGROUP)])
unused('row-subgroup', [F32], row(SUBGROUP), FROM_4)
accepted('row-cooperative-load-sizes-and-roles', [
    LIT, row(COOPERATIVE_LOAD, b6=8, b7=8, b8=0), row(COOPERATIVE_LOAD, b6=8, b7=16, b8=1), row(COOPERATIVE_LOAD, b6=16, b7=8, b8=2)])
field('row-cooperative-load-columns-7', 1, [LIT, row(COOPERATIVE_LOAD, b6=7, b7=8)])
field('row-cooperative-load-columns-9', 1, [LIT, row(COOPERATIVE_LOAD, b6=9, b7=8)])
field('row-cooperative-load-columns-17', 1, [LIT, row(COOPERATIVE_LOAD, b6=17, b7=8)])
field('row-cooperative-load-columns-0', 1, [LIT, row(COOPERATIVE_LOAD, b6=0, b7=8)])
field('row-cooperative-load-rows-7', 1, [LIT, row(COOPERATIVE_LOAD, b6=8, b7=7)])
field('row-cooperative-load-rows-15', 1, [LIT, row(COOPERATIVE_LOAD, b6=8, b7=15)])
field('row-cooperative-load-rows-4', 1, [LIT, row(COOPERATIVE_LOAD, b6=8, b7=4)])
field('row-cooperative-load-role-3', 1, [LIT, row(COOPERATIVE_LOAD, b6=8, b7=8, b8=3)])
unused('row-cooperative-load', [LIT], row(COOPERATIVE_LOAD, b6=8, b7=16, b8=1), [4, 5, 9, 10, 11, 12, 13, 14, 15])
accepted('row-multiply-add', [LIT, row(MULTIPLY_ADD)])
unused('row-multiply-add', [LIT], row(MULTIPLY_ADD), FROM_4)
accepted('row-kind-0-free', [row(0, **FREE)])
accepted('row-kind-35-free', [row(35, **FREE)])
accepted('row-kind-255-free', [row(255, **FREE), LIT])

# ---- Number 5: the lowest, and before number 6.
field('field-first', 0, [BAD_SCALAR, F32, LIT])
field('field-middle', 1, [F32, BAD_SCALAR, LIT])
field('field-last', 2, [F32, LIT, row(LITERAL, b6=12)])
field('field-lowest-of-three', 1, [F32, BAD_SCALAR, frame(2, 1), row(LITERAL, b6=12)])
field('field-lowest-type-before-component', 0, [BAD_SCALAR, LIT, frame(5, 1)])
field('field-before-a-lower-index', 1, [pointer(0), BAD_SCALAR])
field('field-last-before-a-lower-index', 3, [F32, pointer(1), LIT, frame(5, 1)])
field('field-and-index-in-one-frame', 1, [F32, pointer(5, 10)])
field('field-at-257', 257, [F32] * 257 + [BAD_SCALAR, F32])
field('field-of-a-member-before-an-item-index', 1, [F32, member(9, b4=1), item(CONSTANT, 9)])

# ---- Number 6, types that name types.
index('pointer-to-itself', 1, [F32, pointer(1)])
index('pointer-to-itself-first', 0, [pointer(0), F32])
index('pointer-to-a-later-type', 0, [pointer(1), F32])
index('pointer-out-of-range', 1, [F32, pointer(2)])
index('pointer-base-high-byte', 1, [F32, pointer(256), F32])
accepted('pointer-to-the-type-before', [F32, U32, pointer(1)])
accepted('pointer-to-the-first-type', [F32, U32, pointer(0)])
accepted('pointer-to-an-unknown-kind', [ty(200, b2=9), pointer(0)])
accepted('pointer-to-a-pointer', [F32, pointer(0), pointer(1)])
index('array-of-itself', 1, [F32, array(1, 0, 3)])
index('array-of-a-later-type', 0, [array(1, 0, 3), F32])
index('array-dynamic-of-itself', 1, [F32, array(1, 2)])
index('array-base-high-byte', 1, [F32, array(256, 0, 3)])
accepted('array-of-the-type-before', [F32, U32, array(1, 0, 3)])
index('binding-array-of-itself', 1, [F32, binding(1, 0, 3)])
index('binding-array-of-a-later-type', 0, [binding(1, 0, 3), F32])
index('binding-array-base-high-byte', 1, [F32, binding(256, 0, 3)])
accepted('binding-array-of-the-type-before', [F32, U32, binding(1, 0, 3)])
accepted('pointer-at-300-to-299', [F32] * 300 + [pointer(299)])
index('pointer-at-300-to-300', 300, [F32] * 300 + [pointer(300), F32])

# ---- Number 6, overrides of pending arrays.
index('array-pending-without-overrides', 1, [F32, array(0, 1, 0)])
index('array-pending-equal-to-the-count', 1, [F32, array(0, 1, 1), item(OVERRIDE)])
accepted('array-pending-last-override', [F32, array(0, 1, 1), item(OVERRIDE), item(OVERRIDE)])
index('array-pending-two-past-two', 1, [F32, array(0, 1, 2), item(OVERRIDE), item(OVERRIDE)])
index('array-pending-b9', 1, [F32, array(0, 1, 256), item(OVERRIDE)])
index('array-pending-b10', 1, [F32, array(0, 1, 65536), item(OVERRIDE)])
index('array-pending-b11', 1, [F32, array(0, 1, 16777216), item(OVERRIDE)])
index('array-pending-highest', 1, [F32, array(0, 1, 0xffffffff), item(OVERRIDE)])
index('array-pending-counts-overrides-only', 1, [F32, array(0, 1, 1), item(CONSTANT), item(CONSTANT), item(OVERRIDE), item(GLOBAL)])
accepted('array-pending-after-constants', [F32, array(0, 1, 0), item(CONSTANT), item(OVERRIDE), item(GLOBAL)])
index('binding-array-pending-equal-to-the-count', 1, [F32, binding(0, 1, 1), item(OVERRIDE)])
index('binding-array-pending-b10', 1, [F32, binding(0, 1, 65536), item(OVERRIDE)])
index('binding-array-pending-without-overrides', 1, [F32, binding(0, 1, 0)])
accepted('binding-array-pending-last-override', [F32, binding(0, 1, 1), item(OVERRIDE), item(OVERRIDE)])

# ---- Number 6, structs and members.
accepted('struct-range-at-the-end', [F32, struct(1, 2), member(0), member(0), member(0)])
index('struct-range-one-past', 1, [F32, struct(1, 3), member(0), member(0), member(0)])
index('struct-without-any-member', 1, [F32, struct(0, 1)])
accepted('struct-start-at-the-end-count-0', [F32, struct(2, 0), member(0), member(0)])
index('struct-start-past-the-end-count-0', 1, [F32, struct(3, 0), member(0), member(0)])
index('struct-start-1-count-0-no-members', 0, [struct(1, 0)])
index('struct-sum-65536', 1, [F32, struct(65535, 1), member(0)])
index('struct-sum-65537', 1, [F32, struct(65535, 2), member(0)])
index('struct-sum-wraps-from-1', 1, [F32, struct(1, 65535), member(0)])
index('struct-both-highest', 1, [F32, struct(65535, 65535), member(0)])
index('struct-start-high-byte', 1, [F32, struct(256, 0), member(0)])
index('struct-count-high-byte', 1, [F32, struct(0, 256), member(0)])
accepted('struct-of-256-members', [F32, struct(0, 256)] + [member(0)] * 256)
index('member-names-its-struct', 2, [F32, struct(0, 1), member(1)])
index('member-names-a-later-type', 2, [struct(0, 1), F32, member(1)])
index('member-names-a-type-out-of-range', 2, [F32, struct(0, 1), member(2)])
index('member-type-high-byte', 2, [F32, struct(0, 1), member(256)])
accepted('member-names-the-type-before', [F32, U32, struct(0, 1), member(1)])
index('second-member-names-its-struct', 3, [F32, struct(0, 2), member(0), member(1)])
index('middle-member-of-three', 3, [F32, struct(0, 3), member(0), member(1), member(0)])
index('lowest-of-two-members', 3, [F32, struct(0, 3), member(0), member(1), member(1)])
index('member-of-none-out-of-range', 1, [F32, member(1)])
index('member-of-none-far-out-of-range', 2, [F32, U32, member(65535)])
accepted('member-of-none-names-the-last-type', [F32, U32, member(1)])
accepted('member-of-none-past-a-struct', [F32, struct(0, 1), U32, member(0), member(2)])
accepted('member-of-none-before-a-range', [F32, struct(1, 1), U32, member(2), member(0)])
index('member-before-a-range-out-of-range', 3, [F32, struct(1, 1), U32, member(3), member(0)])
index('member-shared-too-late-for-the-lower', 4, [F32, struct(0, 1), U32, struct(0, 1), member(2)])
accepted('member-shared-early-for-both', [F32, struct(0, 1), U32, struct(0, 1), member(0)])
index('member-too-late-for-the-higher-only', 5, [F32, struct(0, 1), struct(1, 1), U32, member(0), member(3)])
index('member-in-overlapping-ranges', 6, [F32, struct(0, 2), U32, struct(1, 2), member(0), member(0), member(3)])
accepted('member-ranges-overlap', [F32, struct(0, 2), U32, struct(1, 2), member(0), member(0), member(2)])
index('member-overlap-too-late-for-the-lower', 5, [F32, struct(0, 2), U32, struct(1, 2), member(0), member(2), member(2)])
accepted('member-names-an-earlier-struct', [F32, struct(0, 1), struct(1, 1), member(0), member(1)])
accepted('member-later-than-a-struct-of-count-0', [struct(0, 0), F32, member(1)])
index('struct-range-before-its-member', 1, [F32, struct(0, 2), member(1)])

# ---- Number 6, items that name types.
index('item-constant-out-of-range', 1, [F32, item(CONSTANT, 1)])
index('item-override-out-of-range', 1, [F32, item(OVERRIDE, 1)])
index('item-global-out-of-range', 1, [F32, item(GLOBAL, 1)])
index('item-argument-out-of-range', 1, [F32, item(ARGUMENT, 1)])
index('item-local-out-of-range', 1, [F32, item(LOCAL, 1)])
index('item-function-out-of-range', 1, [F32, function(1)])
index('item-ray-intersection-out-of-range', 1, [F32, item(INTERSECTION, 1)])
index('item-ray-vertex-return-out-of-range', 1, [F32, item(VERTEX, 1)])
index('item-without-any-type', 0, [item(CONSTANT)])
index('item-function-without-any-type', 0, [function(0)])
index('item-type-high-byte', 1, [F32, item(LOCAL, 256)])
index('item-second-out-of-range', 3, [F32, item(LOCAL), function(), function(1), LIT])
accepted('item-names-the-last-type', [F32, U32, item(CONSTANT, 1), item(LOCAL, 1), function(1)])
index('item-counts-types-and-not-members', 3, [F32, member(0), member(0), item(CONSTANT, 1)])

# ---- Number 6, rows that name types and items.
index('row-zero-value-out-of-range', 1, [F32, row(ZERO_VALUE, h2=1)])
index('row-compose-type-out-of-range', 1, [F32, compose(1, 0, 0)])
index('row-atomic-result-out-of-range', 1, [F32, row(ATOMIC_RESULT, h2=1)])
index('row-uniform-load-out-of-range', 1, [F32, row(UNIFORM_LOAD, h2=1)])
index('row-subgroup-out-of-range', 1, [F32, row(SUBGROUP, h2=1)])
index('row-zero-value-high-byte', 1, [F32, row(ZERO_VALUE, h2=256)])
index('row-type-number-is-no-row-number', 3, [F32, LIT, LIT, row(ZERO_VALUE, h2=1)])
accepted('row-type-number-past-the-rows', [F32, U32, VEC3, row(ZERO_VALUE, h2=2)])
index('row-constant-out-of-range', 2, [F32, item(CONSTANT), row(R_CONSTANT, h2=1)])
index('row-override-out-of-range', 2, [F32, item(OVERRIDE), row(R_OVERRIDE, h2=1)])
index('row-global-out-of-range', 2, [F32, item(GLOBAL), row(R_GLOBAL, h2=1)])
index('row-local-out-of-range', 2, [F32, item(LOCAL), row(R_LOCAL, h2=1)])
index('row-call-out-of-range', 2, [F32, function(0), row(CALL, h2=1)])
index('row-constant-without-constants', 2, [F32, item(OVERRIDE), row(R_CONSTANT)])
index('row-override-without-overrides', 2, [F32, item(CONSTANT), row(R_OVERRIDE)])
index('row-global-without-globals', 2, [F32, item(ARGUMENT), row(R_GLOBAL)])
index('row-local-without-locals', 2, [F32, item(ARGUMENT), row(R_LOCAL)])
index('row-call-without-functions', 2, [F32, item(INTERSECTION), row(CALL)])
index('row-local-high-byte', 2, [F32, item(LOCAL), row(R_LOCAL, h2=256)])
index('row-override-counts-overrides-only', 4, [F32, item(CONSTANT), item(CONSTANT), item(OVERRIDE), row(R_OVERRIDE, h2=1)])
accepted('row-items-count-within-their-kind', [
    F32, item(CONSTANT), item(OVERRIDE), item(GLOBAL), item(ARGUMENT), item(LOCAL), item(LOCAL), function(),
    row(R_CONSTANT), row(R_OVERRIDE), row(R_GLOBAL), row(R_LOCAL, h2=1), row(CALL)])
accepted('row-argument-highest-index', [row(R_ARGUMENT, w12=0xffffffff)])
accepted('row-argument-past-the-arguments', [F32, item(ARGUMENT), row(R_ARGUMENT, w12=1)])

# ---- Number 6, rows that name rows. Row 1 names itself.
index('row-access-itself', 1, [LIT, row(ACCESS, h2=1)])
index('row-access-index-itself', 1, [LIT, row(ACCESS_INDEX, h2=1)])
index('row-splat-itself', 1, [LIT, row(SPLAT, h2=1, b6=2)])
index('row-swizzle-itself', 1, [LIT, row(SWIZZLE, h2=1, b6=2)])
index('row-load-itself', 1, [LIT, row(LOAD, h2=1)])
index('row-image-sample-itself', 1, [LIT, row(SAMPLE, h2=1)])
index('row-image-sample-gather-itself', 1, [LIT, row(SAMPLE, h2=1, b6=1)])
index('row-image-load-itself', 1, [LIT, row(IMAGE_LOAD, h2=1)])
index('row-image-query-size-itself', 1, [LIT, row(QUERY, h2=1)])
index('row-unary-itself', 1, [LIT, row(UNARY, h2=1)])
index('row-binary-left-itself', 1, [LIT, binary(1, 0, 2)])
index('row-binary-right-itself-multiply', 1, [LIT, binary(0, 1, 2)])
index('row-binary-right-itself-add', 1, [LIT, binary(0, 1, 0)])
index('row-binary-right-later-equal', 1, [LIT, binary(0, 2, 5), LIT])
index('row-binary-right-high-byte', 1, [LIT, binary(0, 256, 17)])
index('row-select-itself', 1, [LIT, row(SELECT, h2=1)])
index('row-derivative-itself', 1, [LIT, row(DERIVATIVE, h2=1)])
index('row-is-nan-itself', 1, [LIT, row(RELATIONAL, h2=1, b6=2)])
index('row-is-inf-itself', 1, [LIT, row(RELATIONAL, h2=1, b6=3)])
index('row-as-itself', 1, [LIT, row(AS, h2=1, b6=FLOAT, b7=1, b8=4)])
index('row-as-flag-clear-itself', 1, [LIT, row(AS, h2=1, b6=FLOAT)])
index('row-cooperative-load-itself', 1, [LIT, row(COOPERATIVE_LOAD, h2=1, b6=8, b7=8)])
index('row-multiply-add-itself', 1, [LIT, row(MULTIPLY_ADD, h2=1)])
index('row-first-names-itself', 0, [row(LOAD), LIT])
index('row-first-names-a-later-row', 0, [row(UNARY, h2=1), LIT])
index('row-names-a-later-row', 1, [LIT, row(LOAD, h2=2), LIT])
index('row-out-of-range', 1, [LIT, row(LOAD, h2=2)])
index('row-operand-high-byte', 1, [LIT, row(LOAD, h2=256)])
index('row-operand-is-no-type-number', 3, [F32, F32, F32, row(LOAD, h2=1)])
accepted('row-names-the-row-before', [LIT, row(LOAD), row(UNARY, h2=1), binary(2, 2)])
accepted('row-names-an-unknown-kind', [row(35, **FREE), row(LOAD)])
accepted('row-300-names-299', [LIT] * 300 + [row(LOAD, h2=299)])
index('row-300-names-300', 301, [F32] + [LIT] * 300 + [row(LOAD, h2=300)])

# ---- Number 6, composes and components.
accepted('compose-range-at-the-end', [F32, LIT, compose(0, 2, 1), component(0), component(0), component(0)])
index('compose-range-one-past', 2, [F32, LIT, compose(0, 3, 1), component(0), component(0), component(0)])
index('compose-without-any-component', 1, [F32, compose(0, 1, 0)])
accepted('compose-of-nothing', [F32, compose(0, 0, 0)])
accepted('compose-start-at-the-end-count-0', [F32, LIT, compose(0, 0, 1), component(0)])
index('compose-start-past-the-end-count-0', 2, [F32, LIT, compose(0, 0, 2), component(0)])
index('compose-start-b14-count-0', 2, [F32, LIT, compose(0, 0, 65536), component(0)])
index('compose-start-b15-count-0', 2, [F32, LIT, compose(0, 0, 16777216), component(0)])
index('compose-start-highest-count-1', 2, [F32, LIT, compose(0, 1, 0xffffffff), component(0)])
index('compose-start-highest-count-2', 2, [F32, LIT, compose(0, 2, 0xffffffff), component(0)])
index('compose-start-highest-count-65535', 2, [F32, LIT, compose(0, 65535, 0xffffffff), component(0)])
index('compose-sum-65536', 2, [F32, LIT, compose(0, 65535, 1), component(0)])
index('compose-count-high-byte', 2, [F32, LIT, compose(0, 256, 0), component(0)])
accepted('compose-of-256-components', [F32, LIT, compose(0, 256, 0)] + [component(0)] * 256)
index('component-names-its-compose', 3, [F32, LIT, compose(0, 1, 0), component(1)])
index('component-names-a-later-row', 4, [F32, LIT, compose(0, 1, 0), LIT, component(2)])
index('component-names-a-row-out-of-range', 3, [F32, LIT, compose(0, 1, 0), component(2)])
index('component-row-high-byte', 3, [F32, LIT, compose(0, 1, 0), component(256)])
accepted('component-names-the-row-before', [F32, LIT, LIT, compose(0, 1, 0), component(1)])
index('second-component-names-its-compose', 4, [F32, LIT, compose(0, 2, 0), component(0), component(1)])
index('lowest-of-two-components', 4, [F32, LIT, compose(0, 3, 0), component(0), component(1), component(1)])
index('component-of-none-out-of-range', 1, [LIT, component(1)])
index('component-of-none-without-any-row', 1, [F32, component(0)])
accepted('component-of-none-names-the-last-row', [LIT, LIT, component(1)])
accepted('component-of-none-names-a-compose', [F32, compose(0, 0, 0), component(0)])
accepted('component-of-none-past-a-range', [F32, LIT, compose(0, 1, 0), component(0), component(1)])
index('component-shared-too-late-for-the-lower', 5, [F32, LIT, compose(0, 1, 0), LIT, compose(0, 1, 0), component(2)])
accepted('component-shared-early-for-both', [F32, LIT, compose(0, 1, 0), LIT, compose(0, 1, 0), component(0)])
index('component-too-late-for-the-higher-only', 6, [F32, LIT, compose(0, 1, 0), compose(0, 1, 1), LIT, component(0), component(3)])
accepted('component-names-an-earlier-compose', [F32, LIT, compose(0, 1, 0), compose(0, 1, 1), component(0), component(1)])
index('compose-range-before-its-component', 2, [F32, LIT, compose(0, 2, 0), component(1)])
index('component-names-no-type-number', 4, [F32, F32, F32, LIT, component(2)])

# ---- Only a struct holds members, and only a compose holds components.
accepted('array-holds-no-member', [F32, array(0, 1, 0), U32, member(2), item(OVERRIDE)])
accepted('unknown-type-holds-no-member', [ty(200, h4=1), F32, member(1)])
accepted('binary-holds-no-component', [LIT, LIT, binary(0, 1), LIT, component(3)])
accepted('math-holds-no-component', [row(MATH, h4=1), LIT, component(1)])
accepted('unknown-row-holds-no-component', [row(35, h4=1), LIT, component(1)])
accepted('atomic-holds-no-component', [ATOMIC_U32, LIT, component(0)])
accepted('swizzle-holds-no-member', [F32, member(0), LIT, row(SWIZZLE, b6=2)])

# ---- Number 6, where every family and item kind stands before.
ITEMS = [item(CONSTANT), item(OVERRIDE), item(GLOBAL), item(ARGUMENT), item(LOCAL), function(0), item(INTERSECTION), item(VERTEX)]
EVERY = [F32, struct(0, 1), member(0)] + ITEMS
accepted('every-row-before', EVERY + [LIT, row(LOAD), compose(1, 2, 0), component(0), component(1)])
index('every-row-itself', 12, EVERY + [LIT, row(LOAD, h2=1)])
index('every-type-out-of-range', 11, EVERY + [row(ZERO_VALUE, h2=2)])
index('every-constant-out-of-range', 11, EVERY + [row(R_CONSTANT, h2=1)])
index('every-override-out-of-range', 11, EVERY + [row(R_OVERRIDE, h2=1)])
index('every-global-out-of-range', 11, EVERY + [row(R_GLOBAL, h2=1)])
index('every-local-out-of-range', 11, EVERY + [row(R_LOCAL, h2=1)])
index('every-function-out-of-range', 11, EVERY + [row(CALL, h2=1)])
index('every-compose-range-one-past', 12, EVERY + [LIT, compose(0, 2, 0), component(0)])
index('every-component-names-its-compose', 13, EVERY + [LIT, compose(0, 1, 0), component(1)])
index('every-component-out-of-range', 12, EVERY + [LIT, component(1)])
index('every-member-range-one-past', 1, [F32, struct(0, 2), member(0)] + ITEMS + [LIT])
index('every-member-names-its-struct', 2, [F32, struct(0, 1), member(1)] + ITEMS + [LIT])

# ---- Number 6: the lowest of several.
index('index-first', 0, [pointer(0), F32, LIT])
index('index-middle', 1, [F32, pointer(1), LIT])
index('index-last', 2, [F32, LIT, row(LOAD, h2=1)])
index('index-lowest-of-two-types', 1, [F32, pointer(1), pointer(2)])
index('index-type-before-member', 1, [F32, pointer(1), struct(0, 1), member(2)])
index('index-type-past-a-struct-before-member', 2, [F32, struct(0, 1), pointer(2), member(1)])
index('index-member-before-item', 2, [F32, struct(0, 1), member(1), item(CONSTANT, 9)])
index('index-item-before-row', 1, [F32, item(CONSTANT, 1), row(LOAD)])
index('index-row-before-component', 1, [F32, row(LOAD), component(9)])
index('index-row-after-a-compose', 3, [F32, LIT, compose(0, 1, 0), row(LOAD, h2=2), component(1)])
index('index-member-of-none-before-row', 1, [F32, member(1), row(LOAD)])
index('index-component-last', 5, [F32, member(0), item(CONSTANT), LIT, compose(0, 1, 0), component(1)])
index('index-at-1023', 1023, [F32] * 1023 + [pointer(1023)])


def main():
    top = os.path.join(os.path.dirname(os.path.abspath(__file__)), '..', 'crates', 'replay')
    with open(os.path.join(top, 'data', 'cases'), 'wb') as data, open(os.path.join(top, 'stdout'), 'w') as out:
        for name, text, room, number, place, limit in CASES:
            data.write(b'%-40s %05d %05d %05d\n' % (name.encode(), room, len(text), limit) + text + b'\n')
            buffer = 'kept' if number in (1, 2, 3) or not text else 'written'
            out.write('%-40s %d %d %s\n' % (name, number, place, buffer))
    print(len(CASES), 'cases')


main()
