#!/usr/bin/env python3
"""Writes crates/replay_wgsl/data/cases and crates/replay_wgsl/stdout: what the second pass answers to Binary rows.

Document 02, request 3, written once more: each of its sentences is a function below, with its words over it. Nothing is
taken from the rules of the crates, and no program printed any of it.

Three tables go through every operator and every two operands. In the first the operands are type numbers, a type of
each form; in the second they are values, with a number of the same form beside each; in the third rows without a type
stand among rows with one. Worked files follow, each answer written by hand, for the order of things and for what
stands over a Binary row.
Run it from the root of the repository:

  python3 tools/wgsl_table.py           writes both files
  python3 tools/wgsl_table.py --check   says whether the files are what would be written
"""
import sys
from dataclasses import dataclass

DATA, STORED = 'crates/replay_wgsl/data/cases', 'crates/replay_wgsl/stdout'

# ---- Forms. A width is 1, 2, 4 or 8 (request 2).
SINT, UINT, FLOAT, BOOL, ABSTRACT_INT, ABSTRACT_FLOAT = range(6)


@dataclass(frozen=True)
class Scalar:
    kind: int
    width: int


@dataclass(frozen=True)
class Vector:
    size: int
    scalar: Scalar


@dataclass(frozen=True)
class Matrix:
    columns: int
    rows: int
    scalar: Scalar


@dataclass(frozen=True)
class Other:
    """A known kind that request 3 does not speak of."""
    name: str


@dataclass(frozen=True)
class Unknown:
    """A type of unknown kind."""


# ---- The judgement, sentence by sentence. A function gives WGSL's result, or None for what is outside the list.

def numeric(scalar):
    """Numeric means Sint, Uint or Float of any accepted width [.. and abstract kinds are refused]."""
    return scalar is not None and scalar.kind in (SINT, UINT, FLOAT)


def is_bool(scalar):
    """bool means BOOL: Bool of width 1."""
    return scalar == Scalar(BOOL, 1)


def integer(scalar):
    return scalar is not None and scalar.kind in (SINT, UINT)


def component(form):
    """The scalar that a scalar or a vector is made of."""
    return {Scalar: lambda: form, Vector: lambda: form.scalar}.get(type(form), lambda: None)()


def of_size(form, scalar):
    """The scalar, for each component of a scalar or a vector."""
    return Vector(form.size, scalar) if isinstance(form, Vector) else scalar


def like(left, right, allowed):
    """Equal or like scalars or vectors: of one form, their scalar one of those allowed."""
    return left == right and allowed(component(left))


def vector_and_its_scalar(vector, scalar):
    return isinstance(vector, Vector) and vector.scalar == scalar and numeric(scalar)


def float_matrix(form):
    return isinstance(form, Matrix) and form.scalar.kind == FLOAT


def arithmetic(left, right):
    """Arithmetic takes equal numeric scalars or vectors, or a vector and a scalar of its kind and width in either
    order."""
    if like(left, right, numeric) or vector_and_its_scalar(left, right):
        return left
    return right if vector_and_its_scalar(right, left) else None


def add_or_subtract(left, right):
    """Add and Subtract also take equal Float matrices."""
    return left if float_matrix(left) and left == right else arithmetic(left, right)


def multiply(left, right):
    """Multiply takes a Float matrix with a scalar, vector or matrix of its kind and width, in either order, inner sizes
    agreeing."""
    if float_matrix(left):
        return matrix_times(left, right)
    if float_matrix(right):
        return times_matrix(left, right)
    return arithmetic(left, right)


def matrix_times(left, right):
    """WGSL's matCxR with a scalar is itself, with a vecC a vecR, with a matKxC a matKxR."""
    if right == left.scalar:
        return left
    if right == Vector(left.columns, left.scalar):
        return Vector(left.rows, left.scalar)
    if isinstance(right, Matrix) and (right.rows, right.scalar) == (left.columns, left.scalar):
        return Matrix(right.columns, left.rows, left.scalar)
    return None


def times_matrix(left, right):
    """A scalar with WGSL's matCxR is the matrix; a vecR with it is a vecC."""
    if left == right.scalar:
        return right
    return Vector(right.columns, right.scalar) if left == Vector(right.rows, right.scalar) else None


def equality(left, right):
    """Equal and NotEqual take like scalars or vectors, bool allowed. WGSL's result is a bool for each component."""
    return of_size(left, Scalar(BOOL, 1)) if like(left, right, lambda s: numeric(s) or is_bool(s)) else None


def ordering(left, right):
    """Orderings take numeric ones."""
    return of_size(left, Scalar(BOOL, 1)) if like(left, right, numeric) else None


def bits(left, right):
    """Bit operators take like integers."""
    return left if like(left, right, integer) else None


def bits_or_bools(left, right):
    """And and InclusiveOr like bools too."""
    return left if like(left, right, lambda s: integer(s) or is_bool(s)) else None


def shift(left, right):
    """Shifts take an integer left and a U32 right of the same size."""
    return left if integer(component(left)) and right == of_size(left, Scalar(UINT, 4)) else None


def logical(left, right):
    """Logical ones take two bools."""
    return left if is_bool(left) and is_bool(right) else None


# The operators, in declared order.
OPERATORS = [
    ('Add', add_or_subtract), ('Subtract', add_or_subtract), ('Multiply', multiply), ('Divide', arithmetic),
    ('Modulo', arithmetic), ('Equal', equality), ('NotEqual', equality), ('Less', ordering), ('LessEqual', ordering),
    ('Greater', ordering), ('GreaterEqual', ordering), ('And', bits_or_bools), ('ExclusiveOr', bits),
    ('InclusiveOr', bits_or_bools), ('LogicalAnd', logical), ('LogicalOr', logical), ('ShiftLeft', shift),
    ('ShiftRight', shift)]


# ---- Frames.

def frame(family, kind, **fields):
    """A frame's 32 digits. b2=v is byte 2; h2=v the two bytes from 2 on, and w8=v the four from 8 on, little-endian."""
    b = [family, kind] + [0] * 14
    for at, v in fields.items():
        n = {'b': 1, 'h': 2, 'w': 4}[at[0]]
        i = int(at[1:])
        b[i:i + n] = v.to_bytes(n, 'little')
    return bytes(b).hex()


def type_frame(family, form):
    """A scalar, vector or matrix: family 1 in the file, 9 as a value."""
    if isinstance(form, Scalar):
        return frame(family, 1, b4=form.kind, b5=form.width)
    s = form.scalar
    if isinstance(form, Vector):
        return frame(family, 2, b2=form.size, b4=s.kind, b5=s.width)
    return frame(family, 3, b2=form.columns, b3=form.rows, b4=s.kind, b5=s.width)


def number(n):
    return frame(8, 0, h2=n)


def value(form):
    return type_frame(9, form)


def refusal(n, place=0, index=0):
    return frame(10, n, h2=place, w4=index)


@dataclass
class Operand:
    """A row's frame, its answer, and the form of its type; None where it has no type."""
    row: str
    answer: str
    form: object


def judged(operator, left, right, here):
    """All these read left, then right, look into both, and answer with WGSL's result as a type value. [..] 41
    mismatch: a Binary row outside the list, after any operand's refusal. A look into an unknown kind is 22 here."""
    for operand in (left, right):
        if operand.form is None:
            return operand.answer
    for operand in (left, right):
        if isinstance(operand.form, Unknown):
            return refusal(22, here)
    result = operator(left.form, right.form)
    return refusal(41) if result is None else value(result)


# ---- The first table: a type of each form, and a row of it by its number.

def forms():
    """The types of the file, as a frame and a form each; a base is named by its number."""
    kinds, widths = range(6), (1, 2, 4, 8)
    every = [Scalar(k, w) for k in kinds for w in widths]
    f32, f16, f64, f8 = (Scalar(FLOAT, w) for w in (4, 2, 8, 1))
    i32, u32, boolean = Scalar(SINT, 4), Scalar(UINT, 4), Scalar(BOOL, 1)
    abstract_int, abstract_float = Scalar(ABSTRACT_INT, 8), Scalar(ABSTRACT_FLOAT, 8)
    some = [i32, u32, f32, boolean, f16, f64, f8, Scalar(SINT, 8), Scalar(UINT, 2), Scalar(BOOL, 4)]
    some += [abstract_int, abstract_float]
    plain = list(every)
    plain += [Vector(2, s) for s in every]
    plain += [Vector(n, s) for n in (3, 4) for s in some]
    plain += [Matrix(c, r, f32) for c in (2, 3, 4) for r in (2, 3, 4)]
    plain += [Matrix(c, r, f16) for c, r in ((2, 2), (2, 3), (3, 2))]
    plain += [Matrix(2, 2, f64), Matrix(3, 4, f64), Matrix(4, 3, f64), Matrix(2, 2, f8), Matrix(4, 2, f8)]
    plain += [Matrix(2, 2, s) for s in (i32, u32, boolean, abstract_int, abstract_float)]
    plain += [Matrix(2, 3, u32), Matrix(3, 2, u32), Matrix(2, 2, Scalar(SINT, 2))]
    # twins: the same forms again, under other numbers
    plain += [f32, u32, boolean, Vector(2, f32), Vector(2, u32), Matrix(2, 2, f32)]
    types = [(type_frame(1, form), form) for form in plain]
    scalar, vector, matrix = (plain.index(f) for f in (f32, Vector(2, f32), Matrix(2, 2, f32)))
    unknown = len(types)
    types += [(frame(1, 200), Unknown()), (frame(1, 0), Unknown())]
    others = {
        'cooperative matrix': frame(1, 4, b2=8, b3=8, b4=FLOAT, b5=4),
        'cooperative matrix of role 1': frame(1, 4, b2=8, b3=8, b4=FLOAT, b5=4, b6=1),
        'cooperative matrix of 16 columns': frame(1, 4, b2=16, b3=8, b4=FLOAT, b5=2, b6=2),
        'atomic of i32': frame(1, 5, b4=SINT, b5=4),
        'atomic of u32': frame(1, 5, b4=UINT, b5=4),
        'atomic of f32': frame(1, 5, b4=FLOAT, b5=4),
        'pointer to a scalar': frame(1, 6, h2=scalar),
        'pointer to a vector': frame(1, 6, h2=vector),
        'pointer to a matrix': frame(1, 6, h2=matrix),
        'pointer to an unknown kind': frame(1, 6, h2=unknown),
        'value pointer to a scalar': frame(1, 7, b4=FLOAT, b5=4),
        'value pointer to a vector': frame(1, 7, b2=2, b4=FLOAT, b5=4),
        'array': frame(1, 8, h2=scalar, w8=2, w12=4),
        'dynamic array': frame(1, 8, h2=scalar, b4=2, w12=4),
        'array over an unknown kind': frame(1, 8, h2=unknown, w8=2, w12=4),
        'struct': frame(1, 9, h4=1, w12=4),
        'struct without members': frame(1, 9),
        'sampled image': frame(1, 10, b2=2, b5=FLOAT),
        'storage image': frame(1, 10, b2=2, b4=3, b7=1),
        'sampler': frame(1, 11),
        'acceleration structure': frame(1, 12),
        'ray query': frame(1, 13),
        'binding array': frame(1, 14, h2=scalar, w8=2),
    }
    types += [(f, Other(name)) for name, f in others.items()]
    return types, [frame(2, 0, h2=scalar)]


def by_number():
    types, members = forms()
    operands = [Operand(frame(4, 4, h2=n), number(n), form) for n, (_, form) in enumerate(types)]
    return [f for f, _ in types] + members, operands


# ---- The second table: values, with a number of the same form beside each.

# The scalar of each literal kind, in declared order: F64, F32, F16, U16, I16, U32, I32, U64, I64, Bool, AbstractInt and
# AbstractFloat.
LITERALS = [Scalar(k, w) for k, w in (
    (FLOAT, 8), (FLOAT, 4), (FLOAT, 2), (UINT, 2), (SINT, 2), (UINT, 4), (SINT, 4), (UINT, 8), (SINT, 8), (BOOL, 1),
    (ABSTRACT_INT, 8), (ABSTRACT_FLOAT, 8))]
F32, U32, I32, TRUTH = LITERALS[1], LITERALS[5], LITERALS[6], LITERALS[9]


def by_value():
    """Literals, Splats of these, matrices made by As, a local's pointer, a pointer into it, a cooperative matrix."""
    vectors = [Vector(2, s) for s in LITERALS] + [Vector(n, s) for n in (3, 4) for s in (F32, U32, I32, TRUTH)]
    matrices = [Matrix(2, 2, F32), Matrix(2, 3, F32), Matrix(3, 2, F32), Matrix(2, 2, LITERALS[2])]
    plain = LITERALS + vectors + matrices
    rows = [Operand(frame(4, 1, b6=k), value(s), s) for k, s in enumerate(LITERALS)]
    rows += [Operand(frame(4, 8, h2=LITERALS.index(v.scalar), b6=v.size), value(v), v) for v in vectors]
    rows += [Operand(frame(4, 4, h2=n), number(n), form) for n, form in enumerate(plain)]
    # As of a matrix, with its own width, is the matrix by value
    for m in matrices:
        of = next(n for n, r in enumerate(rows) if r.form == m)
        rows.append(Operand(frame(4, 23, h2=of, b6=FLOAT, b7=1, b8=m.scalar.width), value(m), m))
    # a local vec2<f32>: the pointer, and the pointer to its component
    local = len(rows)
    rows.append(Operand(frame(4, 12), frame(9, 6, h2=plain.index(Vector(2, F32))), Other('pointer')))
    rows.append(Operand(frame(4, 7, h2=local), frame(9, 7, b4=FLOAT, b5=4), Other('value pointer')))
    loaded = frame(9, 4, b2=8, b3=8, b4=FLOAT, b5=4)
    rows.append(Operand(frame(4, 33, h2=local, b6=8, b7=8), loaded, Other('cooperative matrix')))
    file = [type_frame(1, form) for form in plain] + [frame(3, 5, h2=plain.index(Vector(2, F32)))]
    return file, rows


# ---- The third table: rows without a type among rows with one.

def without_type():
    """Two arguments that are not there, a Math row, a row of unknown kind, and a Binary row outside the list."""
    types = [(type_frame(1, F32), F32), (type_frame(1, TRUTH), TRUTH), (frame(1, 9), Other('struct'))]
    types += [(frame(1, 200), Unknown()), (frame(1, 6, h2=3), Other('pointer to an unknown kind'))]
    rows = [Operand(frame(4, 4, h2=n), number(n), form) for n, (_, form) in enumerate(types)]
    rows += [Operand(frame(4, 10, w12=n), refusal(19, index=n), None) for n in (7, 9)]
    rows += [Operand(frame(4, kind), refusal(22, place=len(rows) + n), None) for n, kind in enumerate((22, 99))]
    rows += [Operand(frame(4, 18, h2=1, h4=1), refusal(41), None)]
    return [f for f, _ in types], rows


# ---- Worked files. A line of each: a frame, and of a row its answer by the first pass and by the second; `same` where
# both give one. A verdict's line has no frame. All is written by hand.
WORKED = [
    # "All these read left, then right": what the left operand ends with comes first. A Math row is 22 there.
    ('left-newer-before-right-refused', '''
04010000000001000000000000000000 09010000020400000000000000000000 same                             0: f32
04160000000000000000000000000000 0a160100000000000000000000000000 same                             1: Math
040a0000000000000000000007000000 0a130000070000000000000000000000 same                             2: argument 7
04120100020000000000000000000000 0a160100000000000000000000000000 same                             3: Add 1, 2
04120200010000000000000000000000 0a130000070000000000000000000000 same                             4: Add 2, 1
04120000010000000000000000000000 09010000020400000000000000000000 0a160100000000000000000000000000 5: Add 0, 1
04120000020000000000000000000000 09010000020400000000000000000000 0a130000070000000000000000000000 6: Add 0, 2
04120100020002000000000000000000 0a160100000000000000000000000000 same                             7: Multiply 1, 2
'''),
    # "All these read left, then right": two refusals, the left's is passed on unchanged.
    ('left-refused-before-right-refused', '''
040a0000000000000000000007000000 0a130000070000000000000000000000 same                             0: argument 7
040a0000000000000000000009000000 0a130000090000000000000000000000 same                             1: argument 9
04120000010000000000000000000000 0a130000070000000000000000000000 same                             2: Add 0, 1
04120100000000000000000000000000 0a130000090000000000000000000000 same                             3: Add 1, 0
04120000010002000000000000000000 0a130000070000000000000000000000 same                             4: Multiply 0, 1
0412000001000e000000000000000000 0a130000070000000000000000000000 same                             5: LogicalAnd 0, 1
04120100000010000000000000000000 0a130000090000000000000000000000 same                             6: ShiftLeft 1, 0
'''),
    # "read left, then right, look into both": both are read before either type is looked into.
    ('unknown-left-refused-right', '''
01c80000000000000000000000000000
04040000000000000000000000000000 08000000000000000000000000000000 same                             0: of unknown kind
040a0000000000000000000007000000 0a130000070000000000000000000000 same                             1: argument 7
04120000010000000000000000000000 08000000000000000000000000000000 0a130000070000000000000000000000 2: Add 0, 1
04120000010002000000000000000000 0a130000070000000000000000000000 same                             3: Multiply 0, 1
04120000010005000000000000000000 0a160400000000000000000000000000 0a130000070000000000000000000000 4: Equal 0, 1
04120100000000000000000000000000 0a130000070000000000000000000000 same                             5: Add 1, 0
'''),
    # "look into both", "newer kinds are treated in it as in the first": a type of unknown kind is 22 at the row that
    # looks, before 41, whatever the other operand is.
    ('unknown-kind-with-any', '''
01010000020400000000000000000000
01090000010000000000000004000000
01c80000000000000000000000000000
02000000000000000000000000000000
04040100000000000000000000000000 08000100000000000000000000000000 same                             0: a struct
04040200000000000000000000000000 08000200000000000000000000000000 same                             1: of unknown kind
04120000010000000000000000000000 08000100000000000000000000000000 0a160200000000000000000000000000 2: Add 0, 1
04120100000000000000000000000000 08000200000000000000000000000000 0a160300000000000000000000000000 3: Add 1, 0
04120000000000000000000000000000 08000100000000000000000000000000 0a290000000000000000000000000000 4: Add 0, 0
04120100010000000000000000000000 08000200000000000000000000000000 0a160500000000000000000000000000 5: Add 1, 1
04120000010002000000000000000000 0a160600000000000000000000000000 same                             6: Multiply 0, 1
04120000010005000000000000000000 0a120000000000000000000000000000 0a160700000000000000000000000000 7: Equal 0, 1
0412000001000e000000000000000000 0a120000000000000000000000000000 0a160800000000000000000000000000 8: LogicalAnd 0, 1
04120000000002000000000000000000 0a120000000000000000000000000000 0a290000000000000000000000000000 9: Multiply 0, 0
'''),
    # "look into both": of a pointer no base is looked into.
    ('pointer-to-an-unknown-kind', '''
01c80000000000000000000000000000
01060000000000000000000000000000
03050000000000000000000000000000
04040100000000000000000000000000 08000100000000000000000000000000 same                             0: the pointer
040c0000000000000000000000000000 09060000000000000000000000000000 same                             1: by value
04120000000000000000000000000000 08000100000000000000000000000000 0a290000000000000000000000000000 2: Add 0, 0
04120000010005000000000000000000 0a120000000000000000000000000000 0a290000000000000000000000000000 3: Equal 0, 1
04120100010002000000000000000000 0a120000000000000000000000000000 0a290000000000000000000000000000 4: Multiply 1, 1
'''),
    # "41 mismatch: a Binary row outside the list, after any operand's refusal": 41 is a refusal too, and is passed on.
    ('mismatch-passed-on-by-binary', '''
04010000000009000000000000000000 09010000030100000000000000000000 same                             0: bool
04120000000000000000000000000000 09010000030100000000000000000000 0a290000000000000000000000000000 1: Add 0, 0
04120000000001000000000000000000 09010000030100000000000000000000 0a290000000000000000000000000000 2: Subtract 0, 0
04120100020005000000000000000000 09010000030100000000000000000000 0a290000000000000000000000000000 3: Equal 1, 2
040a0000000000000000000007000000 0a130000070000000000000000000000 same                             4: argument 7
04160000000000000000000000000000 0a160500000000000000000000000000 same                             5: Math
04120100040000000000000000000000 09010000030100000000000000000000 0a290000000000000000000000000000 6: Add 1, 4
04120400010000000000000000000000 0a130000070000000000000000000000 same                             7: Add 4, 1
04120100050000000000000000000000 09010000030100000000000000000000 0a290000000000000000000000000000 8: Add 1, 5
04120500010000000000000000000000 0a160500000000000000000000000000 same                             9: Add 5, 1
0412000001000e000000000000000000 09010000030100000000000000000000 0a290000000000000000000000000000 10: LogicalAnd 0, 1
'''),
    # "Other rows [..] keep their rules over this pass's answers": an operand's refusal passes on unchanged.
    ('mismatch-passed-on-by-other-rows', '''
04010000000009000000000000000000 09010000030100000000000000000000 same                             0: bool
04120000000000000000000000000000 09010000030100000000000000000000 0a290000000000000000000000000000 1: Add 0, 0
04060100000000000000000000000000 0a0b0100000000000000000000000000 0a290000000000000000000000000000 2: Access
04070100000000000000000000000000 0a0b0100000000000100000000000000 0a290000000000000000000000000000 3: AccessIndex
04080100000002000000000000000000 09020200030100000000000000000000 0a290000000000000000000000000000 4: Splat
04090100000002000000000000000000 0a0e0100000000000000000000000000 0a290000000000000000000000000000 5: Swizzle
040d0100000000000000000000000000 0a0f0100000000000000000000000000 0a290000000000000000000000000000 6: Load
040e0100000000000000000000000000 0a100100000000000000000000000000 0a290000000000000000000000000000 7: ImageSample
040f0100000000000000000000000000 0a100100000000000000000000000000 0a290000000000000000000000000000 8: ImageLoad
04100100000000000000000000000000 0a100100000000000000000000000000 0a290000000000000000000000000000 9: ImageQuery
04110100000000000000000000000000 09010000030100000000000000000000 0a290000000000000000000000000000 10: Unary
04130100000000000000000000000000 09010000030100000000000000000000 0a290000000000000000000000000000 11: Select
04140100000000000000000000000000 09010000030100000000000000000000 0a290000000000000000000000000000 12: Derivative
04150100000002000000000000000000 09010000030100000000000000000000 0a290000000000000000000000000000 13: IsNan
04170100000001010400000000000000 09010000010400000000000000000000 0a290000000000000000000000000000 14: As
04210100000008080000000000000000 0a0f0100000000000000000000000000 0a290000000000000000000000000000 15: CooperativeLoad
04220100000000000000000000000000 09010000030100000000000000000000 0a290000000000000000000000000000 16: MultiplyAdd
04150000000000000000000000000000 09010000030100000000000000000000 same                             17: All, unread
041b0000000000000000000000000000 09010000010400000000000000000000 same                             18: ArrayLength
04110a00000000000000000000000000 09010000030100000000000000000000 0a290000000000000000000000000000 19: Unary of Unary
'''),
    # "Other rows, and verdicts, keep their rules over this pass's answers": a component row refused gives 33. The count
    # of an array comes before it, a vector's total after it.
    ('mismatch-as-a-component', '''
01010000020400000000000000000000
01020200020400000000000000000000
01030202020400000000000000000000
01080000000000000200000004000000
01090000020000000000000008000000
02000000000000000000000000000000
02000000000000000000000004000000
04010000000001000000000000000000 09010000020400000000000000000000 same                             0: f32
04010000000009000000000000000000 09010000030100000000000000000000 same                             1: bool
04120000010000000000000000000000 09010000020400000000000000000000 0a290000000000000000000000000000 2: Add 0, 1
04080000000002000000000000000000 09020200020400000000000000000000 same                             3: vec2<f32>
04120300010000000000000000000000 09020200020400000000000000000000 0a290000000000000000000000000000 4: Add 3, 1
04050100020000000000000000000000 08000100000000000000000000000000 same                             5: vec2 of 0, 2
verdict                          0b000500000000000000000000000000 0b210500010000000000000000000000
04050300020000000000000000000000 08000300000000000000000000000000 same                             6: array of 0, 2
verdict                          0b000600000000000000000000000000 0b210600010000000000000000000000
04050400020000000000000000000000 08000400000000000000000000000000 same                             7: struct of 0, 2
verdict                          0b000700000000000000000000000000 0b210700010000000000000000000000
04050200020000000000000002000000 08000200000000000000000000000000 same                             8: mat2x2 of 3, 4
verdict                          0b000800000000000000000000000000 0b210800010000000000000000000000
04050300010000000000000001000000 08000300000000000000000000000000 same                             9: array of 2 alone
verdict                          0b1f0900020000000100000000000000 same
04050100030000000000000004000000 08000100000000000000000000000000 same                             10: vec2 of 0, 0, 2
verdict                          0b1f0a00020000000300000000000000 0b210a00020000000000000000000000
04050000010000000000000001000000 08000000000000000000000000000000 same                             11: f32 of 2
verdict                          0b1e0b00000000000000000000000000 same
05000000000000000000000000000000
05000200000000000000000000000000
05000300000000000000000000000000
05000400000000000000000000000000
05000000000000000000000000000000
05000000000000000000000000000000
05000200000000000000000000000000
'''),
    # "a scalar plus a vector is a vector; document 01 gives the left type": composes that pass by one pass alone.
    ('composes-over-both-answers', '''
01010000020400000000000000000000
01020200020400000000000000000000
01080100000000000100000008000000
01080000000000000100000004000000
01030202020400000000000000000000
01090000010000000000000008000000
02000100000000000000000000000000
04010000000001000000000000000000 09010000020400000000000000000000 same                             0: f32
04080000000002000000000000000000 09020200020400000000000000000000 same                             1: vec2<f32>
04120000010000000000000000000000 09010000020400000000000000000000 09020200020400000000000000000000 2: Add 0, 1
04050100010000000000000000000000 08000100000000000000000000000000 same                             3: vec2 of 2
verdict                          0b1f0300020000000100000000000000 0b000300000000000000000000000000
04050200010000000000000000000000 08000200000000000000000000000000 same                             4: array<vec2> of 2
verdict                          0b200400000000000000000000000000 0b000400000000000000000000000000
04050500010000000000000000000000 08000500000000000000000000000000 same                             5: struct of 2
verdict                          0b200500000000000000000000000000 0b000500000000000000000000000000
04050400020000000000000000000000 08000400000000000000000000000000 same                             6: mat2x2 of 2, 2
verdict                          0b200600000000000000000000000000 0b000600000000000000000000000000
04050100020000000000000001000000 08000100000000000000000000000000 same                             7: vec2 of 2, 0
verdict                          0b000700000000000000000000000000 0b1f0700020000000300000000000000
04050300010000000000000000000000 08000300000000000000000000000000 same                             8: array<f32> of 2
verdict                          0b000800000000000000000000000000 0b200800000000000000000000000000
05000200000000000000000000000000
05000200000000000000000000000000
05000000000000000000000000000000
'''),
    # "answer with WGSL's result as a type value": numbers in, a value out; and "Other rows [..] keep their rules over
    # this pass's answers": what reads such a value.
    ('results-read', '''
01010000020400000000000000000000
01020200020400000000000000000000
01030302020400000000000000000000
04040000000000000000000000000000 08000000000000000000000000000000 same                             0: f32
04040100000000000000000000000000 08000100000000000000000000000000 same                             1: vec2<f32>
04040200000000000000000000000000 08000200000000000000000000000000 same                             2: mat3x2<f32>
04120000010000000000000000000000 08000000000000000000000000000000 09020200020400000000000000000000 3: Add 0, 1
04070300000000000000000001000000 0a0b0300000000000100000000000000 09010000020400000000000000000000 4: 3, index 1
04070300000000000000000002000000 0a0b0300000000000100000000000000 0a0a0300020000000000000000000000 5: 3, index 2
04090300000003000000000000000000 0a0e0300000000000000000000000000 09020300020400000000000000000000 6: Swizzle 3
04080300000003000000000000000000 09020300020400000000000000000000 0a0d0300000000000000000000000000 7: Splat 3
04120300020002000000000000000000 08000200000000000000000000000000 09020300020400000000000000000000 8: Multiply 3, 2
04120300030007000000000000000000 09010000030100000000000000000000 09020200030100000000000000000000 9: Less 3, 3
04120900090000000000000000000000 09010000030100000000000000000000 0a290000000000000000000000000000 10: Add 9, 9
0412090009000b000000000000000000 09010000030100000000000000000000 09020200030100000000000000000000 11: And 9, 9
0412090009000e000000000000000000 09010000030100000000000000000000 0a290000000000000000000000000000 12: LogicalAnd 9, 9
04110300000000000000000000000000 08000000000000000000000000000000 09020200020400000000000000000000 13: Unary 3
04120200020000000000000000000000 08000200000000000000000000000000 09030302020400000000000000000000 14: Add 2, 2
04120000000000000000000000000000 08000000000000000000000000000000 09010000020400000000000000000000 15: Add 0, 0
'''),
    # "Other rows [..] keep their rules": without Binary rows the passes answer alike. The lines are document 01's
    # example, with two rows more.
    ('no-binary-row', '''
01010000020400000000000000000000
01020300020400000000000000000000
01c80000000000000000000000000000
03050100000000000000000000000000
03050200000000000000000000000000
040c0000000000000000000000000000 09060100000000000000000000000000 same
04070000000000000000000002000000 09070000020400000000000000000000 same
040d0100000000000000000000000000 09010000020400000000000000000000 same
040c0100000000000000000000000000 09060200000000000000000000000000 same
040d0300000000000000000000000000 0a160400000000000000000000000000 same
04070000000000000000000003000000 0a0a0000030000000000000000000000 same
04630000000000000000000000000000 0a160600000000000000000000000000 same                             6: of unknown kind
04040200000000000000000000000000 08000200000000000000000000000000 same                             7: passed on
'''),
]


def worked(lines):
    """The frames, and what each pass hands back."""
    file, first, second = [], [], []
    for line in lines.strip().split('\n'):
        words = line.split()
        if words[0] != 'verdict':
            file.append(words[0])
        if words[0][:2] == '04' or words[0] == 'verdict':
            first.append(words[1])
            second.append(words[1] if words[2] == 'same' else words[2])
    assert all(len(f) == 32 for f in file + first + second), lines
    return file, first, second


def text_of(frames):
    return ''.join(f + '\n' for f in frames)


def cell(answer, here):
    return {refusal(41): '.', refusal(22, here): 'n'}.get(answer, ' %s ' % answer)


def table(name, file, operands):
    """A table's first line and text; and for each operator and left operand a line of what the right ones give."""
    text = text_of(file + [o.row for o in operands])
    head = '%-40s %05d %05d\n' % (name, len(operands), len(text))
    many = len(operands)
    lines = [head]
    for at, (_, operator) in enumerate(OPERATORS):
        for n, left in enumerate(operands):
            cells = (cell(judged(operator, left, right, many + k), many + k) for k, right in enumerate(operands))
            lines.append('%d %d %s\n' % (at, n, ''.join(cells)))
    return head + text, ''.join(lines)


def cases():
    yield table('operands-by-number', *by_number())
    yield table('operands-by-value', *by_value())
    yield table('operands-without-type', *without_type())
    for name, lines in WORKED:
        file, first, second = worked(lines)
        text = text_of(file)
        head = '%-40s %05d %05d\n' % (name, 0, len(text))
        yield head + text, head + text_of(first) + 'second\n' + text_of(second)


def main():
    made = list(cases())
    files = {DATA: ''.join(data for data, _ in made), STORED: ''.join(out for _, out in made)}
    if sys.argv[1:] == ['--check']:
        sys.exit(any(open(path).read() != text for path, text in files.items()))
    for path, text in files.items():
        open(path, 'w').write(text)


if __name__ == '__main__':
    main()
