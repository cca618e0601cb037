"""Files in which one row stands over and over, for files.py: a file for each kind of row and each way that it goes, and
for each operator of Binary rows a pair that WGSL types and one that it does not.

Every file begins with the same types, members, items and first rows, a ZeroValue of each type; the row repeated reads
one of these. Those of operators have a shorter beginning of their own.
"""

from model import put

F32 = dict(b4=2, b5=4)
BOOL = dict(b4=3, b5=1)


def beginning(types, members=(), items=()):
    """The frames before the row repeated, and the number of each type, which is also that of its row."""
    at = {name: i for i, name in enumerate(types)}
    return [*types.values(), *members, *items, *(put(4, 4, w2=i) for i in range(len(types)))], at


HEAD, AT = beginning(dict(
    scalar=put(1, 1, **F32), vector=put(1, 2, b2=4, **F32), matrix=put(1, 3, b2=2, b3=3, **F32),
    cooperative=put(1, 4, b2=8, b3=8, **F32), atomic=put(1, 5, b4=1, b5=4), pointer=put(1, 6, w2=1, b6=1),
    value_pointer=put(1, 7, b2=4, b6=1, **F32), array=put(1, 8, w2=0, d8=3, d12=4),
    struct=put(1, 9, w2=0, w4=2, d12=16), image=put(1, 10, b2=2, b5=2), bool=put(1, 1, **BOOL),
    storage=put(1, 10, b2=2, b4=3, b5=3, b7=1), to_atomic=put(1, 6, w2=4, b6=3), to_struct=put(1, 6, w2=8, b6=1),
    to_scalar=put(1, 6, w2=0, b6=1), column=put(1, 2, b2=3, **F32)),
    [put(2, 0, w2=0), put(2, 0, w2=1, d12=4)],
    [put(3, 1, w2=0), put(3, 2, w2=0), put(3, 3, w2=1, b6=2), put(3, 4, w2=0), put(3, 5, w2=1),
     put(3, 6, w2=0, b4=1), put(3, 7, w2=8), put(3, 8, w2=7)])

SHORT, FORM = beginning(dict(
    f32=put(1, 1, **F32), u32=put(1, 1, b4=1, b5=4), i32=put(1, 1, b4=0, b5=4), bool=put(1, 1, **BOOL),
    vec=put(1, 2, b2=3, **F32), vec_u32=put(1, 2, b2=3, b4=1, b5=4), vec_i32=put(1, 2, b2=3, b4=0, b5=4),
    mat=put(1, 3, b2=3, b3=3, **F32)))

OPERATORS = '''add subtract multiply divide modulo equal not_equal less less_equal greater greater_equal and
exclusive_or inclusive_or logical_and logical_or shift_left shift_right'''.split()


def reads(kind, name, **more):
    return put(4, kind, w2=AT[name], **more)


def binary(op, left, right):
    return put(4, 18, w2=AT[left], w4=AT[right], b6=op)


def rows():
    """Names, and the rows of each kind with a type, refused, passing a refusal on, and newer."""
    typed = {
        'literal': put(4, 1, b6=1), 'constant': put(4, 2), 'override': put(4, 3), 'zero_value': put(4, 4, w2=1),
        'argument': put(4, 10), 'global': put(4, 11), 'local': put(4, 12), 'splat': reads(8, 'scalar', b6=3),
        'swizzle': reads(9, 'vector', b6=2), 'unary': reads(17, 'vector'), 'select': reads(19, 'vector'),
        'derivative': reads(20, 'vector'), 'all': put(4, 21), 'is_nan': reads(21, 'vector', b6=2),
        'as': reads(23, 'vector', b6=1, b7=1, b8=4), 'call_result': put(4, 24), 'atomic_result': put(4, 25),
        'uniform_load': put(4, 26), 'array_length': put(4, 27), 'vertex_positions': put(4, 28), 'proceed': put(4, 29),
        'intersection': put(4, 30), 'ballot': put(4, 31), 'subgroup': put(4, 32),
        'cooperative_load': reads(33, 'to_scalar', b6=8, b7=8), 'cooperative_multiply': reads(34, 'cooperative'),
        'sample': reads(14, 'image'), 'gather': reads(14, 'image', b6=1), 'image_load': reads(15, 'image'),
        'storage_load': reads(15, 'storage'), 'image_size': reads(16, 'image'), 'image_levels': put(4, 16, b6=1),
        'add': binary(0, 'vector', 'vector'), 'less': binary(7, 'vector', 'vector'), 'and': binary(14, 'bool', 'bool'),
        'scalar_times_vector': binary(2, 'scalar', 'vector'), 'matrix_times_vector': binary(2, 'matrix', 'vector'),
        'cooperative_times_cooperative': binary(2, 'cooperative', 'cooperative')}
    for name in ('vector', 'matrix', 'array', 'pointer', 'value_pointer'):
        typed['access_' + name] = reads(6, name)
    for name in ('vector', 'matrix', 'struct', 'pointer', 'to_struct', 'value_pointer'):
        typed['access_index_' + name] = reads(7, name, d12=1)
    for name in ('pointer', 'to_atomic', 'value_pointer'):
        typed['load_' + name] = reads(13, name)
    refused = {
        'bound': reads(7, 'vector', d12=9), 'access_struct': reads(6, 'struct'),
        'access_index_image': reads(7, 'image', d12=1), 'splat_vector': reads(8, 'vector', b6=3),
        'swizzle_scalar': reads(9, 'scalar', b6=2), 'argument_7': put(4, 10, d12=7), 'load_scalar': reads(13, 'scalar'),
        'load_struct': reads(13, 'struct'), 'sample_scalar': reads(14, 'scalar'),
        'cooperative_load_scalar': reads(33, 'scalar', b6=8, b7=8), 'as_struct': reads(23, 'struct', b6=1, b7=1, b8=4),
        'struct_times_array': binary(2, 'struct', 'array'), 'less_matrix': binary(7, 'matrix', 'vector'),
        'and_scalar': binary(14, 'scalar', 'bool')}
    passed = {name: put(4, kind, w2=len(AT)) for name, kind in (('unary', 17), ('access', 6), ('load', 13))}
    newer = {'math': put(4, 22), 'unknown': put(4, 200)}
    for group, named in (('typed', typed), ('refused', refused), ('passed_on', passed), ('newer', newer)):
        for name, row in named.items():
            yield f'{group}_{name}', row


def composes():
    """Names, and composes with the rows that they are made of."""
    of = lambda *names: [AT[name] for name in names]
    refused = len(AT)
    made = {
        'vector': ('vector', of(*['scalar'] * 4)), 'vector_count': ('vector', of('scalar', 'scalar')),
        'vector_part': ('vector', of('scalar', 'bool')), 'matrix': ('matrix', of('column', 'column')),
        'matrix_part': ('matrix', of('vector', 'vector')), 'matrix_count': ('matrix', of('vector')),
        'array': ('array', of(*['scalar'] * 3)),
        'array_part': ('array', of('vector', 'scalar', 'scalar')), 'struct': ('struct', of('scalar', 'vector')),
        'struct_part': ('struct', of('vector', 'vector')), 'struct_broken': ('struct', [AT['scalar'], refused]),
        'type': ('scalar', of('scalar'))}
    for name, (ty, parts) in made.items():
        yield 'compose_' + name, put(4, 5, w2=AT[ty], w4=len(parts)), [put(5, 0, w2=part) for part in parts]


def operators():
    """Names, and Binary rows: each operator with a pair that WGSL types, and one that it does not."""
    like, bad = ('vec', 'vec'), ('f32', 'i32')
    good = {**dict.fromkeys(range(11), like), 11: ('vec_u32', 'vec_u32'), 12: ('vec_i32', 'vec_i32'),
            **dict.fromkeys((13, 14, 15), ('bool', 'bool')), 16: ('vec_i32', 'vec_u32'), 17: ('u32', 'u32')}
    wrong = {**dict.fromkeys(range(18), bad), 5: ('vec', 'f32'), 7: ('bool', 'bool'), 11: like, 12: ('bool', 'bool'),
             14: ('bool', 'u32'), 16: ('vec_i32', 'vec_i32'), 17: ('vec_u32', 'u32')}
    pairs = [(f'{name}_{way}', at, *pair[at]) for at, name in enumerate(OPERATORS)
             for way, pair in (('good', good), ('bad', wrong))]
    pairs += [(f'{name}_{left}_{right}', at, left, right) for name, at, left, right in (
        ('add', 0, 'f32', 'vec'), ('add', 0, 'vec', 'f32'), ('add', 0, 'mat', 'mat'), ('multiply', 2, 'f32', 'vec'),
        ('multiply', 2, 'mat', 'f32'), ('multiply', 2, 'f32', 'mat'), ('multiply', 2, 'mat', 'vec'),
        ('multiply', 2, 'vec', 'mat'), ('multiply', 2, 'mat', 'mat'))]
    for name, at, left, right in pairs:
        yield 'operator_' + name, put(4, 18, w2=FORM[left], w4=FORM[right], b6=at)


def files(frames):
    """Every name and the frames of its file, so many."""
    refused = put(4, 8, w2=AT['vector'], b6=3)
    for name, row in rows():
        head = HEAD + [refused]
        yield name, head + [row] * (frames - len(head))
    for name, row, parts in composes():
        head = HEAD + [refused]
        yield name, head + [row] * (frames - len(head) - len(parts)) + parts
    for name, row in operators():
        yield name, SHORT + [row] * (frames - len(SHORT))
