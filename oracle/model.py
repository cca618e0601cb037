"""Document 01 written once more, over bytes: checks 1 to 6, rows, verdicts and comparison; widths and storage loads as document 02, requests
1 and 2.

The generator uses it to know what it has made, and try.py holds it against the oracle. It was written from
the documents, not from the source and not from this port.
"""

ANY, ZERO, FLAG = range(256), (0,), (0, 1)
KIND, SIZE, WIDE, ROLE, ACCESS, WIDTH = range(6), (2, 3, 4), (8, 16), range(3), range(8), (1, 2, 4, 8)
NUMBER, LAST = {2: ANY, 3: ANY}, {at: ANY for at in range(12, 16)}
SCALAR = {4: KIND, 5: WIDTH}

LITERALS = [(2, 8), (2, 4), (2, 2), (1, 2), (0, 2), (1, 4), (0, 4), (1, 8), (0, 8), (3, 1), (4, 8), (5, 8)]
BOOL, U32, F32 = (3, 1), (1, 4), (2, 4)

# The storage formats, in declared order, and the kind that a name ends in.
FORMATS = '''R8Unorm R8Snorm R8Uint R8Sint R16Uint R16Sint R16Float Rg8Unorm Rg8Snorm Rg8Uint Rg8Sint R32Uint R32Sint R32Float
Rg16Uint Rg16Sint Rg16Float Rgba8Unorm Rgba8Snorm Rgba8Uint Rgba8Sint Bgra8Unorm Rgb10a2Uint Rgb10a2Unorm Rg11b10Ufloat R64Uint
Rg32Uint Rg32Sint Rg32Float Rgba16Uint Rgba16Sint Rgba16Float Rgba32Uint Rgba32Sint Rgba32Float
R16Unorm R16Snorm Rg16Unorm Rg16Snorm Rgba16Unorm Rgba16Snorm'''.split()
ENDINGS = {'Sint': 0, 'Uint': 1, 'Float': 2, 'Unorm': 2, 'Snorm': 2, 'Ufloat': 2}


class Refused(Exception):
    """A file's number and place."""

    def __init__(self, number, place):
        super().__init__(number, place)
        self.number, self.place = number, place

    def frame(self):
        return refusal(self.number, self.place)


class Stop(Exception):
    """A row's refusal, as its frame."""


def two(frame, at):
    return frame[at] | frame[at + 1] << 8


def four(frame, at):
    return int.from_bytes(frame[at:at + 4], 'little')


def known_type(frame):
    return 1 <= frame[1] <= 14


def known_row(frame):
    return 1 <= frame[1] <= 34 and frame[1] != 22


def space(frame):
    return {6: range(10), 7: ACCESS if frame[6] == 4 else ZERO}


def type_fields(f):
    kind = f[1]
    if kind in (1, 5):
        return SCALAR
    if kind == 2:
        return {2: SIZE, **SCALAR}
    if kind == 3:
        return {2: SIZE, 3: SIZE, **SCALAR}
    if kind == 4:
        return {2: WIDE, 3: WIDE, 6: ROLE, **SCALAR}
    if kind == 6:
        return {**NUMBER, **space(f)}
    if kind == 7:
        return {2: (0,) + SIZE, **SCALAR, **space(f)}
    if kind in (8, 14):
        count = {at: ANY for at in range(8, 12)}
        return {**NUMBER, 4: range(3), **count, **(LAST if kind == 8 else {})}
    if kind == 9:
        return {**NUMBER, 4: ANY, 5: ANY, **LAST}
    if kind == 10:
        classes = [{5: KIND, 6: FLAG}, {6: FLAG}, {}, {5: range(41), 7: ACCESS}]
        return {2: range(1, 5), 3: FLAG, 4: range(4), **(classes[f[4]] if f[4] < 4 else {})}
    return {2: FLAG}


def row_fields(f):
    kind, mode = f[1], f[6]
    more = {
        1: {6: range(12)}, 5: {4: ANY, 5: ANY, **LAST}, 7: LAST, 8: {6: SIZE}, 9: {6: SIZE}, 10: LAST,
        14: {6: FLAG}, 16: {6: range(4)}, 18: {4: ANY, 5: ANY, 6: range(18)}, 21: {6: range(4)},
        23: {6: KIND, 7: FLAG, 8: WIDTH if f[7] == 1 else ZERO}, 33: {6: WIDE, 7: WIDE, 8: ROLE},
    }.get(kind, {})
    unread = kind in (1, 10, *range(27, 32)) or (kind == 16 and mode > 0) or (kind == 21 and mode < 2)
    return more if unread else {**NUMBER, **more}


def bytes_ok(f):
    """Check 5 of one frame."""
    family, kind = f[0], f[1]
    if family == 1:
        if not known_type(f):
            return True
        if kind in (8, 14) and (f[4], four(f, 8) > 0) in ((0, False), (2, True)):
            return False
        fields = type_fields(f)
    elif family in (2, 5):
        if kind != 0:
            return False
        fields = {**NUMBER, **(LAST if family == 2 else {})}
    elif family == 3:
        fields = dict(NUMBER)
        if kind == 3:
            fields.update(space(f))
        if kind == 6:
            fields = {4: FLAG, **(NUMBER if f[4] == 1 else {})}
    else:
        if not known_row(f):
            return True
        fields = row_fields(f)
    return all(f[at] in fields.get(at, ZERO) for at in range(2, 16))


class File:
    def __init__(self, frames):
        self.frames = frames
        family = {n: [f for f in frames if f[0] == n] for n in range(1, 6)}
        self.types, self.members, self.rows, self.components = (family[n] for n in (1, 2, 4, 5))
        self.items = {n: [f for f in family[3] if f[1] == n] for n in range(1, 9)}

    def numbers_ok(self):
        """Check 6: for each frame in order, whether what it names is there and earlier."""
        types, rows = len(self.types), len(self.rows)
        member_top, part_top = [types] * len(self.members), [rows] * len(self.components)
        for at, f in enumerate(self.types):
            if f[1] == 9:
                for m in range(two(f, 2), min(two(f, 2) + two(f, 4), len(self.members))):
                    member_top[m] = min(member_top[m], at)
        for at, f in enumerate(self.rows):
            if f[1] == 5:
                for c in range(four(f, 12), min(four(f, 12) + two(f, 4), len(self.components))):
                    part_top[c] = min(part_top[c], at)
        for at, f in enumerate(self.types):
            ok = True
            if f[1] in (6, 8, 14):
                ok = two(f, 2) < at
            if f[1] in (8, 14) and f[4] == 1:
                ok = ok and four(f, 8) < len(self.items[2])
            if f[1] == 9:
                ok = two(f, 2) + two(f, 4) <= len(self.members)
            yield ok
        for f, top in zip(self.members, member_top):
            yield two(f, 2) < top
        for kind in range(1, 9):
            for f in self.items[kind]:
                yield two(f, 2) < types or (kind == 6 and f[4] == 0)
        for at, f in enumerate(self.rows):
            yield self.row_names(at, f)
        for f, top in zip(self.components, part_top):
            yield two(f, 2) < top

    def row_names(self, at, f):
        kind, n = f[1], two(f, 2)
        if not known_row(f) or 2 not in row_fields(f):
            return True
        item = {2: 1, 3: 2, 11: 3, 12: 5, 24: 6}.get(kind)
        if item:
            return n < len(self.items[item])
        if kind in (4, 25, 26, 32):
            return n < len(self.types)
        if kind == 5:
            return n < len(self.types) and four(f, 12) + two(f, 4) <= len(self.components)
        return n < at and (kind != 18 or two(f, 4) < at)


def read(text):
    """An accepted file, or Refused."""
    if len(text) > 33792:
        raise Refused(1, 1024)
    lines = [text[at:at + 33] for at in range(0, len(text), 33)]
    for at, line in enumerate(lines):
        if len(line) != 33 or line[32] != 10 or any(byte not in b'0123456789abcdef' for byte in line[:32]):
            raise Refused(2, at)
    frames = [bytes.fromhex(line[:32].decode()) for line in lines]
    before = (0, 0)
    for at, f in enumerate(frames):
        place = (f[0], f[1] if f[0] == 3 else 0)
        if not 1 <= f[0] <= 5 or (f[0] == 3 and not 1 <= f[1] <= 8):
            raise Refused(4, at)
        if place < before or (place == before and place in ((3, 7), (3, 8))):
            raise Refused(4, at)
        before = place
    for at, f in enumerate(frames):
        if not bytes_ok(f):
            raise Refused(5, at)
    file = File(frames)
    for at, ok in enumerate(file.numbers_ok()):
        if not ok:
            raise Refused(6, at)
    return file


def put(family, kind, **at):
    """A frame: b2=1 puts a byte, w2=1 two bytes, d8=1 four."""
    frame = bytearray(16)
    frame[0], frame[1] = family, kind
    for name, number in at.items():
        start, wide = int(name[1:]), {'b': 1, 'w': 2, 'd': 4}[name[0]]
        frame[start:start + wide] = number.to_bytes(wide, 'little')
    return bytes(frame)


def texel(format):
    """The scalar of a storage format: the kind that its name ends in; width 4, and 8 for R64Uint."""
    name = FORMATS[format]
    kind, = {kind for ending, kind in ENDINGS.items() if name.endswith(ending)}
    return kind, 8 if name == 'R64Uint' else 4


def number(n):
    return put(8, 0, w2=n)


def scalar(s):
    return put(9, 1, b4=s[0], b5=s[1])


def vector(size, s):
    return put(9, 2, b2=size, b4=s[0], b5=s[1])


def value_pointer(size, s, like):
    return put(9, 7, b2=size, b4=s[0], b5=s[1], b6=like[6], b7=like[7])


def pointer(base, like):
    return put(9, 6, w2=base, b6=like[6], b7=like[7])


def refusal(n, place=0, index=0, indexed=0):
    return put(10, n, w2=place, d4=index, b8=indexed)


def verdict_frame(n, row, first=0, given=0):
    return put(11, n, w2=row, d4=first, d8=given)


class Typing:
    """Answers of the rows so far, over the types, members and items of `file`."""

    def __init__(self, file):
        self.file, self.answers = file, []

    def add(self, row):
        try:
            answer = self.rule(row, len(self.answers))
        except Stop as stop:
            answer = stop.args[0]
        self.answers.append(answer)
        return answer

    def past(self, row):
        answer = self.answers[row]
        if answer[0] == 10:
            raise Stop(answer)
        return answer

    def form(self, answer, at):
        """The look into an answer's type, by the row `at`."""
        return self.look(two(answer, 2), at) if answer[0] == 8 else answer

    def look(self, ty, at):
        if not known_type(self.file.types[ty]):
            raise Stop(refusal(22, at))
        return self.file.types[ty]

    def rule(self, row, at):
        kind, n, mode, file = row[1], two(row, 2), row[6], self.file
        if not known_row(row):
            raise Stop(refusal(22, at))
        looked = lambda: self.form(self.past(n), at)
        of = lambda f: (f[4], f[5])
        if kind == 1:
            return scalar(LITERALS[mode])
        if kind in (2, 3):
            return number(two(file.items[kind - 1][n], 2))
        if kind in (4, 5, 25, 26, 32):
            return number(n)
        if kind in (6, 7):
            return self.access(row, at, looked())
        if kind == 8:
            f = looked()
            if f[1] != 1:
                raise Stop(refusal(13, n))
            return vector(mode, of(f))
        if kind == 9:
            f = looked()
            if f[1] != 2:
                raise Stop(refusal(14, n))
            return vector(mode, of(f))
        if kind == 10:
            index = four(row, 12)
            if index >= len(file.items[4]):
                raise Stop(refusal(19, 0, index))
            return number(two(file.items[4][index], 2))
        if kind == 11:
            item = file.items[3][n]
            return number(two(item, 2)) if item[6] == 5 else pointer(two(item, 2), item)
        if kind == 12:
            return pointer(two(file.items[5][n], 2), bytes(16))
        if kind == 13:
            f = looked()
            if f[1] == 6:
                base = self.look(two(f, 2), at)
                return scalar(of(base)) if base[1] == 5 else number(two(f, 2))
            if f[1] == 7:
                return vector(f[2], of(f)) if f[2] else scalar(of(f))
            raise Stop(refusal(15, n))
        if kind in (14, 15) or (kind == 16 and mode == 0):
            f = looked()
            if f[1] != 10:
                raise Stop(refusal(16, n))
            if kind == 16:
                return [scalar(U32), vector(2, U32), vector(3, U32), vector(2, U32)][f[2] - 1]
            if kind == 14 and mode == 1:
                return vector(4, (f[5] if f[4] == 0 else 2, 4))
            if f[4] == 3:
                return vector(4, texel(f[5]))
            return [vector(4, (f[5], 4)), scalar(F32), vector(4, F32)][f[4]]
        if kind == 16:
            return scalar(U32)
        if kind in (17, 19, 20, 34):
            return self.past(n)
        if kind == 18:
            return self.binary(row, at)
        if kind == 21:
            return self.compared(looked(), at) if mode > 1 else scalar(BOOL)
        if kind == 23:
            f = looked()
            width = row[8] if row[7] else f[5]
            if f[1] == 1:
                return scalar((mode, width))
            if f[1] == 2:
                return vector(f[2], (mode, width))
            if f[1] == 3:
                return put(9, 3, b2=f[2], b3=f[3], b4=f[4], b5=width)
            raise Stop(refusal(18))
        if kind == 24:
            item = file.items[6][n]
            if item[4] == 0:
                raise Stop(refusal(17))
            return number(two(item, 2))
        if kind == 27:
            return scalar(U32)
        if kind in (28, 30):
            special = file.items[8 if kind == 28 else 7]
            if not special:
                raise Stop(refusal(20))
            return number(two(special[0], 2))
        if kind == 29:
            return scalar(BOOL)
        if kind == 31:
            return vector(4, U32)
        f = looked()
        base, good = (self.look(two(f, 2), at), (1, 2, 3, 4)) if f[1] == 6 else (f, (7,))
        if base[1] not in good:
            raise Stop(refusal(15, n))
        return put(9, 4, b2=row[6], b3=row[7], b4=base[4], b5=base[5], b6=row[8])

    def access(self, row, at, f):
        """Access and AccessIndex."""
        n, indexed, index = two(row, 2), row[1] == 7, four(row, 12)
        through = f[1] == 6
        g = self.look(two(f, 2), at) if through else f
        if g[1] in (8, 14):
            return pointer(two(g, 2), f) if through else number(two(g, 2))
        bound = {2: g[2], 3: g[2], 9: two(g, 4), 7: 0 if through else g[2]}.get(g[1], 0)
        if g[1] not in (2, 3, 7, 9) or (g[1] == 9 and not indexed) or (g[1] == 7 and bound == 0):
            if through:
                raise Stop(refusal(12, two(f, 2), 0, indexed))
            raise Stop(refusal(11, n, 0, indexed))
        if indexed and index >= bound:
            raise Stop(refusal(10, n, index))
        s = (g[4], g[5])
        if g[1] == 9:
            member = two(self.file.members[two(g, 2) + index], 2)
            return pointer(member, f) if through else number(member)
        if through or g[1] == 7:
            return value_pointer(g[3] if g[1] == 3 else 0, s, f)
        return vector(g[3], s) if g[1] == 3 else scalar(s)

    def compared(self, f, at):
        if f[1] == 1:
            return scalar(BOOL)
        if f[1] == 2:
            return vector(f[2], BOOL)
        raise Stop(refusal(18))

    def binary(self, row, at):
        operator, left = row[6], self.past(two(row, 2))
        if operator in (0, 1, 3, 4, 11, 12, 13, 16, 17):
            return left
        if 5 <= operator <= 10:
            return self.compared(self.form(left, at), at)
        if operator in (14, 15):
            f = self.form(left, at)
            if f[1] != 1 or (f[4], f[5]) != BOOL:
                raise Stop(refusal(18))
            return scalar(BOOL)
        right = self.past(two(row, 4))
        f, g = self.form(left, at), self.form(right, at)
        pair = (f[1], g[1])
        if pair == (3, 3):
            return put(9, 3, b2=g[2], b3=f[3], b4=f[4], b5=f[5])
        if pair == (3, 2):
            return vector(f[3], (f[4], f[5]))
        if pair == (2, 3):
            return vector(g[2], (g[4], g[5]))
        if f[1] == 1:
            return right
        if g[1] == 1 or pair == (2, 2):
            return left
        if pair == (4, 4):
            return put(9, 4, b2=g[2], b3=f[3], b4=f[4], b5=f[5], b6=f[6])
        raise Stop(refusal(18))

    def same(self, left, right):
        """'yes', 'no' or '22' of two answers that have a type."""
        types = self.file.types
        if left == right:
            return 'yes'
        if any(a[0] == 8 and types[two(a, 2)][1] == 9 for a in (left, right)):
            return 'no'
        try:
            forms = [self.canonical(a) for a in (left, right)]
        except Stop:
            return '22'
        return 'yes' if forms[0] == forms[1] else 'no'

    def canonical(self, answer):
        f = self.form(answer, 0)
        if f[1] == 6:
            base = self.look(two(f, 2), 0)
            if base[1] in (1, 2):
                f = value_pointer(base[2], (base[4], base[5]), f)
        return f[1:]

    def verdict(self, at, row, parts):
        """The verdict of the compose `row`, whose components are the rows `parts`."""
        f = self.file.types[two(row, 2)]
        if not known_type(f):
            return verdict_frame(22, at, 0xffffffff)
        counted = {3: f[2], 8: four(f, 8), 9: two(f, 4)}.get(f[1])
        if f[1] not in (2, 3, 8, 9) or (f[1] == 8 and f[4] != 0):
            return verdict_frame(30, at)
        if counted is not None and counted != len(parts):
            return verdict_frame(31, at, counted, len(parts))
        total = 0
        for index, part in enumerate(parts):
            answer = self.answers[part]
            if answer[0] == 10:
                return verdict_frame(22 if answer[1] == 22 else 33, at, index)
            if f[1] in (2, 3):
                try:
                    g = self.form(answer, 0)
                except Stop:
                    return verdict_frame(22, at, index)
                if f[1] == 2:
                    good = g[1] in (1, 2) and g[4:6] == f[4:6]
                    total += g[2] if g[1] == 2 else 1
                else:
                    good = g[1:] == vector(f[3], (f[4], f[5]))[1:]
            else:
                wanted = two(f, 2) if f[1] == 8 else two(self.file.members[two(f, 2) + index], 2)
                said = self.same(number(wanted), answer)
                if said == '22':
                    return verdict_frame(22, at, index)
                good = said == 'yes'
            if not good:
                return verdict_frame(32, at, index)
        if f[1] == 2 and total != f[2]:
            return verdict_frame(31, at, f[2], total)
        return verdict_frame(0, at)


def marked(frame):
    """A line as the oracle prints it: 22 and 33 with the mark."""
    return ('!' if frame[0] in (10, 11) and frame[1] in (22, 33) else '') + frame.hex() + '\n'


def lines(file):
    typing, said = Typing(file), []
    for at, row in enumerate(file.rows):
        said.append(marked(typing.add(row)))
        if row[1] == 5:
            first = four(row, 12)
            parts = [two(part, 2) for part in file.components[first:first + two(row, 4)]]
            said.append(marked(typing.verdict(at, row, parts)))
    return ''.join(said)


def compare(file, left, right):
    """'yes', 'no', or a marked number."""
    for frame in (left, right):
        if frame[0] == 8:
            if frame[1] or any(frame[4:]):
                return '!5'
            if two(frame, 2) >= len(file.types):
                return '!6'
        elif frame[0] == 9 and known_type(frame) and frame[1] != 9:
            if not bytes_ok(b'\1' + frame[1:]):
                return '!5'
            if frame[1] in (6, 8, 14) and two(frame, 2) >= len(file.types):
                return '!6'
            if frame[1] in (8, 14) and frame[4] == 1 and four(frame, 8) >= len(file.items[2]):
                return '!6'
        else:
            return '!5'
    said = Typing(file).same(left, right)
    return '!22' if said == '22' else said
