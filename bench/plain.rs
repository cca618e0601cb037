//! The job of `file_rows::type_rows`, written plainly in safe Rust, twice: `by_enums` decodes frames to enums, as naga
//! has them, and keeps its answers as enums; `on_bytes` reads and writes frames in place. What the speed of the reader
//! is held against (compare.rs). stored.rs holds both to the stored answers.

pub type Frame = [u8; 16];

/// By which rules Binary rows are typed: the source's, or WGSL's.
#[derive(Clone, Copy, PartialEq, Eq)]
pub enum Pass { First, Second }

/// A refused file: its number and place.
pub type Refused = (u8, u16);

pub fn half(f: &Frame, at: usize) -> u16 {
    u16::from_le_bytes([f[at], f[at + 1]])
}

pub fn word(f: &Frame, at: usize) -> u32 {
    u32::from_le_bytes([f[at], f[at + 1], f[at + 2], f[at + 3]])
}

/// Checks 1 to 6, which both have alike.
pub mod reading {
    use super::*;

    fn is_digit(c: u8) -> bool {
        matches!(c, b'0'..=b'9' | b'a'..=b'f')
    }

    fn value(c: u8) -> u8 {
        if c < b'a' { c - b'0' } else { c - b'a' + 10 }
    }

    fn byte(line: &[u8], at: usize) -> u8 {
        16 * value(line[2 * at]) + value(line[2 * at + 1])
    }

    /// How many answer frames the rows of a text ask for.
    fn wanted(text: &[u8]) -> usize {
        let mut wanted = 0;
        for line in text.chunks(33) {
            if byte(line, 0) == 4 {
                wanted += if byte(line, 1) == 5 { 2 } else { 1 };
            }
        }
        wanted
    }

    fn read_text(text: &[u8], limit: u32, frames: &mut [u8], room: Option<usize>) -> Result<usize, Refused> {
        let limit = if (1..=1024).contains(&limit) { limit } else { 1024 };
        if text.len() > 33 * limit as usize {
            return Err((1, limit as u16));
        }
        for (k, line) in text.chunks(33).enumerate() {
            if line.len() != 33 || line[32] != b'\n' || !line[..32].iter().all(|&c| is_digit(c)) {
                return Err((2, k as u16));
            }
        }
        let n = text.len() / 33;
        if frames.len() < 16 * n || room.is_some_and(|room| room < 16 * wanted(text)) {
            return Err((3, 0));
        }
        for (line, frame) in text.chunks(33).zip(frames.chunks_exact_mut(16)) {
            for (at, b) in frame.iter_mut().enumerate() {
                *b = byte(line, at);
            }
        }
        Ok(n)
    }

    fn rank(f: &Frame) -> (u8, u8) {
        (f[0], if f[0] == 3 { f[1] } else { 0 })
    }

    fn check_order(frames: &[Frame]) -> Result<(), Refused> {
        let mut before = (0, 0);
        for (k, f) in frames.iter().enumerate() {
            let at = rank(f);
            let known = (1..6).contains(&f[0]) && (f[0] != 3 || (1..9).contains(&f[1]));
            if !known || at < before || (at == before && (at == (3, 7) || at == (3, 8))) {
                return Err((4, k as u16));
            }
            before = at;
        }
        Ok(())
    }

    fn zero(f: &Frame, from: usize) -> bool {
        f[from..].iter().all(|&b| b == 0)
    }

    fn is_size(b: u8) -> bool {
        (2..5).contains(&b)
    }

    fn is_wide(b: u8) -> bool {
        b == 8 || b == 16
    }

    fn is_space(f: &Frame) -> bool {
        if f[6] == 4 { f[7] < 8 } else { f[6] < 10 && f[7] == 0 }
    }

    fn is_array(f: &Frame) -> bool {
        let n = word(f, 8);
        (match f[4] {
            0 => n != 0,
            1 => true,
            2 => n == 0,
            _ => false,
        }) && f[5] == 0
            && f[6] == 0
            && f[7] == 0
    }

    fn is_class(f: &Frame) -> bool {
        match f[4] {
            0 => f[5] < 6 && f[6] < 2 && f[7] == 0,
            1 => f[5] == 0 && f[6] < 2 && f[7] == 0,
            2 => f[5] == 0 && f[6] == 0 && f[7] == 0,
            3 => f[5] < 41 && f[6] == 0 && f[7] < 8,
            _ => false,
        }
    }

    fn is_width(b: u8) -> bool {
        matches!(b, 1 | 2 | 4 | 8)
    }

    fn is_convert(flag: u8, width: u8) -> bool {
        match flag {
            0 => width == 0,
            1 => is_width(width),
            _ => false,
        }
    }

    fn is_scalar(f: &Frame) -> bool {
        f[4] < 6 && is_width(f[5])
    }

    fn type_fits(f: &Frame) -> bool {
        match f[1] {
            1 | 5 => is_scalar(f) && f[2] == 0 && f[3] == 0 && zero(f, 6),
            2 => is_size(f[2]) && is_scalar(f) && f[3] == 0 && zero(f, 6),
            3 => is_size(f[2]) && is_size(f[3]) && is_scalar(f) && zero(f, 6),
            4 => is_wide(f[2]) && is_wide(f[3]) && is_scalar(f) && f[6] < 3 && zero(f, 7),
            6 => is_space(f) && f[4] == 0 && f[5] == 0 && zero(f, 8),
            7 => (f[2] == 0 || is_size(f[2])) && is_scalar(f) && is_space(f) && f[3] == 0 && zero(f, 8),
            8 => is_array(f),
            9 => f[6] == 0 && f[7] == 0 && word(f, 8) == 0,
            10 => (1..5).contains(&f[2]) && f[3] < 2 && is_class(f) && zero(f, 8),
            11..=13 => f[2] < 2 && zero(f, 3),
            14 => is_array(f) && zero(f, 12),
            _ => true,
        }
    }

    fn item_fits(f: &Frame) -> bool {
        match f[1] {
            3 => is_space(f) && f[4] == 0 && f[5] == 0 && zero(f, 8),
            6 => f[4] < 2 && (f[4] == 1 || half(f, 2) == 0) && zero(f, 5),
            _ => zero(f, 4),
        }
    }

    fn row_fits(f: &Frame) -> bool {
        match f[1] {
            1 => f[6] < 12 && word(f, 2) == 0 && zero(f, 7),
            5 => half(f, 6) == 0 && word(f, 8) == 0,
            7 => word(f, 4) == 0 && word(f, 8) == 0,
            8 | 9 => is_size(f[6]) && half(f, 4) == 0 && zero(f, 7),
            10 => half(f, 2) == 0 && word(f, 4) == 0 && word(f, 8) == 0,
            14 => f[6] < 2 && half(f, 4) == 0 && zero(f, 7),
            16 => f[6] < 4 && (f[6] == 0 || half(f, 2) == 0) && half(f, 4) == 0 && zero(f, 7),
            18 => f[6] < 18 && zero(f, 7),
            21 => f[6] < 4 && (f[6] >= 2 || half(f, 2) == 0) && half(f, 4) == 0 && zero(f, 7),
            23 => f[6] < 6 && is_convert(f[7], f[8]) && half(f, 4) == 0 && zero(f, 9),
            27..=31 => zero(f, 2),
            33 => is_wide(f[6]) && is_wide(f[7]) && f[8] < 3 && half(f, 4) == 0 && zero(f, 9),
            0 | 22 | 35..=255 => true,
            _ => zero(f, 4),
        }
    }

    fn fits(f: &Frame) -> bool {
        match f[0] {
            1 => type_fits(f),
            2 => f[1] == 0 && word(f, 4) == 0 && word(f, 8) == 0,
            3 => item_fits(f),
            4 => row_fits(f),
            _ => f[1] == 0 && zero(f, 4),
        }
    }

    /// The frames of a file, by family and, of items, by kind.
    pub struct Parts<'a> {
        pub types: &'a [Frame],
        pub members: &'a [Frame],
        pub items: [&'a [Frame]; 9],
        pub rows: &'a [Frame],
        pub components: &'a [Frame],
    }

    pub fn parts(frames: &[Frame]) -> Parts<'_> {
        let mut rest = frames;
        let mut next = |family: u8, kind: Option<u8>| {
            let n = rest
                .iter()
                .position(|f| f[0] != family || kind.is_some_and(|k| f[1] != k))
                .unwrap_or(rest.len());
            let (first, after) = rest.split_at(n);
            rest = after;
            first
        };
        let types = next(1, None);
        let members = next(2, None);
        let mut items: [&[Frame]; 9] = [&[]; 9];
        for kind in 1..9 {
            items[kind] = next(3, Some(kind as u8));
        }
        let rows = next(4, None);
        let components = next(5, None);
        Parts { types, members, items, rows, components }
    }

    fn type_names(p: &Parts, k: usize, f: &Frame) -> bool {
        match f[1] {
            6 => (half(f, 2) as usize) < k,
            8 | 14 => (half(f, 2) as usize) < k && (f[4] != 1 || (word(f, 8) as usize) < p.items[2].len()),
            9 => half(f, 2) as usize + half(f, 4) as usize <= p.members.len(),
            _ => true,
        }
    }

    fn row_names(p: &Parts, k: usize, f: &Frame) -> bool {
        let n = half(f, 2) as usize;
        match f[1] {
            2 => n < p.items[1].len(),
            3 => n < p.items[2].len(),
            4 | 25 | 26 | 32 => n < p.types.len(),
            5 => n < p.types.len() && word(f, 12) as usize + half(f, 4) as usize <= p.components.len(),
            11 => n < p.items[3].len(),
            12 => n < p.items[5].len(),
            24 => n < p.items[6].len(),
            6..=9 | 13..=15 | 17 | 19 | 20 | 23 | 33 | 34 => n < k,
            16 => f[6] != 0 || n < k,
            18 => n < k && (half(f, 4) as usize) < k,
            21 => f[6] < 2 || n < k,
            _ => true,
        }
    }

    /// The lowest of `parts[first..][..count]` that names `limit` or more.
    fn late(parts: &[Frame], first: usize, count: usize, limit: usize) -> Option<usize> {
        let end = (first + count).min(parts.len());
        (first..end).find(|&i| half(&parts[i], 2) as usize >= limit)
    }

    fn check_index(frames: &[Frame]) -> Result<(), Refused> {
        let p = parts(frames);
        let types = p.types.len();
        let members_at = types;
        let rows_at = types + p.members.len() + p.items.iter().map(|i| i.len()).sum::<usize>();
        let components_at = rows_at + p.rows.len();
        let mut lowest = usize::MAX;
        for (k, f) in frames.iter().enumerate() {
            let named = half(f, 2) as usize;
            let ok = match f[0] {
                1 => type_names(&p, k, f),
                2 => named < types,
                3 => (f[1] == 6 && f[4] == 0) || named < types,
                4 => row_names(&p, k - rows_at, f),
                _ => named < p.rows.len(),
            };
            if !ok {
                lowest = k;
                break;
            }
        }
        for (k, f) in p.types.iter().enumerate() {
            if f[1] == 9 {
                if let Some(i) = late(p.members, half(f, 2) as usize, half(f, 4) as usize, k) {
                    lowest = lowest.min(members_at + i);
                }
            }
        }
        for (k, f) in p.rows.iter().enumerate() {
            if f[1] == 5 {
                if let Some(i) = late(p.components, word(f, 12) as usize, half(f, 4) as usize, k) {
                    lowest = lowest.min(components_at + i);
                }
            }
        }
        if lowest == usize::MAX { Ok(()) } else { Err((6, lowest as u16)) }
    }

    /// Checks 1 to 6, with an answer buffer of `room` bytes if one is lent; how many frames an accepted file has.
    pub fn read(text: &[u8], limit: u32, frames: &mut [u8], room: Option<usize>) -> Result<usize, Refused> {
        let n = read_text(text, limit, frames, room)?;
        let frames = frames[..16 * n].as_chunks::<16>().0;
        check_order(frames)?;
        if let Some(k) = frames.iter().position(|f| !fits(f)) {
            return Err((5, k as u16));
        }
        check_index(frames)?;
        Ok(n)
    }
}

/// Answers by enums, as the source has them.
pub mod by_enums {
    use super::reading::{parts, Parts};
    use super::*;

    #[derive(Clone, Copy, PartialEq, Eq)]
    pub enum ScalarKind { Sint, Uint, Float, Bool, AbstractInt, AbstractFloat }

    #[derive(Clone, Copy, PartialEq, Eq)]
    pub enum VectorSize { Bi = 2, Tri = 3, Quad = 4 }

    #[derive(Clone, Copy, PartialEq, Eq)]
    pub enum CooperativeSize { Eight = 8, Sixteen = 16 }

    #[derive(Clone, Copy, PartialEq, Eq)]
    pub enum CooperativeRole { A, B, C }

    #[derive(Clone, Copy, PartialEq, Eq)]
    pub struct Scalar { kind: ScalarKind, width: u8 }

    impl Scalar {
        const U32: Self = Self { kind: ScalarKind::Uint, width: 4 };
        const F32: Self = Self { kind: ScalarKind::Float, width: 4 };
        const BOOL: Self = Self { kind: ScalarKind::Bool, width: 1 };

        fn is_integer(self) -> bool {
            matches!(self.kind, ScalarKind::Sint | ScalarKind::Uint)
        }

        fn is_float(self) -> bool {
            self.kind == ScalarKind::Float
        }

        fn is_numeric(self) -> bool {
            self.is_integer() || self.is_float()
        }

        /// The scalar of a storage format, by its number.
        fn of_format(format: u8) -> Self {
            let kind = match format {
                2 | 4 | 9 | 11 | 14 | 19 | 22 | 25 | 26 | 29 | 32 => ScalarKind::Uint,
                3 | 5 | 10 | 12 | 15 | 20 | 27 | 30 | 33 => ScalarKind::Sint,
                _ => ScalarKind::Float,
            };
            Self { kind, width: if format == 25 { 8 } else { 4 } }
        }
    }

    #[derive(Clone, Copy, PartialEq, Eq)]
    pub enum AddressSpace {
        Function, Private, WorkGroup, Uniform, Storage { access: u8 }, Handle, Immediate, TaskPayload, RayPayload,
        IncomingRayPayload,
    }

    #[derive(Clone, Copy, PartialEq, Eq)]
    pub enum ArraySize { Constant(u32), Pending(u32), Dynamic }

    #[derive(Clone, Copy, PartialEq, Eq)]
    pub enum ImageDimension { D1 = 1, D2 = 2, D3 = 3, Cube = 4 }

    #[derive(Clone, Copy, PartialEq, Eq)]
    pub enum ImageClass {
        Sampled { kind: ScalarKind, multi: bool }, Depth { multi: bool }, External, Storage { format: u8, access: u8 },
    }

    #[derive(Clone, Copy, PartialEq, Eq)]
    pub enum TypeInner {
        Scalar(Scalar),
        Vector { size: VectorSize, scalar: Scalar },
        Matrix { columns: VectorSize, rows: VectorSize, scalar: Scalar },
        CooperativeMatrix { columns: CooperativeSize, rows: CooperativeSize, scalar: Scalar, role: CooperativeRole },
        Atomic(Scalar),
        Pointer { base: u16, space: AddressSpace },
        ValuePointer { size: Option<VectorSize>, scalar: Scalar, space: AddressSpace },
        Array { base: u16, size: ArraySize, stride: u32 },
        Struct { first: u16, count: u16, span: u32 },
        Image { dim: ImageDimension, arrayed: bool, class: ImageClass },
        Sampler { comparison: bool },
        AccelerationStructure { vertex_return: bool },
        RayQuery { vertex_return: bool },
        BindingArray { base: u16, size: ArraySize },
    }

    #[derive(Clone, Copy, PartialEq, Eq)]
    pub enum TypeResolution { Handle(u16), Value(TypeInner) }

    #[derive(Clone, Copy, PartialEq, Eq)]
    pub enum Refusal {
        OutOfBoundsIndex { expr: u16, index: u32 },
        InvalidAccess { expr: u16, indexed: bool },
        InvalidSubAccess { ty: u16, indexed: bool },
        InvalidScalar(u16),
        InvalidVector(u16),
        InvalidPointer(u16),
        InvalidImage(u16),
        FunctionReturnsVoid,
        IncompatibleOperands,
        FunctionArgumentNotFound(u32),
        MissingSpecialType,
        Newer { row: u16 },
        Mismatch,
    }

    pub type Answer = Result<TypeResolution, Refusal>;

    #[derive(Clone, Copy)]
    pub enum BinaryOperator {
        Add, Subtract, Multiply, Divide, Modulo, Equal, NotEqual, Less, LessEqual, Greater, GreaterEqual, And,
        ExclusiveOr, InclusiveOr, LogicalAnd, LogicalOr, ShiftLeft, ShiftRight,
    }

    #[derive(Clone, Copy)]
    pub enum RelationalFunction { All, Any, IsNan, IsInf }

    #[derive(Clone, Copy)]
    pub enum ImageQuery { Size, NumLevels, NumLayers, NumSamples }

    #[derive(Clone, Copy)]
    pub enum Literal { F64, F32, F16, U16, I16, U32, I32, U64, I64, Bool, AbstractInt, AbstractFloat }

    #[derive(Clone, Copy)]
    pub enum Expression {
        Literal(Literal),
        Constant(u16),
        Override(u16),
        ZeroValue(u16),
        Compose { ty: u16, count: u16, first: u32 },
        Access { base: u16 },
        AccessIndex { base: u16, index: u32 },
        Splat { size: VectorSize, value: u16 },
        Swizzle { size: VectorSize, vector: u16 },
        FunctionArgument(u32),
        GlobalVariable(u16),
        LocalVariable(u16),
        Load { pointer: u16 },
        ImageSample { image: u16, gather: bool },
        ImageLoad { image: u16 },
        ImageQuery { image: u16, query: ImageQuery },
        Unary { expr: u16 },
        Binary { op: BinaryOperator, left: u16, right: u16 },
        Select { accept: u16 },
        Derivative { expr: u16 },
        Relational { fun: RelationalFunction, argument: u16 },
        Math,
        As { expr: u16, kind: ScalarKind, convert: Option<u8> },
        CallResult(u16),
        AtomicResult { ty: u16 },
        WorkGroupUniformLoadResult { ty: u16 },
        ArrayLength,
        RayQueryVertexPositions,
        RayQueryProceedResult,
        RayQueryGetIntersection,
        SubgroupBallotResult,
        SubgroupOperationResult { ty: u16 },
        CooperativeLoad { columns: CooperativeSize, rows: CooperativeSize, role: CooperativeRole, pointer: u16 },
        CooperativeMultiplyAdd { c: u16 },
    }

    fn scalar_kind(b: u8) -> ScalarKind {
        match b {
            0 => ScalarKind::Sint,
            1 => ScalarKind::Uint,
            2 => ScalarKind::Float,
            3 => ScalarKind::Bool,
            4 => ScalarKind::AbstractInt,
            _ => ScalarKind::AbstractFloat,
        }
    }

    fn vector_size(b: u8) -> VectorSize {
        match b {
            2 => VectorSize::Bi,
            3 => VectorSize::Tri,
            _ => VectorSize::Quad,
        }
    }

    fn cooperative_size(b: u8) -> CooperativeSize {
        if b == 8 { CooperativeSize::Eight } else { CooperativeSize::Sixteen }
    }

    fn role(b: u8) -> CooperativeRole {
        match b {
            0 => CooperativeRole::A,
            1 => CooperativeRole::B,
            _ => CooperativeRole::C,
        }
    }

    fn space(space: u8, access: u8) -> AddressSpace {
        match space {
            0 => AddressSpace::Function,
            1 => AddressSpace::Private,
            2 => AddressSpace::WorkGroup,
            3 => AddressSpace::Uniform,
            4 => AddressSpace::Storage { access },
            5 => AddressSpace::Handle,
            6 => AddressSpace::Immediate,
            7 => AddressSpace::TaskPayload,
            8 => AddressSpace::RayPayload,
            _ => AddressSpace::IncomingRayPayload,
        }
    }

    fn scalar(f: &Frame) -> Scalar {
        Scalar { kind: scalar_kind(f[4]), width: f[5] }
    }

    fn array_size(f: &Frame) -> ArraySize {
        match f[4] {
            0 => ArraySize::Constant(word(f, 8)),
            1 => ArraySize::Pending(word(f, 8)),
            _ => ArraySize::Dynamic,
        }
    }

    fn image_class(f: &Frame) -> ImageClass {
        match f[4] {
            0 => ImageClass::Sampled { kind: scalar_kind(f[5]), multi: f[6] == 1 },
            1 => ImageClass::Depth { multi: f[6] == 1 },
            2 => ImageClass::External,
            _ => ImageClass::Storage { format: f[5], access: f[7] },
        }
    }

    /// A type; none of an unknown kind.
    fn type_of(f: &Frame) -> Option<TypeInner> {
        Some(match f[1] {
            1 => TypeInner::Scalar(scalar(f)),
            2 => TypeInner::Vector { size: vector_size(f[2]), scalar: scalar(f) },
            3 => TypeInner::Matrix { columns: vector_size(f[2]), rows: vector_size(f[3]), scalar: scalar(f) },
            4 => TypeInner::CooperativeMatrix {
                columns: cooperative_size(f[2]), rows: cooperative_size(f[3]), scalar: scalar(f), role: role(f[6]),
            },
            5 => TypeInner::Atomic(scalar(f)),
            6 => TypeInner::Pointer { base: half(f, 2), space: space(f[6], f[7]) },
            7 => TypeInner::ValuePointer {
                size: if f[2] == 0 { None } else { Some(vector_size(f[2])) },
                scalar: scalar(f),
                space: space(f[6], f[7]),
            },
            8 => TypeInner::Array { base: half(f, 2), size: array_size(f), stride: word(f, 12) },
            9 => TypeInner::Struct { first: half(f, 2), count: half(f, 4), span: word(f, 12) },
            10 => TypeInner::Image {
                dim: match f[2] {
                    1 => ImageDimension::D1,
                    2 => ImageDimension::D2,
                    3 => ImageDimension::D3,
                    _ => ImageDimension::Cube,
                },
                arrayed: f[3] == 1,
                class: image_class(f),
            },
            11 => TypeInner::Sampler { comparison: f[2] == 1 },
            12 => TypeInner::AccelerationStructure { vertex_return: f[2] == 1 },
            13 => TypeInner::RayQuery { vertex_return: f[2] == 1 },
            14 => TypeInner::BindingArray { base: half(f, 2), size: array_size(f) },
            _ => return None,
        })
    }

    /// A row; none of an unknown kind.
    fn row_of(f: &Frame) -> Option<Expression> {
        let n = half(f, 2);
        Some(match f[1] {
            1 => Expression::Literal(match f[6] {
                0 => Literal::F64,
                1 => Literal::F32,
                2 => Literal::F16,
                3 => Literal::U16,
                4 => Literal::I16,
                5 => Literal::U32,
                6 => Literal::I32,
                7 => Literal::U64,
                8 => Literal::I64,
                9 => Literal::Bool,
                10 => Literal::AbstractInt,
                _ => Literal::AbstractFloat,
            }),
            2 => Expression::Constant(n),
            3 => Expression::Override(n),
            4 => Expression::ZeroValue(n),
            5 => Expression::Compose { ty: n, count: half(f, 4), first: word(f, 12) },
            6 => Expression::Access { base: n },
            7 => Expression::AccessIndex { base: n, index: word(f, 12) },
            8 => Expression::Splat { size: vector_size(f[6]), value: n },
            9 => Expression::Swizzle { size: vector_size(f[6]), vector: n },
            10 => Expression::FunctionArgument(word(f, 12)),
            11 => Expression::GlobalVariable(n),
            12 => Expression::LocalVariable(n),
            13 => Expression::Load { pointer: n },
            14 => Expression::ImageSample { image: n, gather: f[6] == 1 },
            15 => Expression::ImageLoad { image: n },
            16 => Expression::ImageQuery {
                image: n,
                query: match f[6] {
                    0 => ImageQuery::Size,
                    1 => ImageQuery::NumLevels,
                    2 => ImageQuery::NumLayers,
                    _ => ImageQuery::NumSamples,
                },
            },
            17 => Expression::Unary { expr: n },
            18 => Expression::Binary {
                op: match f[6] {
                    0 => BinaryOperator::Add,
                    1 => BinaryOperator::Subtract,
                    2 => BinaryOperator::Multiply,
                    3 => BinaryOperator::Divide,
                    4 => BinaryOperator::Modulo,
                    5 => BinaryOperator::Equal,
                    6 => BinaryOperator::NotEqual,
                    7 => BinaryOperator::Less,
                    8 => BinaryOperator::LessEqual,
                    9 => BinaryOperator::Greater,
                    10 => BinaryOperator::GreaterEqual,
                    11 => BinaryOperator::And,
                    12 => BinaryOperator::ExclusiveOr,
                    13 => BinaryOperator::InclusiveOr,
                    14 => BinaryOperator::LogicalAnd,
                    15 => BinaryOperator::LogicalOr,
                    16 => BinaryOperator::ShiftLeft,
                    _ => BinaryOperator::ShiftRight,
                },
                left: n,
                right: half(f, 4),
            },
            19 => Expression::Select { accept: n },
            20 => Expression::Derivative { expr: n },
            21 => Expression::Relational {
                fun: match f[6] {
                    0 => RelationalFunction::All,
                    1 => RelationalFunction::Any,
                    2 => RelationalFunction::IsNan,
                    _ => RelationalFunction::IsInf,
                },
                argument: n,
            },
            22 => Expression::Math,
            23 => Expression::As {
                expr: n,
                kind: scalar_kind(f[6]),
                convert: if f[7] == 1 { Some(f[8]) } else { None },
            },
            24 => Expression::CallResult(n),
            25 => Expression::AtomicResult { ty: n },
            26 => Expression::WorkGroupUniformLoadResult { ty: n },
            27 => Expression::ArrayLength,
            28 => Expression::RayQueryVertexPositions,
            29 => Expression::RayQueryProceedResult,
            30 => Expression::RayQueryGetIntersection,
            31 => Expression::SubgroupBallotResult,
            32 => Expression::SubgroupOperationResult { ty: n },
            33 => Expression::CooperativeLoad {
                columns: cooperative_size(f[6]), rows: cooperative_size(f[7]), role: role(f[8]), pointer: n,
            },
            34 => Expression::CooperativeMultiplyAdd { c: n },
            _ => return None,
        })
    }

    /// The scalar of two equal scalars or vectors.
    fn shared(left: TypeInner, right: TypeInner) -> Option<Scalar> {
        match left {
            TypeInner::Scalar(scalar) | TypeInner::Vector { scalar, .. } if left == right => Some(scalar),
            _ => None,
        }
    }

    /// BOOL, for each component of a scalar or a vector.
    fn bools(t: TypeInner) -> Option<TypeInner> {
        match t {
            TypeInner::Scalar(_) => Some(TypeInner::Scalar(Scalar::BOOL)),
            TypeInner::Vector { size, .. } => Some(TypeInner::Vector { size, scalar: Scalar::BOOL }),
            _ => None,
        }
    }

    /// WGSL's sum, difference, product, quotient or remainder of scalars and vectors.
    fn arithmetic(left: TypeInner, right: TypeInner) -> Option<TypeInner> {
        match (left, right) {
            (TypeInner::Scalar(a), TypeInner::Scalar(b)) if a == b && a.is_numeric() => Some(left),
            (TypeInner::Vector { scalar, .. }, TypeInner::Vector { .. }) if left == right && scalar.is_numeric() => {
                Some(left)
            }
            (TypeInner::Vector { scalar: a, .. }, TypeInner::Scalar(b)) if a == b && a.is_numeric() => Some(left),
            (TypeInner::Scalar(a), TypeInner::Vector { scalar: b, .. }) if a == b && a.is_numeric() => Some(right),
            _ => None,
        }
    }

    /// WGSL's product.
    fn product(left: TypeInner, right: TypeInner) -> Option<TypeInner> {
        match (left, right) {
            (TypeInner::Matrix { scalar: a, .. }, TypeInner::Scalar(b)) if a == b && a.is_float() => Some(left),
            (TypeInner::Scalar(a), TypeInner::Matrix { scalar: b, .. }) if a == b && a.is_float() => Some(right),
            (TypeInner::Matrix { columns, rows, scalar: a }, TypeInner::Vector { size, scalar: b })
                if a == b && a.is_float() && columns == size =>
            {
                Some(TypeInner::Vector { size: rows, scalar: a })
            }
            (TypeInner::Vector { size, scalar: a }, TypeInner::Matrix { columns, rows, scalar: b })
                if a == b && a.is_float() && size == rows =>
            {
                Some(TypeInner::Vector { size: columns, scalar: a })
            }
            (
                TypeInner::Matrix { columns: inner, rows, scalar: a },
                TypeInner::Matrix { columns, rows: other, scalar: b },
            ) if a == b && a.is_float() && inner == other => Some(TypeInner::Matrix { columns, rows, scalar: a }),
            _ => arithmetic(left, right),
        }
    }

    /// WGSL's type of a shift.
    fn shift(left: TypeInner, right: TypeInner) -> Option<TypeInner> {
        match (left, right) {
            (TypeInner::Scalar(a), TypeInner::Scalar(Scalar::U32)) if a.is_integer() => Some(left),
            (TypeInner::Vector { size, scalar }, TypeInner::Vector { size: other, scalar: Scalar::U32 })
                if scalar.is_integer() && size == other =>
            {
                Some(left)
            }
            _ => None,
        }
    }

    /// WGSL's type of a Binary row; none where it has no such expression.
    fn wgsl(op: BinaryOperator, left: TypeInner, right: TypeInner) -> Option<TypeInner> {
        match op {
            BinaryOperator::Add | BinaryOperator::Subtract => match left {
                TypeInner::Matrix { scalar, .. } if left == right && scalar.is_float() => Some(left),
                _ => arithmetic(left, right),
            },
            BinaryOperator::Multiply => product(left, right),
            BinaryOperator::Divide | BinaryOperator::Modulo => arithmetic(left, right),
            BinaryOperator::Equal | BinaryOperator::NotEqual => match shared(left, right) {
                Some(s) if s.is_numeric() || s == Scalar::BOOL => bools(left),
                _ => None,
            },
            BinaryOperator::Less
            | BinaryOperator::LessEqual
            | BinaryOperator::Greater
            | BinaryOperator::GreaterEqual => match shared(left, right) {
                Some(s) if s.is_numeric() => bools(left),
                _ => None,
            },
            BinaryOperator::And | BinaryOperator::InclusiveOr => match shared(left, right) {
                Some(s) if s.is_integer() || s == Scalar::BOOL => Some(left),
                _ => None,
            },
            BinaryOperator::ExclusiveOr => match shared(left, right) {
                Some(s) if s.is_integer() => Some(left),
                _ => None,
            },
            BinaryOperator::LogicalAnd | BinaryOperator::LogicalOr => match (left, right) {
                (TypeInner::Scalar(Scalar::BOOL), TypeInner::Scalar(Scalar::BOOL)) => Some(left),
                _ => None,
            },
            BinaryOperator::ShiftLeft | BinaryOperator::ShiftRight => shift(left, right),
        }
    }

    struct Context<'a> {
        pass: Pass,
        parts: Parts<'a>,
        types: Vec<Option<TypeInner>>,
    }

    fn value(t: TypeInner) -> Answer {
        Ok(TypeResolution::Value(t))
    }

    impl Context<'_> {
        fn past<'p>(&self, past: &'p [Answer], n: u16) -> Result<&'p TypeResolution, Refusal> {
            past[n as usize].as_ref().map_err(|e| *e)
        }

        /// Looks into a type, for the row `here`.
        fn inner<'t>(&'t self, here: u16, r: &'t TypeResolution) -> Result<&'t TypeInner, Refusal> {
            match r {
                TypeResolution::Handle(n) => self.look(here, *n),
                TypeResolution::Value(t) => Ok(t),
            }
        }

        fn look(&self, here: u16, n: u16) -> Result<&TypeInner, Refusal> {
            self.types[n as usize].as_ref().ok_or(Refusal::Newer { row: here })
        }

        fn member(&self, first: u16, index: u32) -> u16 {
            half(&self.parts.members[first as usize + index as usize], 2)
        }

        fn access(&self, here: u16, past: &[Answer], base: u16, index: Option<u32>) -> Answer {
            let indexed = index.is_some();
            let bounded = |n: u32, t: TypeInner| match index {
                Some(i) if i >= n => Err(Refusal::OutOfBoundsIndex { expr: base, index: i }),
                _ => value(t),
            };
            let inner = self.inner(here, self.past(past, base)?)?;
            match *inner {
                TypeInner::Vector { size, scalar } => bounded(size as u32, TypeInner::Scalar(scalar)),
                TypeInner::Matrix { columns, rows, scalar } => {
                    bounded(columns as u32, TypeInner::Vector { size: rows, scalar })
                }
                TypeInner::Array { base, .. } | TypeInner::BindingArray { base, .. } => {
                    Ok(TypeResolution::Handle(base))
                }
                TypeInner::Struct { first, count, .. } => match index {
                    None => Err(Refusal::InvalidAccess { expr: base, indexed }),
                    Some(i) if i >= count as u32 => Err(Refusal::OutOfBoundsIndex { expr: base, index: i }),
                    Some(i) => Ok(TypeResolution::Handle(self.member(first, i))),
                },
                TypeInner::ValuePointer { size: Some(size), scalar, space } => {
                    bounded(size as u32, TypeInner::ValuePointer { size: None, scalar, space })
                }
                TypeInner::Pointer { base: ty, space } => match *self.look(here, ty)? {
                    TypeInner::Vector { size, scalar } => {
                        bounded(size as u32, TypeInner::ValuePointer { size: None, scalar, space })
                    }
                    TypeInner::Matrix { columns, rows, scalar } => {
                        bounded(columns as u32, TypeInner::ValuePointer { size: Some(rows), scalar, space })
                    }
                    TypeInner::Array { base, .. } | TypeInner::BindingArray { base, .. } => {
                        value(TypeInner::Pointer { base, space })
                    }
                    TypeInner::Struct { first, count, .. } => match index {
                        None => Err(Refusal::InvalidSubAccess { ty, indexed }),
                        Some(i) if i >= count as u32 => Err(Refusal::OutOfBoundsIndex { expr: base, index: i }),
                        Some(i) => value(TypeInner::Pointer { base: self.member(first, i), space }),
                    },
                    _ => Err(Refusal::InvalidSubAccess { ty, indexed }),
                },
                _ => Err(Refusal::InvalidAccess { expr: base, indexed }),
            }
        }

        fn load(&self, here: u16, past: &[Answer], pointer: u16) -> Answer {
            match *self.inner(here, self.past(past, pointer)?)? {
                TypeInner::Pointer { base, .. } => match *self.look(here, base)? {
                    TypeInner::Atomic(scalar) => value(TypeInner::Scalar(scalar)),
                    _ => Ok(TypeResolution::Handle(base)),
                },
                TypeInner::ValuePointer { size: Some(size), scalar, .. } => value(TypeInner::Vector { size, scalar }),
                TypeInner::ValuePointer { size: None, scalar, .. } => value(TypeInner::Scalar(scalar)),
                _ => Err(Refusal::InvalidPointer(pointer)),
            }
        }

        fn image(&self, here: u16, past: &[Answer], image: u16) -> Result<(ImageDimension, ImageClass), Refusal> {
            match *self.inner(here, self.past(past, image)?)? {
                TypeInner::Image { dim, class, .. } => Ok((dim, class)),
                _ => Err(Refusal::InvalidImage(image)),
            }
        }

        fn sampled(&self, here: u16, past: &[Answer], image: u16) -> Answer {
            match self.image(here, past, image)?.1 {
                ImageClass::Sampled { kind, .. } => {
                    value(TypeInner::Vector { size: VectorSize::Quad, scalar: Scalar { kind, width: 4 } })
                }
                ImageClass::Depth { .. } => value(TypeInner::Scalar(Scalar::F32)),
                ImageClass::External => value(TypeInner::Vector { size: VectorSize::Quad, scalar: Scalar::F32 }),
                ImageClass::Storage { format, .. } => {
                    value(TypeInner::Vector { size: VectorSize::Quad, scalar: Scalar::of_format(format) })
                }
            }
        }

        fn compared(&self, here: u16, past: &[Answer], n: u16) -> Answer {
            match bools(*self.inner(here, self.past(past, n)?)?) {
                Some(t) => value(t),
                None => Err(Refusal::IncompatibleOperands),
            }
        }

        /// A Binary row in the second pass.
        fn wgsl_binary(&self, here: u16, past: &[Answer], op: BinaryOperator, left: u16, right: u16) -> Answer {
            let a = self.past(past, left)?;
            let b = self.past(past, right)?;
            let t = self.inner(here, a)?;
            let u = self.inner(here, b)?;
            match wgsl(op, *t, *u) {
                Some(t) => value(t),
                None => Err(Refusal::Mismatch),
            }
        }

        fn multiply(&self, here: u16, past: &[Answer], left: u16, right: u16) -> Answer {
            let a = self.past(past, left)?;
            let b = self.past(past, right)?;
            let t = self.inner(here, a)?;
            let u = self.inner(here, b)?;
            match (*t, *u) {
                (TypeInner::Matrix { rows, scalar, .. }, TypeInner::Matrix { columns, .. }) => {
                    value(TypeInner::Matrix { columns, rows, scalar })
                }
                (TypeInner::Matrix { rows, scalar, .. }, TypeInner::Vector { .. }) => {
                    value(TypeInner::Vector { size: rows, scalar })
                }
                (TypeInner::Vector { .. }, TypeInner::Matrix { columns, scalar, .. }) => {
                    value(TypeInner::Vector { size: columns, scalar })
                }
                (TypeInner::Scalar(_), _) => Ok(*b),
                (_, TypeInner::Scalar(_)) => Ok(*a),
                (TypeInner::Vector { .. }, TypeInner::Vector { .. }) => Ok(*a),
                (
                    TypeInner::CooperativeMatrix { rows, scalar, role, .. },
                    TypeInner::CooperativeMatrix { columns, .. },
                ) => value(TypeInner::CooperativeMatrix { columns, rows, scalar, role }),
                _ => Err(Refusal::IncompatibleOperands),
            }
        }

        fn special(&self, kind: usize) -> Answer {
            match self.parts.items[kind].first() {
                Some(f) => Ok(TypeResolution::Handle(half(f, 2))),
                None => Err(Refusal::MissingSpecialType),
            }
        }

        fn resolve(&self, here: u16, e: Expression, past: &[Answer]) -> Answer {
            let item = |kind: usize, n: u16| half(&self.parts.items[kind][n as usize], 2);
            match e {
                Expression::Access { base } => self.access(here, past, base, None),
                Expression::AccessIndex { base, index } => self.access(here, past, base, Some(index)),
                Expression::Splat { size, value: v } => match *self.inner(here, self.past(past, v)?)? {
                    TypeInner::Scalar(scalar) => value(TypeInner::Vector { size, scalar }),
                    _ => Err(Refusal::InvalidScalar(v)),
                },
                Expression::Swizzle { size, vector } => match *self.inner(here, self.past(past, vector)?)? {
                    TypeInner::Vector { scalar, .. } => value(TypeInner::Vector { size, scalar }),
                    _ => Err(Refusal::InvalidVector(vector)),
                },
                Expression::Literal(l) => value(TypeInner::Scalar(match l {
                    Literal::F64 => Scalar { kind: ScalarKind::Float, width: 8 },
                    Literal::F32 => Scalar::F32,
                    Literal::F16 => Scalar { kind: ScalarKind::Float, width: 2 },
                    Literal::U16 => Scalar { kind: ScalarKind::Uint, width: 2 },
                    Literal::I16 => Scalar { kind: ScalarKind::Sint, width: 2 },
                    Literal::U32 => Scalar::U32,
                    Literal::I32 => Scalar { kind: ScalarKind::Sint, width: 4 },
                    Literal::U64 => Scalar { kind: ScalarKind::Uint, width: 8 },
                    Literal::I64 => Scalar { kind: ScalarKind::Sint, width: 8 },
                    Literal::Bool => Scalar::BOOL,
                    Literal::AbstractInt => Scalar { kind: ScalarKind::AbstractInt, width: 8 },
                    Literal::AbstractFloat => Scalar { kind: ScalarKind::AbstractFloat, width: 8 },
                })),
                Expression::Constant(n) => Ok(TypeResolution::Handle(item(1, n))),
                Expression::Override(n) => Ok(TypeResolution::Handle(item(2, n))),
                Expression::ZeroValue(ty)
                | Expression::Compose { ty, .. }
                | Expression::AtomicResult { ty }
                | Expression::SubgroupOperationResult { ty }
                | Expression::WorkGroupUniformLoadResult { ty } => Ok(TypeResolution::Handle(ty)),
                Expression::FunctionArgument(index) => match self.parts.items[4].get(index as usize) {
                    Some(f) => Ok(TypeResolution::Handle(half(f, 2))),
                    None => Err(Refusal::FunctionArgumentNotFound(index)),
                },
                Expression::GlobalVariable(n) => {
                    let f = &self.parts.items[3][n as usize];
                    match space(f[6], f[7]) {
                        AddressSpace::Handle => Ok(TypeResolution::Handle(half(f, 2))),
                        space => value(TypeInner::Pointer { base: half(f, 2), space }),
                    }
                }
                Expression::LocalVariable(n) => {
                    value(TypeInner::Pointer { base: item(5, n), space: AddressSpace::Function })
                }
                Expression::Load { pointer } => self.load(here, past, pointer),
                Expression::ImageSample { image, gather: true } => {
                    let scalar = match self.image(here, past, image)?.1 {
                        ImageClass::Sampled { kind, .. } => Scalar { kind, width: 4 },
                        _ => Scalar::F32,
                    };
                    value(TypeInner::Vector { size: VectorSize::Quad, scalar })
                }
                Expression::ImageSample { image, gather: false } => self.sampled(here, past, image),
                Expression::ImageLoad { image } => self.sampled(here, past, image),
                Expression::ImageQuery { image, query: ImageQuery::Size } => match self.image(here, past, image)?.0 {
                    ImageDimension::D1 => value(TypeInner::Scalar(Scalar::U32)),
                    ImageDimension::D2 | ImageDimension::Cube => {
                        value(TypeInner::Vector { size: VectorSize::Bi, scalar: Scalar::U32 })
                    }
                    ImageDimension::D3 => value(TypeInner::Vector { size: VectorSize::Tri, scalar: Scalar::U32 }),
                },
                Expression::ImageQuery { .. } => value(TypeInner::Scalar(Scalar::U32)),
                Expression::Unary { expr } => Ok(*self.past(past, expr)?),
                Expression::Binary { op, left, right } if self.pass == Pass::Second => {
                    self.wgsl_binary(here, past, op, left, right)
                }
                Expression::Binary { op, left, right } => match op {
                    BinaryOperator::Add
                    | BinaryOperator::Subtract
                    | BinaryOperator::Divide
                    | BinaryOperator::Modulo
                    | BinaryOperator::And
                    | BinaryOperator::ExclusiveOr
                    | BinaryOperator::InclusiveOr
                    | BinaryOperator::ShiftLeft
                    | BinaryOperator::ShiftRight => Ok(*self.past(past, left)?),
                    BinaryOperator::Multiply => self.multiply(here, past, left, right),
                    BinaryOperator::Equal
                    | BinaryOperator::NotEqual
                    | BinaryOperator::Less
                    | BinaryOperator::LessEqual
                    | BinaryOperator::Greater
                    | BinaryOperator::GreaterEqual => self.compared(here, past, left),
                    BinaryOperator::LogicalAnd | BinaryOperator::LogicalOr => {
                        match *self.inner(here, self.past(past, left)?)? {
                            TypeInner::Scalar(Scalar::BOOL) => value(TypeInner::Scalar(Scalar::BOOL)),
                            _ => Err(Refusal::IncompatibleOperands),
                        }
                    }
                },
                Expression::Select { accept } => Ok(*self.past(past, accept)?),
                Expression::Derivative { expr } => Ok(*self.past(past, expr)?),
                Expression::Relational { fun, argument } => match fun {
                    RelationalFunction::All | RelationalFunction::Any => value(TypeInner::Scalar(Scalar::BOOL)),
                    RelationalFunction::IsNan | RelationalFunction::IsInf => self.compared(here, past, argument),
                },
                Expression::Math => Err(Refusal::Newer { row: here }),
                Expression::As { expr, kind, convert } => match *self.inner(here, self.past(past, expr)?)? {
                    TypeInner::Scalar(Scalar { width, .. }) => {
                        value(TypeInner::Scalar(Scalar { kind, width: convert.unwrap_or(width) }))
                    }
                    TypeInner::Vector { size, scalar: Scalar { width, .. } } => {
                        value(TypeInner::Vector { size, scalar: Scalar { kind, width: convert.unwrap_or(width) } })
                    }
                    TypeInner::Matrix { columns, rows, scalar: Scalar { kind, width } } => value(TypeInner::Matrix {
                        columns, rows, scalar: Scalar { kind, width: convert.unwrap_or(width) },
                    }),
                    _ => Err(Refusal::IncompatibleOperands),
                },
                Expression::CallResult(n) => {
                    let f = &self.parts.items[6][n as usize];
                    if f[4] == 1 { Ok(TypeResolution::Handle(half(f, 2))) } else { Err(Refusal::FunctionReturnsVoid) }
                }
                Expression::ArrayLength => value(TypeInner::Scalar(Scalar::U32)),
                Expression::RayQueryProceedResult => value(TypeInner::Scalar(Scalar::BOOL)),
                Expression::RayQueryGetIntersection => self.special(7),
                Expression::RayQueryVertexPositions => self.special(8),
                Expression::SubgroupBallotResult => {
                    value(TypeInner::Vector { size: VectorSize::Quad, scalar: Scalar::U32 })
                }
                Expression::CooperativeLoad { columns, rows, role, pointer } => {
                    let scalar = match *self.inner(here, self.past(past, pointer)?)? {
                        TypeInner::Pointer { base, .. } => match *self.look(here, base)? {
                            TypeInner::Scalar(scalar)
                            | TypeInner::Vector { scalar, .. }
                            | TypeInner::Matrix { scalar, .. }
                            | TypeInner::CooperativeMatrix { scalar, .. } => Some(scalar),
                            _ => None,
                        },
                        TypeInner::ValuePointer { scalar, .. } => Some(scalar),
                        _ => None,
                    };
                    match scalar {
                        Some(scalar) => value(TypeInner::CooperativeMatrix { columns, rows, scalar, role }),
                        None => Err(Refusal::InvalidPointer(pointer)),
                    }
                }
                Expression::CooperativeMultiplyAdd { c } => Ok(*self.past(past, c)?),
            }
        }

        fn is_struct(&self, r: &TypeResolution) -> bool {
            match r {
                TypeResolution::Handle(n) => matches!(self.types[*n as usize], Some(TypeInner::Struct { .. })),
                TypeResolution::Value(_) => false,
            }
        }

        /// The canonical form; none where an unknown kind is looked into.
        fn canonical(&self, r: &TypeResolution) -> Option<TypeInner> {
            let t = match r {
                TypeResolution::Handle(n) => self.types[*n as usize]?,
                TypeResolution::Value(t) => *t,
            };
            Some(match t {
                TypeInner::Pointer { base, space } => match self.types[base as usize]? {
                    TypeInner::Scalar(scalar) => TypeInner::ValuePointer { size: None, scalar, space },
                    TypeInner::Vector { size, scalar } => TypeInner::ValuePointer { size: Some(size), scalar, space },
                    _ => t,
                },
                _ => t,
            })
        }

        fn compare(&self, a: &TypeResolution, b: &TypeResolution) -> Option<bool> {
            if a == b {
                return Some(true);
            }
            if self.is_struct(a) || self.is_struct(b) {
                return Some(false);
            }
            Some(self.canonical(a)? == self.canonical(b)?)
        }

        fn each(
            &self,
            past: &[Answer],
            expected: u32,
            components: &[Frame],
            same: impl Fn(usize, &TypeResolution) -> Option<bool>,
        ) -> Result<(), Fault> {
            let given = components.len() as u32;
            if expected != given {
                return Err(Fault::Count { expected, given });
            }
            for (i, c) in components.iter().enumerate() {
                match &past[half(c, 2) as usize] {
                    Err(Refusal::Newer { .. }) => return Err(Fault::Newer(i as u32)),
                    Err(_) => return Err(Fault::Broken(i as u32)),
                    Ok(r) => match same(i, r) {
                        None => return Err(Fault::Newer(i as u32)),
                        Some(false) => return Err(Fault::Part(i as u32)),
                        Some(true) => {}
                    },
                }
            }
            Ok(())
        }

        fn judge(&self, past: &[Answer], ty: u16, count: u16, first: u32) -> Result<(), Fault> {
            let components = &self.parts.components[first as usize..first as usize + count as usize];
            match self.types[ty as usize] {
                None => Err(Fault::Newer(u32::MAX)),
                Some(TypeInner::Vector { size, scalar }) => {
                    let mut total = 0;
                    for (i, c) in components.iter().enumerate() {
                        let t = match &past[half(c, 2) as usize] {
                            Err(Refusal::Newer { .. }) => return Err(Fault::Newer(i as u32)),
                            Err(_) => return Err(Fault::Broken(i as u32)),
                            Ok(TypeResolution::Handle(n)) => match &self.types[*n as usize] {
                                None => return Err(Fault::Newer(i as u32)),
                                Some(t) => t,
                            },
                            Ok(TypeResolution::Value(t)) => t,
                        };
                        total += match *t {
                            TypeInner::Scalar(s) if s == scalar => 1,
                            TypeInner::Vector { size, scalar: s } if s == scalar => size as u32,
                            _ => return Err(Fault::Part(i as u32)),
                        };
                    }
                    let expected = size as u32;
                    if total == expected { Ok(()) } else { Err(Fault::Count { expected, given: total }) }
                }
                Some(TypeInner::Matrix { columns, rows, scalar }) => {
                    let column = TypeInner::Vector { size: rows, scalar };
                    self.each(past, columns as u32, components, |_, r| match r {
                        TypeResolution::Handle(n) => self.types[*n as usize].map(|t| t == column),
                        TypeResolution::Value(t) => Some(*t == column),
                    })
                }
                Some(TypeInner::Array { base, size: ArraySize::Constant(n), .. }) => {
                    self.each(past, n, components, |_, r| self.compare(&TypeResolution::Handle(base), r))
                }
                Some(TypeInner::Struct { first, count, .. }) => self.each(past, count as u32, components, |i, r| {
                    self.compare(&TypeResolution::Handle(self.member(first, i as u32)), r)
                }),
                Some(_) => Err(Fault::Type),
            }
        }
    }

    pub enum Fault { Type, Count { expected: u32, given: u32 }, Part(u32), Broken(u32), Newer(u32) }

    fn put_half(f: &mut Frame, at: usize, n: u16) {
        f[at..at + 2].copy_from_slice(&n.to_le_bytes());
    }

    fn put_word(f: &mut Frame, at: usize, n: u32) {
        f[at..at + 4].copy_from_slice(&n.to_le_bytes());
    }

    fn put_scalar(f: &mut Frame, s: Scalar) {
        f[4] = s.kind as u8;
        f[5] = s.width;
    }

    fn put_space(f: &mut Frame, space: AddressSpace) {
        let (number, access) = match space {
            AddressSpace::Function => (0, 0),
            AddressSpace::Private => (1, 0),
            AddressSpace::WorkGroup => (2, 0),
            AddressSpace::Uniform => (3, 0),
            AddressSpace::Storage { access } => (4, access),
            AddressSpace::Handle => (5, 0),
            AddressSpace::Immediate => (6, 0),
            AddressSpace::TaskPayload => (7, 0),
            AddressSpace::RayPayload => (8, 0),
            AddressSpace::IncomingRayPayload => (9, 0),
        };
        f[6] = number;
        f[7] = access;
    }

    fn put_size(f: &mut Frame, size: ArraySize) {
        let (form, n) = match size {
            ArraySize::Constant(n) => (0, n),
            ArraySize::Pending(n) => (1, n),
            ArraySize::Dynamic => (2, 0),
        };
        f[4] = form;
        put_word(f, 8, n);
    }

    fn put_type(f: &mut Frame, t: &TypeInner) {
        f[0] = 9;
        match *t {
            TypeInner::Scalar(s) => {
                f[1] = 1;
                put_scalar(f, s);
            }
            TypeInner::Vector { size, scalar } => {
                f[1] = 2;
                f[2] = size as u8;
                put_scalar(f, scalar);
            }
            TypeInner::Matrix { columns, rows, scalar } => {
                f[1] = 3;
                f[2] = columns as u8;
                f[3] = rows as u8;
                put_scalar(f, scalar);
            }
            TypeInner::CooperativeMatrix { columns, rows, scalar, role } => {
                f[1] = 4;
                f[2] = columns as u8;
                f[3] = rows as u8;
                put_scalar(f, scalar);
                f[6] = role as u8;
            }
            TypeInner::Atomic(s) => {
                f[1] = 5;
                put_scalar(f, s);
            }
            TypeInner::Pointer { base, space } => {
                f[1] = 6;
                put_half(f, 2, base);
                put_space(f, space);
            }
            TypeInner::ValuePointer { size, scalar, space } => {
                f[1] = 7;
                f[2] = size.map_or(0, |n| n as u8);
                put_scalar(f, scalar);
                put_space(f, space);
            }
            TypeInner::Array { base, size, stride } => {
                f[1] = 8;
                put_half(f, 2, base);
                put_size(f, size);
                put_word(f, 12, stride);
            }
            TypeInner::Struct { first, count, span } => {
                f[1] = 9;
                put_half(f, 2, first);
                put_half(f, 4, count);
                put_word(f, 12, span);
            }
            TypeInner::Image { dim, arrayed, class } => {
                f[1] = 10;
                f[2] = dim as u8;
                f[3] = arrayed as u8;
                match class {
                    ImageClass::Sampled { kind, multi } => {
                        f[5] = kind as u8;
                        f[6] = multi as u8;
                    }
                    ImageClass::Depth { multi } => {
                        f[4] = 1;
                        f[6] = multi as u8;
                    }
                    ImageClass::External => f[4] = 2,
                    ImageClass::Storage { format, access } => {
                        f[4] = 3;
                        f[5] = format;
                        f[7] = access;
                    }
                }
            }
            TypeInner::Sampler { comparison } => {
                f[1] = 11;
                f[2] = comparison as u8;
            }
            TypeInner::AccelerationStructure { vertex_return } => {
                f[1] = 12;
                f[2] = vertex_return as u8;
            }
            TypeInner::RayQuery { vertex_return } => {
                f[1] = 13;
                f[2] = vertex_return as u8;
            }
            TypeInner::BindingArray { base, size } => {
                f[1] = 14;
                put_half(f, 2, base);
                put_size(f, size);
            }
        }
    }

    fn answer_frame(a: &Answer) -> Frame {
        let mut f = [0; 16];
        match a {
            Ok(TypeResolution::Handle(n)) => {
                f[0] = 8;
                put_half(&mut f, 2, *n);
            }
            Ok(TypeResolution::Value(t)) => put_type(&mut f, t),
            Err(e) => {
                let (number, place, index, indexed) = match *e {
                    Refusal::OutOfBoundsIndex { expr, index } => (10, expr, index, false),
                    Refusal::InvalidAccess { expr, indexed } => (11, expr, 0, indexed),
                    Refusal::InvalidSubAccess { ty, indexed } => (12, ty, 0, indexed),
                    Refusal::InvalidScalar(expr) => (13, expr, 0, false),
                    Refusal::InvalidVector(expr) => (14, expr, 0, false),
                    Refusal::InvalidPointer(expr) => (15, expr, 0, false),
                    Refusal::InvalidImage(expr) => (16, expr, 0, false),
                    Refusal::FunctionReturnsVoid => (17, 0, 0, false),
                    Refusal::IncompatibleOperands => (18, 0, 0, false),
                    Refusal::FunctionArgumentNotFound(index) => (19, 0, index, false),
                    Refusal::MissingSpecialType => (20, 0, 0, false),
                    Refusal::Newer { row } => (22, row, 0, false),
                    Refusal::Mismatch => (41, 0, 0, false),
                };
                f[0] = 10;
                f[1] = number;
                put_half(&mut f, 2, place);
                put_word(&mut f, 4, index);
                f[8] = indexed as u8;
            }
        }
        f
    }

    fn verdict_frame(row: u16, v: Result<(), Fault>) -> Frame {
        let (number, first, given) = match v {
            Ok(()) => (0, 0, 0),
            Err(Fault::Type) => (30, 0, 0),
            Err(Fault::Count { expected, given }) => (31, expected, given),
            Err(Fault::Part(i)) => (32, i, 0),
            Err(Fault::Broken(i)) => (33, i, 0),
            Err(Fault::Newer(i)) => (22, i, 0),
        };
        let mut f = [0; 16];
        f[0] = 11;
        f[1] = number;
        put_half(&mut f, 2, row);
        put_word(&mut f, 4, first);
        put_word(&mut f, 8, given);
        f
    }

    /// Writes every answer and verdict of an accepted file.
    fn answer(frames: &[u8], pass: Pass, answers: &mut [u8]) {
        let parts = parts(frames.as_chunks::<16>().0);
        let types = parts.types.iter().map(type_of).collect();
        let context = Context { pass, parts, types };
        let out = answers.as_chunks_mut::<16>().0;
        let mut past: Vec<Answer> = Vec::with_capacity(context.parts.rows.len());
        let mut at = 0;
        for (k, f) in context.parts.rows.iter().enumerate() {
            let here = k as u16;
            let e = row_of(f);
            let a = match e {
                Some(e) => context.resolve(here, e, &past),
                None => Err(Refusal::Newer { row: here }),
            };
            out[at] = answer_frame(&a);
            at += 1;
            if let Some(Expression::Compose { ty, count, first }) = e {
                out[at] = verdict_frame(here, context.judge(&past, ty, count, first));
                at += 1;
            }
            past.push(a);
        }
    }

    /// Types every row and judges every compose; how many frames an accepted file has.
    pub fn type_rows(
        text: &[u8],
        limit: u32,
        pass: Pass,
        frames: &mut [u8],
        answers: &mut [u8],
    ) -> Result<usize, Refused> {
        let n = reading::read(text, limit, frames, Some(answers.len()))?;
        answer(&frames[..16 * n], pass, answers);
        Ok(n)
    }
}

/// Answers straight on bytes.
pub mod on_bytes {
    use super::reading::{parts, Parts};
    use super::*;

    fn number(n: u16) -> Frame {
        let [a, b] = n.to_le_bytes();
        [8, 0, a, b, 0, 0, 0, 0, 0, 0, 0, 0, 0, 0, 0, 0]
    }

    fn value(kind: u8, b2: u8, b3: u8, b4: u8, b5: u8, b6: u8, b7: u8) -> Frame {
        [9, kind, b2, b3, b4, b5, b6, b7, 0, 0, 0, 0, 0, 0, 0, 0]
    }

    fn scalar(kind: u8, width: u8) -> Frame {
        value(1, 0, 0, kind, width, 0, 0)
    }

    fn vector(size: u8, kind: u8, width: u8) -> Frame {
        value(2, size, 0, kind, width, 0, 0)
    }

    /// A scalar, vector or matrix by value.
    fn as_value(f: &Frame) -> Frame {
        value(f[1], f[2], f[3], f[4], f[5], 0, 0)
    }

    fn pointer(base: u16, like: &Frame) -> Frame {
        let [a, b] = base.to_le_bytes();
        value(6, a, b, 0, 0, like[6], like[7])
    }

    fn refused(number: u8, place: u16, index: u32, indexed: u8) -> Frame {
        let [a, b] = place.to_le_bytes();
        let [c, d, e, g] = index.to_le_bytes();
        [10, number, a, b, c, d, e, g, indexed, 0, 0, 0, 0, 0, 0, 0]
    }

    const LITERALS: [(u8, u8); 12] =
        [(2, 8), (2, 4), (2, 2), (1, 2), (0, 2), (1, 4), (0, 4), (1, 8), (0, 8), (3, 1), (4, 8), (5, 8)];

    struct Typing<'a> {
        pass: Pass,
        parts: &'a Parts<'a>,
        past: &'a [Frame],
        places: &'a [u16],
        here: u16,
    }

    impl<'a> Typing<'a> {
        fn past(&self, n: u16) -> Result<&'a Frame, Frame> {
            let f = &self.past[self.places[n as usize] as usize];
            if f[0] == 10 { Err(*f) } else { Ok(f) }
        }

        fn look(&self, n: u16) -> Result<&'a Frame, Frame> {
            let f = &self.parts.types[n as usize];
            if (1..15).contains(&f[1]) { Ok(f) } else { Err(refused(22, self.here, 0, 0)) }
        }

        fn form(&self, a: &'a Frame) -> Result<&'a Frame, Frame> {
            if a[0] == 8 { self.look(half(a, 2)) } else { Ok(a) }
        }

        fn looked(&self, n: u16) -> Result<&'a Frame, Frame> {
            self.form(self.past(n)?)
        }

        fn access(&self, n: u16, indexed: u8, index: u32) -> Result<Frame, Frame> {
            let f = self.looked(n)?;
            let through = f[1] == 6;
            let g = if through { self.look(half(f, 2))? } else { f };
            let bound = match g[1] {
                8 | 14 => {
                    let base = half(g, 2);
                    return Ok(if through { pointer(base, f) } else { number(base) });
                }
                2 | 3 => g[2] as u32,
                7 if !through && g[2] != 0 => g[2] as u32,
                9 if indexed == 1 => half(g, 4) as u32,
                _ if through => return Err(refused(12, half(f, 2), 0, indexed)),
                _ => return Err(refused(11, n, 0, indexed)),
            };
            if indexed == 1 && index >= bound {
                return Err(refused(10, n, index, 0));
            }
            Ok(if g[1] == 9 {
                let base = half(&self.parts.members[half(g, 2) as usize + index as usize], 2);
                if through { pointer(base, f) } else { number(base) }
            } else if through || g[1] == 7 {
                value(7, if g[1] == 3 { g[3] } else { 0 }, 0, g[4], g[5], f[6], f[7])
            } else if g[1] == 3 {
                vector(g[3], g[4], g[5])
            } else {
                scalar(g[4], g[5])
            })
        }

        fn bools(&self, f: &Frame) -> Result<Frame, Frame> {
            match f[1] {
                1 => Ok(scalar(3, 1)),
                2 => Ok(vector(f[2], 3, 1)),
                _ => Err(refused(18, 0, 0, 0)),
            }
        }

        fn binary(&self, row: &Frame) -> Result<Frame, Frame> {
            let a = self.past(half(row, 2))?;
            match row[6] {
                2 => {
                    let b = self.past(half(row, 4))?;
                    let f = self.form(a)?;
                    let g = self.form(b)?;
                    match (f[1], g[1]) {
                        (3, 3) => Ok(value(3, g[2], f[3], f[4], f[5], 0, 0)),
                        (3, 2) => Ok(vector(f[3], f[4], f[5])),
                        (2, 3) => Ok(vector(g[2], g[4], g[5])),
                        (1, _) => Ok(*b),
                        (_, 1) | (2, 2) => Ok(*a),
                        (4, 4) => Ok(value(4, g[2], f[3], f[4], f[5], f[6], 0)),
                        _ => Err(refused(18, 0, 0, 0)),
                    }
                }
                5..=10 => self.bools(self.form(a)?),
                14 | 15 => {
                    let f = self.form(a)?;
                    if (f[1], f[4], f[5]) == (1, 3, 1) { Ok(scalar(3, 1)) } else { Err(refused(18, 0, 0, 0)) }
                }
                _ => Ok(*a),
            }
        }

        /// A Binary row in the second pass.
        fn wgsl(&self, row: &Frame) -> Result<Frame, Frame> {
            let a = self.past(half(row, 2))?;
            let b = self.past(half(row, 4))?;
            let f = self.form(a)?;
            let g = self.form(b)?;
            let like = f[1..6] == g[1..6];
            let of_one = f[4..6] == g[4..6];
            let integer = f[4] < 2;
            let float = f[4] == 2;
            let numeric = f[4] < 3;
            let bool = (f[4], f[5]) == (3, 1);
            Ok(match (row[6], f[1], g[1]) {
                (0..=4, 1, 1) | (0..=4, 2, 2) if like && numeric => as_value(f),
                (0..=4, 2, 1) if of_one && numeric => as_value(f),
                (0..=4, 1, 2) if of_one && numeric => as_value(g),
                (0 | 1, 3, 3) if like && float => as_value(f),
                (2, 3, 1) if of_one && float => as_value(f),
                (2, 1, 3) if of_one && float => as_value(g),
                (2, 3, 2) if of_one && float && f[2] == g[2] => vector(f[3], f[4], f[5]),
                (2, 2, 3) if of_one && float && f[2] == g[3] => vector(g[2], g[4], g[5]),
                (2, 3, 3) if of_one && float && f[2] == g[3] => value(3, g[2], f[3], f[4], f[5], 0, 0),
                (5 | 6, 1, 1) | (5 | 6, 2, 2) if like && (numeric || bool) => value(f[1], f[2], 0, 3, 1, 0, 0),
                (7..=10, 1, 1) | (7..=10, 2, 2) if like && numeric => value(f[1], f[2], 0, 3, 1, 0, 0),
                (11 | 13, 1, 1) | (11 | 13, 2, 2) if like && (integer || bool) => as_value(f),
                (12, 1, 1) | (12, 2, 2) if like && integer => as_value(f),
                (14 | 15, 1, 1) if like && bool => as_value(f),
                (16 | 17, 1, 1) | (16 | 17, 2, 2) if integer && f[2] == g[2] && (g[4], g[5]) == (1, 4) => as_value(f),
                _ => return Err(refused(41, 0, 0, 0)),
            })
        }

        fn special(&self, kind: usize) -> Result<Frame, Frame> {
            match self.parts.items[kind].first() {
                Some(f) => Ok(number(half(f, 2))),
                None => Err(refused(20, 0, 0, 0)),
            }
        }

        fn sampled(&self, n: u16) -> Result<Frame, Frame> {
            let f = self.looked(n)?;
            if f[1] != 10 {
                return Err(refused(16, n, 0, 0));
            }
            match f[4] {
                0 => Ok(vector(4, f[5], 4)),
                1 => Ok(scalar(2, 4)),
                2 => Ok(vector(4, 2, 4)),
                _ => {
                    let kind = match f[5] {
                        2 | 4 | 9 | 11 | 14 | 19 | 22 | 25 | 26 | 29 | 32 => 1,
                        3 | 5 | 10 | 12 | 15 | 20 | 27 | 30 | 33 => 0,
                        _ => 2,
                    };
                    Ok(vector(4, kind, if f[5] == 25 { 8 } else { 4 }))
                }
            }
        }

        fn resolve(&self, row: &Frame) -> Result<Frame, Frame> {
            let n = half(row, 2);
            let item = |kind: usize| &self.parts.items[kind][n as usize];
            match row[1] {
                1 => {
                    let (kind, width) = LITERALS[row[6] as usize];
                    Ok(scalar(kind, width))
                }
                2 => Ok(number(half(item(1), 2))),
                3 => Ok(number(half(item(2), 2))),
                4 | 5 | 25 | 26 | 32 => Ok(number(n)),
                6 => self.access(n, 0, 0),
                7 => self.access(n, 1, word(row, 12)),
                8 => {
                    let f = self.looked(n)?;
                    if f[1] == 1 { Ok(vector(row[6], f[4], f[5])) } else { Err(refused(13, n, 0, 0)) }
                }
                9 => {
                    let f = self.looked(n)?;
                    if f[1] == 2 { Ok(vector(row[6], f[4], f[5])) } else { Err(refused(14, n, 0, 0)) }
                }
                10 => match self.parts.items[4].get(word(row, 12) as usize) {
                    Some(f) => Ok(number(half(f, 2))),
                    None => Err(refused(19, 0, word(row, 12), 0)),
                },
                11 => {
                    let f = item(3);
                    Ok(if f[6] == 5 { number(half(f, 2)) } else { pointer(half(f, 2), f) })
                }
                12 => Ok(pointer(half(item(5), 2), &[0; 16])),
                13 => {
                    let f = self.looked(n)?;
                    match f[1] {
                        6 => {
                            let g = self.look(half(f, 2))?;
                            Ok(if g[1] == 5 { scalar(g[4], g[5]) } else { number(half(f, 2)) })
                        }
                        7 => Ok(if f[2] == 0 { scalar(f[4], f[5]) } else { vector(f[2], f[4], f[5]) }),
                        _ => Err(refused(15, n, 0, 0)),
                    }
                }
                14 if row[6] == 1 => {
                    let f = self.looked(n)?;
                    if f[1] != 10 {
                        return Err(refused(16, n, 0, 0));
                    }
                    Ok(vector(4, if f[4] == 0 { f[5] } else { 2 }, 4))
                }
                14 | 15 => self.sampled(n),
                16 if row[6] == 0 => {
                    let f = self.looked(n)?;
                    if f[1] != 10 {
                        return Err(refused(16, n, 0, 0));
                    }
                    Ok(match f[2] {
                        1 => scalar(1, 4),
                        3 => vector(3, 1, 4),
                        _ => vector(2, 1, 4),
                    })
                }
                16 | 27 => Ok(scalar(1, 4)),
                17 | 19 | 20 | 34 => Ok(*self.past(n)?),
                18 if self.pass == Pass::Second => self.wgsl(row),
                18 => self.binary(row),
                21 if row[6] > 1 => self.bools(self.looked(n)?),
                21 | 29 => Ok(scalar(3, 1)),
                23 => {
                    let f = self.looked(n)?;
                    let width = if row[7] == 1 { row[8] } else { f[5] };
                    match f[1] {
                        1 => Ok(scalar(row[6], width)),
                        2 => Ok(vector(f[2], row[6], width)),
                        3 => Ok(value(3, f[2], f[3], f[4], width, 0, 0)),
                        _ => Err(refused(18, 0, 0, 0)),
                    }
                }
                24 => {
                    let f = item(6);
                    if f[4] == 1 { Ok(number(half(f, 2))) } else { Err(refused(17, 0, 0, 0)) }
                }
                28 => self.special(8),
                30 => self.special(7),
                31 => Ok(vector(4, 1, 4)),
                33 => {
                    let f = self.looked(n)?;
                    let (g, good) = match f[1] {
                        6 => {
                            let g = self.look(half(f, 2))?;
                            (g, (1..5).contains(&g[1]))
                        }
                        _ => (f, f[1] == 7),
                    };
                    if good { Ok(value(4, row[6], row[7], g[4], g[5], row[8], 0)) } else { Err(refused(15, n, 0, 0)) }
                }
                _ => Err(refused(22, self.here, 0, 0)),
            }
        }

        fn is_struct(&self, a: &Frame) -> bool {
            a[0] == 8 && self.parts.types[half(a, 2) as usize][1] == 9
        }

        /// The canonical form of a form; none where an unknown kind is looked into.
        fn canonical(&self, f: &Frame) -> Option<Frame> {
            let mut out = *f;
            out[0] = 9;
            if f[1] == 6 {
                let g = self.look(half(f, 2)).ok()?;
                if g[1] == 1 || g[1] == 2 {
                    out = value(7, g[2], 0, g[4], g[5], f[6], f[7]);
                }
            }
            Some(out)
        }

        /// Whether an answer is of type `base`; none where an unknown kind is looked into.
        fn same(&self, base: u16, a: &'a Frame) -> Option<bool> {
            if a[0] == 8 && half(a, 2) == base {
                return Some(true);
            }
            if self.parts.types[base as usize][1] == 9 || self.is_struct(a) {
                return Some(false);
            }
            let f = self.look(base).ok()?;
            let g = self.form(a).ok()?;
            Some(self.canonical(f)? == self.canonical(g)?)
        }

        /// The verdict's number, and its two numbers.
        fn judge(&self, row: &Frame) -> (u8, u32, u32) {
            let t = &self.parts.types[half(row, 2) as usize];
            let count = half(row, 4) as usize;
            let first = word(row, 12) as usize;
            let components = &self.parts.components[first..first + count];
            let expected = match t[1] {
                2 => {
                    let mut total = 0;
                    for (i, c) in components.iter().enumerate() {
                        let a = &self.past[self.places[half(c, 2) as usize] as usize];
                        if a[0] == 10 {
                            return (if a[1] == 22 { 22 } else { 33 }, i as u32, 0);
                        }
                        let Ok(f) = self.form(a) else { return (22, i as u32, 0) };
                        if (f[1] != 1 && f[1] != 2) || f[4] != t[4] || f[5] != t[5] {
                            return (32, i as u32, 0);
                        }
                        total += if f[1] == 1 { 1 } else { f[2] as u32 };
                    }
                    let size = t[2] as u32;
                    return if total == size { (0, 0, 0) } else { (31, size, total) };
                }
                3 => t[2] as u32,
                8 if t[4] == 0 => word(t, 8),
                9 => half(t, 4) as u32,
                1..15 => return (30, 0, 0),
                _ => return (22, u32::MAX, 0),
            };
            if expected != count as u32 {
                return (31, expected, count as u32);
            }
            for (i, c) in components.iter().enumerate() {
                let a = &self.past[self.places[half(c, 2) as usize] as usize];
                if a[0] == 10 {
                    return (if a[1] == 22 { 22 } else { 33 }, i as u32, 0);
                }
                let same = match t[1] {
                    3 => self.form(a).ok().map(|f| (f[1], f[2], f[4], f[5]) == (2, t[3], t[4], t[5])),
                    8 => self.same(half(t, 2), a),
                    _ => self.same(half(&self.parts.members[half(t, 2) as usize + i], 2), a),
                };
                match same {
                    None => return (22, i as u32, 0),
                    Some(false) => return (32, i as u32, 0),
                    Some(true) => {}
                }
            }
            (0, 0, 0)
        }
    }

    /// Writes every answer and verdict of an accepted file.
    fn answer(frames: &[u8], pass: Pass, answers: &mut [u8]) {
        let parts = parts(frames.as_chunks::<16>().0);
        let out = answers.as_chunks_mut::<16>().0;
        let mut places = [0u16; 1024];
        let mut at = 0;
        for (k, row) in parts.rows.iter().enumerate() {
            let here = k as u16;
            let (past, rest) = out.split_at_mut(at);
            let typing = Typing { pass, parts: &parts, past, places: &places[..k], here };
            rest[0] = match typing.resolve(row) {
                Ok(f) | Err(f) => f,
            };
            let mut next = at + 1;
            if row[1] == 5 {
                let (number, first, given) = typing.judge(row);
                let [a, b] = here.to_le_bytes();
                let [c, d, e, f] = first.to_le_bytes();
                let [g, h, i, j] = given.to_le_bytes();
                rest[1] = [11, number, a, b, c, d, e, f, g, h, i, j, 0, 0, 0, 0];
                next += 1;
            }
            places[k] = at as u16;
            at = next;
        }
    }

    /// Types every row and judges every compose; how many frames an accepted file has.
    pub fn type_rows(
        text: &[u8],
        limit: u32,
        pass: Pass,
        frames: &mut [u8],
        answers: &mut [u8],
    ) -> Result<usize, Refused> {
        let n = reading::read(text, limit, frames, Some(answers.len()))?;
        answer(&frames[..16 * n], pass, answers);
        Ok(n)
    }
}
