//! Frames to the source's module and expressions, and its answers to frames.

use super::{
    ask::Answer,
    file::{digits, four, two, Fault, File, Frame},
};
use crate::{
    non_max_u32::NonMaxU32,
    proc::{ResolveError, TypeResolution},
    valid::ComposeError,
    *,
};
use std::prelude::v1::*;

type Got<T> = Result<T, Fault>;

pub struct Read {
    pub module: Module,
    pub locals: Arena<LocalVariable>,
    pub arguments: Vec<FunctionArgument>,
    /// None: Math, or a row of unknown kind.
    pub rows: Vec<Option<Expression>>,
}

fn bad<T>(what: &str, frame: &Frame) -> Got<T> {
    Err(Fault::bad(format!("{what}: {}", digits(frame))))
}

pub fn handle<T>(number: usize) -> Handle<T> {
    Handle::new(NonMaxU32::new(number as u32).unwrap())
}

/// What no rule reads. It is past every arena, so reading it would be a panic.
fn unread<T>() -> Handle<T> {
    handle(u32::MAX as usize - 1)
}

fn named<T>(number: usize, below: usize, frame: &Frame) -> Got<Handle<T>> {
    if number >= below {
        return bad("names what is not there or not earlier", frame);
    }
    Ok(handle(number))
}

fn only(frame: &Frame, used: &[usize]) -> Got<()> {
    match (2..16).all(|at| frame[at] == 0 || used.contains(&at)) {
        true => Ok(()),
        false => bad("an unused byte is not zero", frame),
    }
}

fn flag(frame: &Frame, at: usize) -> Got<bool> {
    match frame[at] {
        0 => Ok(false),
        1 => Ok(true),
        _ => bad("flag", frame),
    }
}

fn kind(frame: &Frame, at: usize) -> Got<ScalarKind> {
    use ScalarKind::*;
    match [Sint, Uint, Float, Bool, AbstractInt, AbstractFloat].get(frame[at] as usize) {
        Some(kind) => Ok(*kind),
        None => bad("scalar kind", frame),
    }
}

/// Document 02, request 2: the source takes any byte.
fn width(frame: &Frame, at: usize) -> Got<u8> {
    match frame[at] {
        1 | 2 | 4 | 8 => Ok(frame[at]),
        _ => bad("width", frame),
    }
}

fn scalar(frame: &Frame) -> Got<Scalar> {
    Ok(Scalar {
        kind: kind(frame, 4)?,
        width: width(frame, 5)?,
    })
}

fn size(frame: &Frame, at: usize) -> Got<VectorSize> {
    match frame[at] {
        2 => Ok(VectorSize::Bi),
        3 => Ok(VectorSize::Tri),
        4 => Ok(VectorSize::Quad),
        _ => bad("size", frame),
    }
}

fn wide(frame: &Frame, at: usize) -> Got<CooperativeSize> {
    match frame[at] {
        8 => Ok(CooperativeSize::Eight),
        16 => Ok(CooperativeSize::Sixteen),
        _ => bad("size", frame),
    }
}

fn role(frame: &Frame, at: usize) -> Got<CooperativeRole> {
    match frame[at] {
        0 => Ok(CooperativeRole::A),
        1 => Ok(CooperativeRole::B),
        2 => Ok(CooperativeRole::C),
        _ => bad("role", frame),
    }
}

fn access(frame: &Frame) -> Got<StorageAccess> {
    match frame[7] {
        0..=7 => Ok(StorageAccess::from_bits_retain(frame[7] as u32)),
        _ => bad("access", frame),
    }
}

fn space(frame: &Frame) -> Got<AddressSpace> {
    use AddressSpace::*;
    if frame[6] != 4 && frame[7] != 0 {
        return bad("access", frame);
    }
    Ok(match frame[6] {
        0 => Function,
        1 => Private,
        2 => WorkGroup,
        3 => Uniform,
        4 => Storage {
            access: access(frame)?,
        },
        5 => Handle,
        6 => Immediate,
        7 => TaskPayload,
        8 => RayPayload,
        9 => IncomingRayPayload,
        _ => return bad("space", frame),
    })
}

fn count(frame: &Frame, overrides: usize) -> Got<ArraySize> {
    let number = four(frame, 8);
    match (frame[4], core::num::NonZeroU32::new(number)) {
        (0, Some(count)) => Ok(ArraySize::Constant(count)),
        (1, _) => Ok(ArraySize::Pending(named(number as usize, overrides, frame)?)),
        (2, None) => Ok(ArraySize::Dynamic),
        _ => bad("count", frame),
    }
}

const FORMATS: [StorageFormat; 41] = {
    use StorageFormat::*;
    [
        R8Unorm, R8Snorm, R8Uint, R8Sint, R16Uint, R16Sint, R16Float, Rg8Unorm, Rg8Snorm, Rg8Uint,
        Rg8Sint, R32Uint, R32Sint, R32Float, Rg16Uint, Rg16Sint, Rg16Float, Rgba8Unorm, Rgba8Snorm,
        Rgba8Uint, Rgba8Sint, Bgra8Unorm, Rgb10a2Uint, Rgb10a2Unorm, Rg11b10Ufloat, R64Uint,
        Rg32Uint, Rg32Sint, Rg32Float, Rgba16Uint, Rgba16Sint, Rgba16Float, Rgba32Uint, Rgba32Sint,
        Rgba32Float, R16Unorm, R16Snorm, Rg16Unorm, Rg16Snorm, Rgba16Unorm, Rgba16Snorm,
    ]
};

fn class(frame: &Frame) -> Got<ImageClass> {
    Ok(match frame[4] {
        0 => ImageClass::Sampled {
            kind: kind(frame, 5)?,
            multi: flag(frame, 6)?,
        },
        1 => ImageClass::Depth {
            multi: flag(frame, 6)?,
        },
        2 => ImageClass::External,
        3 => ImageClass::Storage {
            format: match FORMATS.get(frame[5] as usize) {
                Some(format) => *format,
                None => return bad("format", frame),
            },
            access: access(frame)?,
        },
        _ => return bad("class", frame),
    })
}

fn members(file: &File, frame: &Frame, below: usize) -> Got<Vec<StructMember>> {
    let first = two(frame, 2);
    let Some(range) = file.members.get(first..first + two(frame, 4)) else {
        return bad("range", frame);
    };
    let member = |frame: &Frame| {
        Ok(StructMember {
            name: None,
            ty: named(two(frame, 2), below, frame)?,
            binding: None,
            offset: four(frame, 12),
        })
    };
    range.iter().map(member).collect()
}

/// A type that names types below `below`. None: of unknown kind.
pub fn inner(file: &File, frame: &Frame, below: usize) -> Got<Option<TypeInner>> {
    let overrides = file.items[2].len();
    let inner = match frame[1] {
        1 => TypeInner::Scalar(scalar(frame)?),
        2 => TypeInner::Vector {
            size: size(frame, 2)?,
            scalar: scalar(frame)?,
        },
        3 => TypeInner::Matrix {
            columns: size(frame, 2)?,
            rows: size(frame, 3)?,
            scalar: scalar(frame)?,
        },
        4 => TypeInner::CooperativeMatrix {
            columns: wide(frame, 2)?,
            rows: wide(frame, 3)?,
            scalar: scalar(frame)?,
            role: role(frame, 6)?,
        },
        5 => TypeInner::Atomic(scalar(frame)?),
        6 => TypeInner::Pointer {
            base: named(two(frame, 2), below, frame)?,
            space: space(frame)?,
        },
        7 => TypeInner::ValuePointer {
            size: match frame[2] {
                0 => None,
                _ => Some(size(frame, 2)?),
            },
            scalar: scalar(frame)?,
            space: space(frame)?,
        },
        8 => TypeInner::Array {
            base: named(two(frame, 2), below, frame)?,
            size: count(frame, overrides)?,
            stride: four(frame, 12),
        },
        9 => {
            only(frame, &[2, 3, 4, 5, 12, 13, 14, 15])?;
            return Ok(Some(TypeInner::Struct {
                members: members(file, frame, below)?,
                span: four(frame, 12),
            }));
        }
        10 => TypeInner::Image {
            dim: match frame[2] {
                1 => ImageDimension::D1,
                2 => ImageDimension::D2,
                3 => ImageDimension::D3,
                4 => ImageDimension::Cube,
                _ => return bad("dimension", frame),
            },
            arrayed: flag(frame, 3)?,
            class: class(frame)?,
        },
        11 => TypeInner::Sampler {
            comparison: flag(frame, 2)?,
        },
        12 => TypeInner::AccelerationStructure {
            vertex_return: flag(frame, 2)?,
        },
        13 => TypeInner::RayQuery {
            vertex_return: flag(frame, 2)?,
        },
        14 => TypeInner::BindingArray {
            base: named(two(frame, 2), below, frame)?,
            size: count(frame, overrides)?,
        },
        _ => return Ok(None),
    };
    // What is laid again is the frame itself, or a byte was left unread.
    if laid(&inner)[1..] != frame[1..] {
        return bad("an unused byte is not zero", frame);
    }
    Ok(Some(inner))
}

fn put_scalar(frame: &mut Frame, scalar: Scalar) {
    (frame[4], frame[5]) = (scalar.kind as u8, scalar.width);
}

fn put_two(frame: &mut Frame, at: usize, number: usize) {
    frame[at..at + 2].copy_from_slice(&(number as u16).to_le_bytes());
}

fn put_four(frame: &mut Frame, at: usize, number: u32) {
    frame[at..at + 4].copy_from_slice(&number.to_le_bytes());
}

fn put_space(frame: &mut Frame, space: AddressSpace) {
    frame[6] = match space {
        AddressSpace::Function => 0,
        AddressSpace::Private => 1,
        AddressSpace::WorkGroup => 2,
        AddressSpace::Uniform => 3,
        AddressSpace::Storage { access } => {
            frame[7] = access.bits() as u8;
            4
        }
        AddressSpace::Handle => 5,
        AddressSpace::Immediate => 6,
        AddressSpace::TaskPayload => 7,
        AddressSpace::RayPayload => 8,
        AddressSpace::IncomingRayPayload => 9,
    };
}

fn put_count(frame: &mut Frame, count: ArraySize) {
    let (form, number) = match count {
        ArraySize::Constant(count) => (0, count.get()),
        ArraySize::Pending(of) => (1, of.index() as u32),
        ArraySize::Dynamic => (2, 0),
    };
    frame[4] = form;
    put_four(frame, 8, number);
}

/// A value, laid as a type.
fn laid(inner: &TypeInner) -> Frame {
    let mut frame = [0; 16];
    frame[0] = 9;
    frame[1] = match *inner {
        TypeInner::Scalar(scalar) => {
            put_scalar(&mut frame, scalar);
            1
        }
        TypeInner::Vector { size, scalar } => {
            frame[2] = size as u8;
            put_scalar(&mut frame, scalar);
            2
        }
        TypeInner::Matrix {
            columns,
            rows,
            scalar,
        } => {
            (frame[2], frame[3]) = (columns as u8, rows as u8);
            put_scalar(&mut frame, scalar);
            3
        }
        TypeInner::CooperativeMatrix {
            columns,
            rows,
            scalar,
            role,
        } => {
            (frame[2], frame[3], frame[6]) = (columns as u8, rows as u8, role as u8);
            put_scalar(&mut frame, scalar);
            4
        }
        TypeInner::Atomic(scalar) => {
            put_scalar(&mut frame, scalar);
            5
        }
        TypeInner::Pointer { base, space } => {
            put_two(&mut frame, 2, base.index());
            put_space(&mut frame, space);
            6
        }
        TypeInner::ValuePointer {
            size,
            scalar,
            space,
        } => {
            frame[2] = size.map_or(0, |size| size as u8);
            put_scalar(&mut frame, scalar);
            put_space(&mut frame, space);
            7
        }
        TypeInner::Array { base, size, stride } => {
            put_two(&mut frame, 2, base.index());
            put_count(&mut frame, size);
            put_four(&mut frame, 12, stride);
            8
        }
        TypeInner::Struct { .. } => panic!("a struct as a value"),
        TypeInner::Image {
            dim,
            arrayed,
            class,
        } => {
            (frame[2], frame[3]) = (dim as u8 + 1, arrayed as u8);
            match class {
                ImageClass::Sampled { kind, multi } => {
                    (frame[4], frame[5], frame[6]) = (0, kind as u8, multi as u8);
                }
                ImageClass::Depth { multi } => (frame[4], frame[6]) = (1, multi as u8),
                ImageClass::External => frame[4] = 2,
                ImageClass::Storage { format, access } => {
                    (frame[4], frame[5], frame[7]) = (3, format as u8, access.bits() as u8);
                }
            }
            10
        }
        TypeInner::Sampler { comparison } => {
            frame[2] = comparison as u8;
            11
        }
        TypeInner::AccelerationStructure { vertex_return } => {
            frame[2] = vertex_return as u8;
            12
        }
        TypeInner::RayQuery { vertex_return } => {
            frame[2] = vertex_return as u8;
            13
        }
        TypeInner::BindingArray { base, size } => {
            put_two(&mut frame, 2, base.index());
            put_count(&mut frame, size);
            14
        }
    };
    frame
}

const LITERALS: [Literal; 12] = [
    Literal::F64(0.0),
    Literal::F32(0.0),
    Literal::F16(half::f16::ZERO),
    Literal::U16(0),
    Literal::I16(0),
    Literal::U32(0),
    Literal::I32(0),
    Literal::U64(0),
    Literal::I64(0),
    Literal::Bool(false),
    Literal::AbstractInt(0),
    Literal::AbstractFloat(0.0),
];

const OPERATORS: [BinaryOperator; 18] = {
    use BinaryOperator::*;
    [
        Add, Subtract, Multiply, Divide, Modulo, Equal, NotEqual, Less, LessEqual, Greater,
        GreaterEqual, And, ExclusiveOr, InclusiveOr, LogicalAnd, LogicalOr, ShiftLeft, ShiftRight,
    ]
};

/// The bytes that rows of a known kind use.
fn used(row: &Frame) -> &'static [usize] {
    match row[1] {
        1 => &[6],
        5 => &[2, 3, 4, 5, 12, 13, 14, 15],
        7 => &[2, 3, 12, 13, 14, 15],
        8 | 9 | 14 => &[2, 3, 6],
        10 => &[12, 13, 14, 15],
        16 if row[6] == 0 => &[2, 3, 6],
        21 if row[6] > 1 => &[2, 3, 6],
        16 | 21 => &[6],
        18 => &[2, 3, 4, 5, 6],
        23 if row[7] == 0 => &[2, 3, 6],
        23 | 33 => &[2, 3, 6, 7, 8],
        27..=31 => &[],
        _ => &[2, 3],
    }
}

/// Row `at`. None: Math, or of unknown kind.
fn expression(file: &File, at: usize) -> Got<Option<Expression>> {
    let row = &file.rows[at];
    if !matches!(row[1], 1..=21 | 23..=34) {
        return Ok(None);
    }
    only(row, used(row))?;
    let number = two(row, 2);
    let operand = || named::<Expression>(number, at, row);
    let ty = || named::<Type>(number, file.types.len(), row);
    let items = |kind: usize| file.items[kind].len();
    Ok(Some(match row[1] {
        1 => match LITERALS.get(row[6] as usize) {
            Some(literal) => Expression::Literal(*literal),
            None => return bad("literal", row),
        },
        2 => Expression::Constant(named(number, items(1), row)?),
        3 => Expression::Override(named(number, items(2), row)?),
        4 => Expression::ZeroValue(ty()?),
        5 => Expression::Compose {
            ty: ty()?,
            components: {
                let parts = parts(file, row);
                let Some(parts) = parts else {
                    return bad("range", row);
                };
                let part = |part: &Frame| named(two(part, 2), at, part);
                parts.iter().map(part).collect::<Got<_>>()?
            },
        },
        6 => Expression::Access {
            base: operand()?,
            index: unread(),
        },
        7 => Expression::AccessIndex {
            base: operand()?,
            index: four(row, 12),
        },
        8 => Expression::Splat {
            size: size(row, 6)?,
            value: operand()?,
        },
        9 => Expression::Swizzle {
            size: size(row, 6)?,
            vector: operand()?,
            pattern: SwizzleComponent::XYZW,
        },
        10 => Expression::FunctionArgument(four(row, 12)),
        11 => Expression::GlobalVariable(named(number, items(3), row)?),
        12 => Expression::LocalVariable(named(number, items(5), row)?),
        13 => Expression::Load {
            pointer: operand()?,
        },
        14 => Expression::ImageSample {
            image: operand()?,
            sampler: unread(),
            gather: flag(row, 6)?.then_some(SwizzleComponent::X),
            coordinate: unread(),
            array_index: None,
            offset: None,
            level: SampleLevel::Auto,
            depth_ref: None,
            clamp_to_edge: false,
        },
        15 => Expression::ImageLoad {
            image: operand()?,
            coordinate: unread(),
            array_index: None,
            sample: None,
            level: None,
        },
        16 => Expression::ImageQuery {
            image: match row[6] {
                0 => operand()?,
                _ => unread(),
            },
            query: match row[6] {
                0 => ImageQuery::Size { level: None },
                1 => ImageQuery::NumLevels,
                2 => ImageQuery::NumLayers,
                3 => ImageQuery::NumSamples,
                _ => return bad("query", row),
            },
        },
        17 => Expression::Unary {
            op: UnaryOperator::Negate,
            expr: operand()?,
        },
        18 => Expression::Binary {
            op: match OPERATORS.get(row[6] as usize) {
                Some(operator) => {
                    assert_eq!(*operator as u8, row[6]);
                    *operator
                }
                None => return bad("operator", row),
            },
            left: operand()?,
            right: named(two(row, 4), at, row)?,
        },
        19 => Expression::Select {
            condition: unread(),
            accept: operand()?,
            reject: unread(),
        },
        20 => Expression::Derivative {
            axis: DerivativeAxis::X,
            ctrl: DerivativeControl::None,
            expr: operand()?,
        },
        21 => Expression::Relational {
            fun: match row[6] {
                0 => RelationalFunction::All,
                1 => RelationalFunction::Any,
                2 => RelationalFunction::IsNan,
                3 => RelationalFunction::IsInf,
                _ => return bad("relational", row),
            },
            argument: match row[6] {
                0 | 1 => unread(),
                _ => operand()?,
            },
        },
        23 => Expression::As {
            expr: operand()?,
            kind: kind(row, 6)?,
            convert: match flag(row, 7)? {
                true => Some(width(row, 8)?),
                false => None,
            },
        },
        24 => Expression::CallResult(named(number, items(6), row)?),
        25 => Expression::AtomicResult {
            ty: ty()?,
            comparison: false,
        },
        26 => Expression::WorkGroupUniformLoadResult { ty: ty()? },
        27 => Expression::ArrayLength(unread()),
        28 => Expression::RayQueryVertexPositions {
            query: unread(),
            committed: false,
        },
        29 => Expression::RayQueryProceedResult,
        30 => Expression::RayQueryGetIntersection {
            query: unread(),
            committed: false,
        },
        31 => Expression::SubgroupBallotResult,
        32 => Expression::SubgroupOperationResult { ty: ty()? },
        33 => Expression::CooperativeLoad {
            columns: wide(row, 6)?,
            rows: wide(row, 7)?,
            role: role(row, 8)?,
            data: CooperativeData {
                pointer: operand()?,
                stride: unread(),
                row_major: false,
            },
        },
        _ => Expression::CooperativeMultiplyAdd {
            a: unread(),
            b: unread(),
            c: operand()?,
        },
    }))
}

/// The components of a compose.
pub fn parts<'a>(file: &'a File, row: &Frame) -> Option<&'a [Frame]> {
    let first = four(row, 12) as usize;
    file.components.get(first..first + two(row, 4))
}

pub fn read(file: &File) -> Got<Read> {
    let mut module = Module::default();
    let types = file.types.len();
    for (at, frame) in file.types.iter().enumerate() {
        let inner = inner(file, frame, at)?;
        let closed = inner.is_none();
        let ty = Type {
            // A name of its own, so that no two types are one.
            name: Some(format!("type {at}")),
            // Of unknown kind: a dummy, and closed, so that no answer rests on it.
            inner: inner.unwrap_or(TypeInner::Sampler { comparison: false }),
        };
        assert_eq!(module.types.insert(ty, closed).index(), at);
    }
    for member in &file.members {
        only(member, &[2, 3, 12, 13, 14, 15])?;
        named::<Type>(two(member, 2), types, member)?;
    }
    let ty = |item: &Frame| named::<Type>(two(item, 2), types, item);
    for kind in [1, 2, 4, 5, 7, 8] {
        for item in &file.items[kind] {
            only(item, &[2, 3])?;
        }
    }
    for item in &file.items[1] {
        module.constants.append(Constant {
            name: None,
            ty: ty(item)?,
            init: unread(),
        });
    }
    for item in &file.items[2] {
        module.overrides.append(Override {
            name: None,
            id: None,
            ty: ty(item)?,
            init: None,
        });
    }
    for item in &file.items[3] {
        only(item, &[2, 3, 6, 7])?;
        module.global_variables.append(GlobalVariable {
            name: None,
            space: space(item)?,
            binding: None,
            ty: ty(item)?,
            init: None,
            memory_decorations: MemoryDecorations::default(),
        });
    }
    let mut arguments = Vec::new();
    for item in &file.items[4] {
        arguments.push(FunctionArgument {
            name: None,
            ty: ty(item)?,
            binding: None,
        });
    }
    let mut locals = Arena::default();
    for item in &file.items[5] {
        locals.append(LocalVariable {
            name: None,
            ty: ty(item)?,
            init: None,
        });
    }
    for item in &file.items[6] {
        let result = flag(item, 4)?;
        only(item, if result { &[2, 3, 4] } else { &[] })?;
        module.functions.append(Function {
            result: match result {
                true => Some(FunctionResult {
                    ty: ty(item)?,
                    binding: None,
                }),
                false => None,
            },
            ..Function::default()
        });
    }
    for item in &file.items[7] {
        module.special_types.ray_intersection = Some(ty(item)?);
    }
    for item in &file.items[8] {
        module.special_types.ray_vertex_return = Some(ty(item)?);
    }
    for part in &file.components {
        only(part, &[2, 3])?;
        named::<Expression>(two(part, 2), file.rows.len(), part)?;
    }
    let rows = (0..file.rows.len()).map(|at| expression(file, at));
    Ok(Read {
        rows: rows.collect::<Got<_>>()?,
        module,
        locals,
        arguments,
    })
}

pub fn answer_frame(answer: &Answer) -> Frame {
    let mut frame = [0; 16];
    let refusal = match *answer {
        Answer::Type(TypeResolution::Handle(ty)) => {
            frame[0] = 8;
            put_two(&mut frame, 2, ty.index());
            return frame;
        }
        Answer::Type(TypeResolution::Value(ref inner)) => return laid(inner),
        Answer::Newer(at) => {
            (frame[0], frame[1]) = (10, 22);
            put_two(&mut frame, 2, at);
            return frame;
        }
        Answer::Refused(ref refusal) => refusal,
    };
    frame[0] = 10;
    let (number, place) = match *refusal {
        ResolveError::OutOfBoundsIndex { expr, index } => {
            put_four(&mut frame, 4, index);
            (10, expr.index())
        }
        ResolveError::InvalidAccess { expr, indexed } => {
            frame[8] = indexed as u8;
            (11, expr.index())
        }
        ResolveError::InvalidSubAccess { ty, indexed } => {
            frame[8] = indexed as u8;
            (12, ty.index())
        }
        ResolveError::InvalidScalar(expr) => (13, expr.index()),
        ResolveError::InvalidVector(expr) => (14, expr.index()),
        ResolveError::InvalidPointer(expr) => (15, expr.index()),
        ResolveError::InvalidImage(expr) => (16, expr.index()),
        ResolveError::FunctionReturnsVoid => (17, 0),
        ResolveError::IncompatibleOperands(_) => (18, 0),
        ResolveError::FunctionArgumentNotFound(index) => {
            put_four(&mut frame, 4, index);
            (19, 0)
        }
        ResolveError::MissingSpecialType => (20, 0),
        ResolveError::FunctionNotDefined { .. } | ResolveError::BuiltinArgumentsInvalid(_) => {
            panic!("a refusal that has no number")
        }
    };
    frame[1] = number;
    put_two(&mut frame, 2, place);
    frame
}

pub fn verdict_frame(at: usize, verdict: &Result<(), ComposeError>) -> Frame {
    let (number, first, given) = match *verdict {
        Ok(()) => (0, 0, 0),
        Err(ComposeError::Type(_)) => (30, 0, 0),
        Err(ComposeError::ComponentCount { given, expected }) => (31, expected, given),
        Err(ComposeError::ComponentType { index }) => (32, index, 0),
    };
    verdict_of(at, number, first, given)
}

pub fn verdict_of(at: usize, number: u8, first: u32, given: u32) -> Frame {
    let mut frame = [0; 16];
    (frame[0], frame[1]) = (11, number);
    put_two(&mut frame, 2, at);
    put_four(&mut frame, 4, first);
    put_four(&mut frame, 8, given);
    frame
}
