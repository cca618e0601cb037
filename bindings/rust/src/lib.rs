//! Types of archived shader rows: safe functions over libgelmusko.a, whose functions are proved to give, for all inputs, what their definitions say.
//!
//! A file is a text of lines, one frame of 16 bytes a line. Each function is lent a buffer for the text's frames, of 16 bytes a line, and those that answer rows one for the
//! answers, of 16 bytes a row and 16 more a compose. [`FRAMES_BYTES`] and [`ANSWERS_BYTES`] are enough for every file; bytes past what is written stay as they were.
//! [`type_file`] brings its own. A cut or a join is written to a buffer of 33 bytes a line; [`CUT_BYTES`] and [`JOINED_BYTES`] are enough for every file. Rows, types, lines and frames count from 0.
//!
//! ```
//! use gelmusko::{row_type, Answer, Pass, Type, ANSWERS_BYTES, FRAMES_BYTES};
//!
//! // f32, and a value of it
//! let text = b"01010000020400000000000000000000\n04040000000000000000000000000000\n";
//! let (mut frames, mut answers) = ([0; FRAMES_BYTES], [0; ANSWERS_BYTES]);
//! assert_eq!(row_type(text, Pass::First, &mut frames, &mut answers, 0), Ok(Answer::Typed(Type::Number(0))));
//! ```
pub mod ffi;

use std::fmt;

/// Bytes of a frame buffer that are enough for every file.
pub const FRAMES_BYTES: usize = 16_384;
/// Bytes of an answer buffer that are enough for every file.
pub const ANSWERS_BYTES: usize = 32_768;
/// Counts of a table, one for each override of a file; those past its overrides are free.
pub const COUNTS: usize = 1_024;
/// Marks of a table, one for each row that a file may have.
pub const MARKS: usize = 1_024;
/// Bytes of a buffer for the lines of a cut that are enough for every file.
pub const CUT_BYTES: usize = 33_792;
/// Bytes of a buffer for the lines of a join that are enough for every join.
pub const JOINED_BYTES: usize = 33_792;

const DIFFERENT: u32 = 256;
const NO_POINTER: u32 = 257;

/// Sixteen bytes, numbers with their low byte first. Byte 0 is the family: 1 to 5 in a file, 8 to 13 in what is handed back.
#[derive(Clone, Copy, Default, PartialEq, Eq, Hash)]
pub struct Frame(pub [u8; 16]);

/// As a line of a file has it.
impl fmt::Debug for Frame {
    fn fmt(&self, f: &mut fmt::Formatter<'_>) -> fmt::Result {
        self.0.iter().try_for_each(|byte| write!(f, "{byte:02x}"))
    }
}

impl Frame {
    /// The number in bytes 2 and 3.
    pub fn place(self) -> u16 {
        u16::from_le_bytes([self.0[2], self.0[3]])
    }

    /// The number in bytes 4 to 7.
    pub fn first(self) -> u32 {
        u32::from_le_bytes([self.0[4], self.0[5], self.0[6], self.0[7]])
    }

    /// The number in bytes 8 to 11.
    pub fn second(self) -> u32 {
        u32::from_le_bytes([self.0[8], self.0[9], self.0[10], self.0[11]])
    }
}

/// The whole frames of a buffer, in order.
pub fn frames_of(buffer: &[u8]) -> impl Iterator<Item = Frame> + '_ {
    buffer.chunks_exact(16).map(|bytes| {
        let mut frame = [0; 16];
        frame.copy_from_slice(bytes);
        Frame(frame)
    })
}

/// What reading or typing a file gives. Where a number or a frame handed in is at fault, `Field` and `Index` name frame 0.
#[derive(Clone, Copy, Debug, PartialEq, Eq)]
pub enum Outcome {
    Accepted,
    /// 1: the text has more than 33 bytes for each frame of the limit that holds, which it names.
    Long {
        limit: u16,
    },
    /// 2: that line is not 32 lower-case digits and a line feed.
    Torn {
        line: u16,
    },
    /// 3: a lent buffer is too short.
    Short,
    /// 4: that frame is unknown or out of order.
    Order {
        frame: u16,
    },
    /// 5: a byte of that frame is outside its values.
    Field {
        frame: u16,
    },
    /// 6: that frame names a number out of range or not earlier.
    Index {
        frame: u16,
    },
}

/// A type that is handed back: the number of a type of the file, or a value, whose frame is laid as a type.
#[derive(Clone, Copy, Debug, PartialEq, Eq)]
pub enum Type {
    Number(u16),
    Value(Frame),
}

impl Type {
    /// The frame that a comparison takes.
    pub fn frame(self) -> Frame {
        match self {
            Type::Number(n) => {
                let [low, high] = n.to_le_bytes();
                let mut bytes = [0; 16];
                bytes[0] = 8;
                bytes[2] = low;
                bytes[3] = high;
                Frame(bytes)
            }
            Type::Value(frame) => frame,
        }
    }
}

/// Why a row has no type: numbers 10 to 20, and 41.
#[derive(Clone, Copy, Debug, PartialEq, Eq)]
pub enum Refusal {
    OutOfBoundsIndex {
        expr: u16,
        index: u32,
    },
    InvalidAccess {
        expr: u16,
        indexed: bool,
    },
    InvalidSubAccess {
        ty: u16,
        indexed: bool,
    },
    InvalidScalar {
        expr: u16,
    },
    InvalidVector {
        expr: u16,
    },
    InvalidPointer {
        expr: u16,
    },
    InvalidImage {
        expr: u16,
    },
    FunctionReturnsVoid,
    IncompatibleOperands,
    FunctionArgumentNotFound {
        index: u32,
    },
    MissingSpecialType,
    /// 41, in the second pass: WGSL has no such expression of these operand types.
    Mismatch,
}

/// A row's answer.
#[derive(Clone, Copy, Debug, PartialEq, Eq)]
pub enum Answer {
    Typed(Type),
    Refused(Refusal),
    /// 22: its reading met, at that row, something that this reader does not type.
    Newer {
        row: u16,
    },
}

/// What a compose is judged. Components count from 0 within their compose.
#[derive(Clone, Copy, Debug, PartialEq, Eq)]
pub enum Verdict {
    Passes,
    /// 30
    ComposedType,
    /// 31
    ComponentCount {
        expected: u32,
        given: u32,
    },
    /// 32
    ComponentType {
        index: u32,
    },
    /// 33
    ComponentRefused {
        index: u32,
    },
    /// 22, of the composed type.
    NewerComposed,
    /// 22, of a component.
    NewerComponent {
        index: u32,
    },
}

/// What comparing two types gives. `Refused` has the file's number, or 5 or 6 of a frame handed in.
#[derive(Clone, Copy, Debug, PartialEq, Eq)]
pub enum Sameness {
    Same,
    Different,
    /// 22
    Newer,
    Refused(Outcome),
}

/// What asking for a canonical form gives. `Refused` has the file's number, or 6.
#[derive(Clone, Copy, Debug, PartialEq, Eq)]
pub enum CanonicalForm {
    Form(Type),
    /// 22
    Newer,
    Refused(Outcome),
}

/// What asking for a pointer's base gives. `Refused` has the file's number, or 6.
#[derive(Clone, Copy, Debug, PartialEq, Eq)]
pub enum PointerBase {
    Base(Type),
    NotPointer,
    /// 22
    Newer,
    Refused(Outcome),
}

/// What asking for the bytes that a type fills gives. `Refused` has the file's number, or 6; 42 to 44 name the lowest faulty type that the size rests on.
#[derive(Clone, Copy, Debug, PartialEq, Eq)]
pub enum TypeSize {
    /// The alignment, 2, 4, 8 or 16, and the size, both in bytes.
    Fills {
        align: u8,
        size: u32,
    },
    /// 42: a type outside the list.
    Unmeasured {
        ty: u16,
    },
    /// 43: a stride, an offset or a span breaks the rules.
    Misplaced {
        ty: u16,
    },
    /// 44: count times stride is 2 to the 32 or more.
    Huge {
        ty: u16,
    },
    Refused(Outcome),
}

/// What asking for the range of the bytes that a type fills gives. `Refused` has the file's number, or 6; 42 to 44 name the lowest faulty type that the size rests on at the greatest
/// counts.
#[derive(Clone, Copy, Debug, PartialEq, Eq)]
pub enum SizeRange {
    /// The alignment, 2, 4, 8 or 16, and the least and the greatest size, all in bytes.
    Spans {
        align: u8,
        least: u32,
        greatest: u32,
    },
    /// 42: a type outside the list.
    Unmeasured {
        ty: u16,
    },
    /// 43: a stride, an offset or a span breaks the rules.
    Misplaced {
        ty: u16,
    },
    /// 44: a greatest size of 2 to the 32 or more.
    Huge {
        ty: u16,
    },
    /// 45: the least count of that override is 0 or above its greatest.
    Span {
        item: u16,
    },
    Refused(Outcome),
}

/// Why there is no smallest part of a file that shows a row's refusal. `Refused` has the file's number, 6, or 3 of a buffer for the cut.
#[derive(Clone, Copy, Debug, PartialEq, Eq)]
pub enum NoPart {
    /// 48: the row has a type.
    Sound,
    Refused(Outcome),
}

/// Why two files have no join. The first that holds, in this order.
#[derive(Clone, Copy, Debug, PartialEq, Eq)]
pub enum NoJoin {
    /// 1 to 6: the first file is refused.
    First(Outcome),
    /// 1 to 6: the second file is refused.
    Second(Outcome),
    /// 49: either file has a type or row of unknown kind, a Math row, an item of kind 7 or 8, or a row answered 19 or 20.
    Unjoinable,
    /// 1: the join has more frames than the limit that holds, which it names.
    Long { limit: u16 },
    /// 3: the buffer for the join is too short.
    Short,
}

/// What asking for the texel of a density gives.
#[derive(Clone, Copy, Debug, PartialEq, Eq)]
pub enum Texel {
    Given(u16),
    /// 40: the density is over 10,000.
    Range,
}

/// What a file hands back, in order: an answer for each row, and after a compose its verdict.
#[derive(Clone, Copy, Debug, PartialEq, Eq)]
pub enum Output {
    Row(Answer),
    Compose { row: u16, verdict: Verdict },
}

/// For a frame that the contracts of the library rule out.
fn never(frame: Frame) -> ! {
    unreachable!("no function of the library hands back {frame:?}")
}

impl Outcome {
    /// The outcome that a frame of family 10 stands for, by its number 0 to 6.
    fn of(frame: Frame) -> Outcome {
        match frame.0[1] {
            0 => Outcome::Accepted,
            1 => Outcome::Long {
                limit: frame.place(),
            },
            2 => Outcome::Torn {
                line: frame.place(),
            },
            3 => Outcome::Short,
            4 => Outcome::Order {
                frame: frame.place(),
            },
            5 => Outcome::Field {
                frame: frame.place(),
            },
            6 => Outcome::Index {
                frame: frame.place(),
            },
            _ => never(frame),
        }
    }
}

impl NoPart {
    /// What a frame of family 10 stands for, by its number 1 to 6 or 48.
    fn of(frame: Frame) -> NoPart {
        match frame.0[1] {
            48 => NoPart::Sound,
            _ => NoPart::Refused(Outcome::of(frame)),
        }
    }
}

impl NoJoin {
    /// What a frame of family 10 stands for, by its number 1 to 6 or 49 and whose it is.
    fn of(frame: Frame) -> NoJoin {
        match (frame.first(), frame.0[1]) {
            (0, _) => NoJoin::First(Outcome::of(frame)),
            (1, _) => NoJoin::Second(Outcome::of(frame)),
            (2, 49) => NoJoin::Unjoinable,
            (2, 1) => NoJoin::Long {
                limit: frame.place(),
            },
            (2, 3) => NoJoin::Short,
            _ => never(frame),
        }
    }
}

impl Type {
    /// The type that a frame of family 8 or 9 stands for.
    fn of(frame: Frame) -> Type {
        match frame.0[0] {
            8 => Type::Number(frame.place()),
            9 => Type::Value(frame),
            _ => never(frame),
        }
    }
}

impl Answer {
    /// The answer that a frame of family 8, 9 or 10 stands for, as a row has it.
    fn of(frame: Frame) -> Answer {
        if frame.0[0] != 10 {
            return Answer::Typed(Type::of(frame));
        }
        let (expr, index, indexed) = (frame.place(), frame.first(), frame.0[8] == 1);
        Answer::Refused(match frame.0[1] {
            10 => Refusal::OutOfBoundsIndex { expr, index },
            11 => Refusal::InvalidAccess { expr, indexed },
            12 => Refusal::InvalidSubAccess { ty: expr, indexed },
            13 => Refusal::InvalidScalar { expr },
            14 => Refusal::InvalidVector { expr },
            15 => Refusal::InvalidPointer { expr },
            16 => Refusal::InvalidImage { expr },
            17 => Refusal::FunctionReturnsVoid,
            18 => Refusal::IncompatibleOperands,
            19 => Refusal::FunctionArgumentNotFound { index },
            20 => Refusal::MissingSpecialType,
            41 => Refusal::Mismatch,
            22 => return Answer::Newer { row: expr },
            _ => never(frame),
        })
    }
}

impl Verdict {
    /// The verdict that a frame of family 11 stands for.
    fn of(frame: Frame) -> Verdict {
        let first = frame.first();
        match frame.0[1] {
            0 => Verdict::Passes,
            22 if first == u32::MAX => Verdict::NewerComposed,
            22 => Verdict::NewerComponent { index: first },
            30 => Verdict::ComposedType,
            31 => Verdict::ComponentCount {
                expected: first,
                given: frame.second(),
            },
            32 => Verdict::ComponentType { index: first },
            33 => Verdict::ComponentRefused { index: first },
            _ => never(frame),
        }
    }
}

impl Output {
    fn of(frame: Frame) -> Output {
        match frame.0[0] {
            11 => Output::Compose {
                row: frame.place(),
                verdict: Verdict::of(frame),
            },
            _ => Output::Row(Answer::of(frame)),
        }
    }
}

/// The most frames that a file may have, 1 to 1,024; any other number counts as 1,024, which is the default. Number 1 names it as its place. A file within two limits is
/// answered alike at either.
#[derive(Clone, Copy, Debug, PartialEq, Eq)]
pub struct Limit(pub u32);

impl Default for Limit {
    fn default() -> Self {
        Limit(1_024)
    }
}

/// By which rules Binary rows are typed: in the first pass by those of the source, in the second by WGSL's. All other rows, and verdicts, keep their rules over the answers of
/// the pass.
#[derive(Clone, Copy, Debug, PartialEq, Eq)]
pub enum Pass {
    First,
    Second,
}

impl Pass {
    /// As the library takes it.
    fn number(self) -> u32 {
        match self {
            Pass::First => 0,
            Pass::Second => 1,
        }
    }
}

// In each call below the slices are those of references, so they point to as many bytes as they say, and those that are written overlap no other.
impl Limit {
    /// Whether a file is accepted. After numbers 1 to 3 the buffer is as it was; else the text's frames stand at its front.
    pub fn read_file(self, text: &[u8], frames: &mut [u8]) -> Outcome {
        let mut out = Frame::default();
        unsafe {
            ffi::gelmusko_read_file(
                text.as_ptr(),
                text.len(),
                self.0,
                frames.as_mut_ptr(),
                frames.len(),
                out.0.as_mut_ptr(),
                16,
            )
        };
        Outcome::of(out)
    }

    /// Types every row and judges every compose. Of an accepted file the answers and verdicts stand at the front of the answer buffer; else that is as it was.
    pub fn type_rows(
        self,
        text: &[u8],
        pass: Pass,
        frames: &mut [u8],
        answers: &mut [u8],
    ) -> Outcome {
        let mut out = Frame::default();
        unsafe {
            ffi::gelmusko_type_rows(
                text.as_ptr(),
                text.len(),
                self.0,
                pass.number(),
                frames.as_mut_ptr(),
                frames.len(),
                answers.as_mut_ptr(),
                answers.len(),
                out.0.as_mut_ptr(),
                16,
            )
        };
        Outcome::of(out)
    }

    /// The answer of one row, with the buffers as [`Limit::type_rows`] leaves them; number 6, and the answer buffer as it was, where the file has no such row.
    pub fn row_type(
        self,
        text: &[u8],
        pass: Pass,
        frames: &mut [u8],
        answers: &mut [u8],
        row: u32,
    ) -> Result<Answer, Outcome> {
        let mut out = Frame::default();
        let number = unsafe {
            ffi::gelmusko_row_type(
                text.as_ptr(),
                text.len(),
                self.0,
                pass.number(),
                frames.as_mut_ptr(),
                frames.len(),
                answers.as_mut_ptr(),
                answers.len(),
                row,
                out.0.as_mut_ptr(),
                16,
            )
        };
        if number == 0 {
            Ok(Answer::of(out))
        } else {
            Err(Outcome::of(out))
        }
    }

    /// The verdict on one compose, by its row, with the buffers as [`Limit::type_rows`] leaves them; number 6, and the answer buffer as it was, where the file has no such row or the row is
    /// no compose.
    pub fn compose_verdict(
        self,
        text: &[u8],
        pass: Pass,
        frames: &mut [u8],
        answers: &mut [u8],
        row: u32,
    ) -> Result<Verdict, Outcome> {
        let mut out = Frame::default();
        let number = unsafe {
            ffi::gelmusko_compose_verdict(
                text.as_ptr(),
                text.len(),
                self.0,
                pass.number(),
                frames.as_mut_ptr(),
                frames.len(),
                answers.as_mut_ptr(),
                answers.len(),
                row,
                out.0.as_mut_ptr(),
                16,
            )
        };
        if number == 0 {
            Ok(Verdict::of(out))
        } else {
            Err(Outcome::of(out))
        }
    }

    /// Whether two types of a file are the same. Each is a frame of family 8 or 9, as [`Type::frame`] gives it; one of another length than 16 gets 5.
    pub fn same_type(self, text: &[u8], frames: &mut [u8], left: &[u8], right: &[u8]) -> Sameness {
        let mut out = Frame::default();
        let number = unsafe {
            ffi::gelmusko_same_type(
                text.as_ptr(),
                text.len(),
                self.0,
                frames.as_mut_ptr(),
                frames.len(),
                left.as_ptr(),
                left.len(),
                right.as_ptr(),
                right.len(),
                out.0.as_mut_ptr(),
                16,
            )
        };
        match number {
            0 => Sameness::Same,
            DIFFERENT => Sameness::Different,
            22 => Sameness::Newer,
            _ => Sameness::Refused(Outcome::of(out)),
        }
    }

    /// The canonical form of type n: of a pointer to a scalar or a vector the value pointer, of any other type its own number.
    pub fn canonical_form(self, text: &[u8], frames: &mut [u8], n: u32) -> CanonicalForm {
        let mut out = Frame::default();
        let number = unsafe {
            ffi::gelmusko_canonical_form(
                text.as_ptr(),
                text.len(),
                self.0,
                frames.as_mut_ptr(),
                frames.len(),
                n,
                out.0.as_mut_ptr(),
                16,
            )
        };
        match number {
            0 => CanonicalForm::Form(Type::of(out)),
            22 => CanonicalForm::Newer,
            _ => CanonicalForm::Refused(Outcome::of(out)),
        }
    }

    /// The base of type n: of a pointer its base's number, of a value pointer the scalar or vector by value.
    pub fn pointer_base(self, text: &[u8], frames: &mut [u8], n: u32) -> PointerBase {
        let mut out = Frame::default();
        let number = unsafe {
            ffi::gelmusko_pointer_base(
                text.as_ptr(),
                text.len(),
                self.0,
                frames.as_mut_ptr(),
                frames.len(),
                n,
                out.0.as_mut_ptr(),
                16,
            )
        };
        match number {
            0 => PointerBase::Base(Type::of(out)),
            NO_POINTER => PointerBase::NotPointer,
            22 => PointerBase::Newer,
            _ => PointerBase::Refused(Outcome::of(out)),
        }
    }

    /// Alignment and size in bytes of type n, by WGSL's memory layout.
    pub fn type_size(self, text: &[u8], frames: &mut [u8], n: u32) -> TypeSize {
        let mut out = Frame::default();
        let number = unsafe {
            ffi::gelmusko_type_size(
                text.as_ptr(),
                text.len(),
                self.0,
                frames.as_mut_ptr(),
                frames.len(),
                n,
                out.0.as_mut_ptr(),
                16,
            )
        };
        match number {
            0 => TypeSize::Fills {
                align: out.0[4],
                size: u32::from_le_bytes([out.0[8], out.0[9], out.0[10], out.0[11]]),
            },
            42 => TypeSize::Unmeasured { ty: out.place() },
            43 => TypeSize::Misplaced { ty: out.place() },
            44 => TypeSize::Huge { ty: out.place() },
            _ => TypeSize::Refused(Outcome::of(out)),
        }
    }

    /// Alignment, least and greatest size in bytes of type n, where the count of a pending array of override o is any from `least[o]` to `greatest[o]`. A table of fewer than [`COUNTS`]
    /// is number 3.
    pub fn size_range(
        self,
        text: &[u8],
        frames: &mut [u8],
        least: &[u32],
        greatest: &[u32],
        n: u32,
    ) -> SizeRange {
        let mut out = Frame::default();
        let number = unsafe {
            ffi::gelmusko_size_range(
                text.as_ptr(),
                text.len(),
                self.0,
                frames.as_mut_ptr(),
                frames.len(),
                least.as_ptr(),
                least.len(),
                greatest.as_ptr(),
                greatest.len(),
                n,
                out.0.as_mut_ptr(),
                16,
            )
        };
        match number {
            0 => SizeRange::Spans {
                align: out.0[4],
                least: out.second(),
                greatest: u32::from_le_bytes([out.0[12], out.0[13], out.0[14], out.0[15]]),
            },
            42 => SizeRange::Unmeasured { ty: out.place() },
            43 => SizeRange::Misplaced { ty: out.place() },
            44 => SizeRange::Huge { ty: out.place() },
            45 => SizeRange::Span { item: out.place() },
            _ => SizeRange::Refused(Outcome::of(out)),
        }
    }

    /// The smallest part of a file that shows why a row has no type: a mark for each row that its reading follows, by the rules of the first pass. The frame buffer is as
    /// [`Limit::read_file`] leaves it.
    pub fn smallest_part(
        self,
        text: &[u8],
        frames: &mut [u8],
        row: u32,
    ) -> Result<[bool; MARKS], NoPart> {
        let (mut marks, mut out) = ([0; MARKS], Frame::default());
        let number = unsafe {
            ffi::gelmusko_smallest_part(
                text.as_ptr(),
                text.len(),
                self.0,
                frames.as_mut_ptr(),
                frames.len(),
                row,
                marks.as_mut_ptr(),
                MARKS,
                out.0.as_mut_ptr(),
                16,
            )
        };
        if number == 0 {
            Ok(marks.map(|mark| mark == 1))
        } else {
            Err(NoPart::of(out))
        }
    }

    /// Writes the lines of the file cut to the rows that [`Limit::smallest_part`] marks to the front of a buffer, and gives how many they are, 33 bytes each: all types, members and items,
    /// and the marked rows renumbered in order. A row that is named and not marked becomes row 0, and a compose loses its components. The cut's last row has the row's answer, with places
    /// that are rows renumbered. Number 3, after all others, where the buffer is too short. With any number it is as it was. The frame buffer is as [`Limit::read_file`] leaves it.
    pub fn cut_text(
        self,
        text: &[u8],
        frames: &mut [u8],
        row: u32,
        cut: &mut [u8],
    ) -> Result<u16, NoPart> {
        let mut out = Frame::default();
        let number = unsafe {
            ffi::gelmusko_cut_text(
                text.as_ptr(),
                text.len(),
                self.0,
                frames.as_mut_ptr(),
                frames.len(),
                row,
                cut.as_mut_ptr(),
                cut.len(),
                out.0.as_mut_ptr(),
                16,
            )
        };
        if number == 0 {
            Ok(out.place())
        } else {
            Err(NoPart::of(out))
        }
    }

    /// Writes the lines of two files in one to the front of a buffer, and gives how many they are, 33 bytes each: families and item kinds in order, in each the first file's frames as they
    /// are, then the second's with their numbers, and argument indices, moved past the first's. Every row answers as it did alone, with numbers moved. The limit serves the two files and the
    /// join. With any number the buffer is as it was. `frames` is as [`Limit::read_file`] of the first leaves it; `more` as that of the second leaves it where the first is accepted, and
    /// else as it was.
    pub fn join_files(
        self,
        first: &[u8],
        second: &[u8],
        frames: &mut [u8],
        more: &mut [u8],
        joined: &mut [u8],
    ) -> Result<u16, NoJoin> {
        let mut out = Frame::default();
        let number = unsafe {
            ffi::gelmusko_join_files(
                first.as_ptr(),
                first.len(),
                second.as_ptr(),
                second.len(),
                self.0,
                frames.as_mut_ptr(),
                frames.len(),
                more.as_mut_ptr(),
                more.len(),
                joined.as_mut_ptr(),
                joined.len(),
                out.0.as_mut_ptr(),
                16,
            )
        };
        if number == 0 {
            Ok(out.place())
        } else {
            Err(NoJoin::of(out))
        }
    }
}

/// [`Limit::read_file`] within 1,024 frames.
pub fn read_file(text: &[u8], frames: &mut [u8]) -> Outcome {
    Limit::default().read_file(text, frames)
}

/// [`Limit::type_rows`] within 1,024 frames.
pub fn type_rows(text: &[u8], pass: Pass, frames: &mut [u8], answers: &mut [u8]) -> Outcome {
    Limit::default().type_rows(text, pass, frames, answers)
}

/// [`Limit::row_type`] within 1,024 frames.
pub fn row_type(
    text: &[u8],
    pass: Pass,
    frames: &mut [u8],
    answers: &mut [u8],
    row: u32,
) -> Result<Answer, Outcome> {
    Limit::default().row_type(text, pass, frames, answers, row)
}

/// [`Limit::compose_verdict`] within 1,024 frames.
pub fn compose_verdict(
    text: &[u8],
    pass: Pass,
    frames: &mut [u8],
    answers: &mut [u8],
    row: u32,
) -> Result<Verdict, Outcome> {
    Limit::default().compose_verdict(text, pass, frames, answers, row)
}

/// [`Limit::same_type`] within 1,024 frames.
pub fn same_type(text: &[u8], frames: &mut [u8], left: &[u8], right: &[u8]) -> Sameness {
    Limit::default().same_type(text, frames, left, right)
}

/// [`Limit::canonical_form`] within 1,024 frames.
pub fn canonical_form(text: &[u8], frames: &mut [u8], n: u32) -> CanonicalForm {
    Limit::default().canonical_form(text, frames, n)
}

/// [`Limit::pointer_base`] within 1,024 frames.
pub fn pointer_base(text: &[u8], frames: &mut [u8], n: u32) -> PointerBase {
    Limit::default().pointer_base(text, frames, n)
}

/// [`Limit::type_size`] within 1,024 frames.
pub fn type_size(text: &[u8], frames: &mut [u8], n: u32) -> TypeSize {
    Limit::default().type_size(text, frames, n)
}

/// [`Limit::size_range`] within 1,024 frames.
pub fn size_range(
    text: &[u8],
    frames: &mut [u8],
    least: &[u32],
    greatest: &[u32],
    n: u32,
) -> SizeRange {
    Limit::default().size_range(text, frames, least, greatest, n)
}

/// [`Limit::smallest_part`] within 1,024 frames.
pub fn smallest_part(text: &[u8], frames: &mut [u8], row: u32) -> Result<[bool; MARKS], NoPart> {
    Limit::default().smallest_part(text, frames, row)
}

/// [`Limit::cut_text`] within 1,024 frames.
pub fn cut_text(text: &[u8], frames: &mut [u8], row: u32, cut: &mut [u8]) -> Result<u16, NoPart> {
    Limit::default().cut_text(text, frames, row, cut)
}

/// [`Limit::join_files`] within 1,024 frames.
pub fn join_files(
    first: &[u8],
    second: &[u8],
    frames: &mut [u8],
    more: &mut [u8],
    joined: &mut [u8],
) -> Result<u16, NoJoin> {
    Limit::default().join_files(first, second, frames, more, joined)
}

/// The R16Unorm texel of a density in hundredths of a per cent, 0 to 10,000: the nearest to as large a part of 65,535, of two that are equally near the even one.
pub fn texel(density: u32) -> Texel {
    let mut out = [0; 2];
    match unsafe { ffi::gelmusko_texel(density, out.as_mut_ptr(), 2) } {
        0 => Texel::Given(u16::from_le_bytes(out)),
        _ => Texel::Range,
    }
}

/// Types a whole file with buffers of its own, within 1,024 frames.
pub fn type_file(text: &[u8], pass: Pass) -> Result<Vec<Output>, Outcome> {
    let mut frames = vec![0; FRAMES_BYTES];
    let mut answers = vec![0; ANSWERS_BYTES];
    match type_rows(text, pass, &mut frames, &mut answers) {
        Outcome::Accepted => {
            let lines = text.len() / 33;
            let rows = frames_of(&frames)
                .take(lines)
                .filter(|frame| frame.0[0] == 4);
            let handed_back = rows.map(|frame| if frame.0[1] == 5 { 2 } else { 1 }).sum();
            Ok(frames_of(&answers)
                .take(handed_back)
                .map(Output::of)
                .collect())
        }
        refused => Err(refused),
    }
}
