//! Both passes: short, exact and long buffers, each answer and verdict, and the numbers that passes have over the raw functions.
mod common;

use common::*;
use gelmusko::{
    compose_verdict, ffi, frames_of, row_type, type_file, type_rows, Answer, Frame, Outcome,
    Output, Pass, Refusal, Type, Verdict,
};

/// f32, vec2 of it, i32; a value of each; then an f32 plus a vec2, an i32 plus an f32, a vec2 composed from the first sum, and one from the second sum and the f32.
const SUMS: &[&str] = &[
    "01010000020400000000000000000000",
    "01020200020400000000000000000000",
    "01010000000400000000000000000000",
    "04040000000000000000000000000000", // 0: f32
    "04040100000000000000000000000000", // 1: vec2
    "04040200000000000000000000000000", // 2: i32
    "04120000010000000000000000000000", // 3: f32 + vec2
    "04120200000000000000000000000000", // 4: i32 + f32
    "04050100010000000000000000000000", // 5: vec2 of row 3
    "04050100020000000000000001000000", // 6: vec2 of rows 4 and 0
    "05000300000000000000000000000000",
    "05000400000000000000000000000000",
    "05000000000000000000000000000000",
];

/// By hand, from document 01: a sum has its left operand's type, so row 5 has one component where two are expected, and row 6 an i32.
const FIRST: &[&str] = &[
    "08000000000000000000000000000000",
    "08000100000000000000000000000000",
    "08000200000000000000000000000000",
    "08000000000000000000000000000000",
    "08000200000000000000000000000000",
    "08000100000000000000000000000000",
    "0b1f0500020000000100000000000000",
    "08000100000000000000000000000000",
    "0b200600000000000000000000000000",
];

/// By hand, from document 02, request 3: a scalar plus a vector is the vector, by value, and an i32 and an f32 have no sum, so that row 6 has a refused component.
const SECOND: &[&str] = &[
    "08000000000000000000000000000000",
    "08000100000000000000000000000000",
    "08000200000000000000000000000000",
    "09020200020400000000000000000000",
    "0a290000000000000000000000000000",
    "08000100000000000000000000000000",
    "0b000500000000000000000000000000",
    "08000100000000000000000000000000",
    "0b210600000000000000000000000000",
];

const PASSES: [(Pass, &[&str]); 2] = [(Pass::First, FIRST), (Pass::Second, SECOND)];

/// What `written` leaves in a lent buffer of so many bytes.
fn after(written: &[u8], bytes: usize) -> Vec<u8> {
    let mut buffer = lent(bytes);
    buffer[..written.len()].copy_from_slice(written);
    buffer
}

#[test]
fn short_buffers_are_left_alone() {
    let (f, a) = (16 * SUMS.len(), 16 * FIRST.len());
    for pass in [Pass::First, Pass::Second] {
        for (f, a) in [(f - 1, a), (f, a - 1), (f, a - 16), (0, a), (f, 0), (0, 0)] {
            let (mut frames, mut answers) = (lent(f), lent(a));
            assert_eq!(
                type_rows(&text(SUMS), pass, &mut frames, &mut answers),
                Outcome::Short
            );
            assert_eq!(
                row_type(&text(SUMS), pass, &mut frames, &mut answers, 3),
                Err(Outcome::Short)
            );
            assert_eq!(
                compose_verdict(&text(SUMS), pass, &mut frames, &mut answers, 5),
                Err(Outcome::Short)
            );
            assert_eq!((frames, answers), (lent(f), lent(a)));
        }
    }
}

#[test]
fn exact_and_long_buffers() {
    let (f, a) = (16 * SUMS.len(), 16 * FIRST.len());
    for (pass, handed_back) in PASSES {
        for more in [0, 1, 16, 400] {
            let (mut frames, mut answers) = (lent(f + more), lent(a + more));
            assert_eq!(
                type_rows(&text(SUMS), pass, &mut frames, &mut answers),
                Outcome::Accepted
            );
            assert_eq!(frames, after(&bytes(SUMS), f + more));
            assert_eq!(answers, after(&bytes(handed_back), a + more), "{pass:?}");
        }
    }
}

#[test]
fn row_by_row() {
    let vec2 = frames_of(&bytes(&[SECOND[3]])).next().expect("a frame");
    let number = |n| Answer::Typed(Type::Number(n));
    for (pass, handed_back, sums, verdicts) in [
        (
            Pass::First,
            FIRST,
            [number(0), number(2)],
            [
                Verdict::ComponentCount {
                    expected: 2,
                    given: 1,
                },
                Verdict::ComponentType { index: 0 },
            ],
        ),
        (
            Pass::Second,
            SECOND,
            [
                Answer::Typed(Type::Value(vec2)),
                Answer::Refused(Refusal::Mismatch),
            ],
            [Verdict::Passes, Verdict::ComponentRefused { index: 0 }],
        ),
    ] {
        let full = bytes(handed_back);
        for (row, answer) in [(3, sums[0]), (4, sums[1]), (5, number(1))] {
            let (mut frames, mut answers) = (lent(16 * SUMS.len()), lent(full.len() + 1));
            assert_eq!(
                row_type(&text(SUMS), pass, &mut frames, &mut answers, row),
                Ok(answer),
                "{pass:?}"
            );
            assert_eq!(
                (frames, answers),
                (bytes(SUMS), after(&full, full.len() + 1))
            );
        }
        for (row, verdict) in [(5, verdicts[0]), (6, verdicts[1])] {
            let (mut frames, mut answers) = (lent(16 * SUMS.len()), lent(full.len() + 1));
            assert_eq!(
                compose_verdict(&text(SUMS), pass, &mut frames, &mut answers, row),
                Ok(verdict),
                "{pass:?}"
            );
            assert_eq!(
                (frames, answers),
                (bytes(SUMS), after(&full, full.len() + 1))
            );
        }
        let outputs = type_file(&text(SUMS), pass).expect("an accepted file");
        assert_eq!(outputs.len(), FIRST.len());
        assert_eq!(outputs[3], Output::Row(sums[0]));
        assert_eq!(
            outputs[8],
            Output::Compose {
                row: 6,
                verdict: verdicts[1]
            }
        );
    }
}

#[test]
fn rows_that_are_not_there_and_no_composes() {
    for pass in [Pass::First, Pass::Second] {
        let (mut frames, mut answers) = (lent(16 * SUMS.len()), lent(200));
        let none = Outcome::Index { frame: 0 };
        for row in [7, 65_535, 65_539, u32::MAX] {
            assert_eq!(
                row_type(&text(SUMS), pass, &mut frames, &mut answers, row),
                Err(none)
            );
        }
        for row in [3, 4, 7, 65_541] {
            assert_eq!(
                compose_verdict(&text(SUMS), pass, &mut frames, &mut answers, row),
                Err(none)
            );
        }
        assert_eq!((frames, answers), (bytes(SUMS), lent(200)));
    }
}

/// What the three functions return and write, with `pass` as a number: number, frame, answers.
fn raw(pass: u32) -> Vec<(u32, Frame, Vec<u8>)> {
    let file = text(SUMS);
    let call = |function: &dyn Fn(*mut u8, *mut u8, *mut u8) -> u32| {
        let (mut frames, mut answers, mut out) =
            (lent(16 * SUMS.len()), lent(200), Frame::default());
        let number = function(
            frames.as_mut_ptr(),
            answers.as_mut_ptr(),
            out.0.as_mut_ptr(),
        );
        assert_eq!(frames, bytes(SUMS));
        (number, out, answers)
    };
    let (t, n, m) = (file.as_ptr(), file.len(), 16 * SUMS.len());
    vec![
        call(&|f, a, o| unsafe { ffi::gelmusko_type_rows(t, n, 0, pass, f, m, a, 200, o, 16) }),
        call(&|f, a, o| unsafe { ffi::gelmusko_row_type(t, n, 0, pass, f, m, a, 200, 3, o, 16) }),
        call(&|f, a, o| unsafe {
            ffi::gelmusko_compose_verdict(t, n, 0, pass, f, m, a, 200, 5, o, 16)
        }),
    ]
}

/// What they give, by hand: no number, that frame, and all that is handed back at the front of the answer buffer.
fn expected(handed_back: &[&str]) -> Vec<(u32, Frame, Vec<u8>)> {
    [
        "0a000000000000000000000000000000",
        handed_back[3],
        handed_back[6],
    ]
    .iter()
    .map(|line| {
        let frame = frames_of(&bytes(&[line])).next().expect("a frame");
        (0, frame, after(&bytes(handed_back), 200))
    })
    .collect()
}

#[test]
fn numbers_other_than_1_are_the_first_pass() {
    for pass in [0, 2, 3, 255, 256, 257, 65_537, 0x8000_0001, u32::MAX] {
        assert_eq!(raw(pass), expected(FIRST), "{pass}");
    }
}

#[test]
fn number_1_is_the_second_pass() {
    assert_eq!(raw(1), expected(SECOND));
}
