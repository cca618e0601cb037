//! What is handed back of rows and composes: document 01's example, verdicts, and rows that a file does not have.
mod common;

use common::*;
use gelmusko::{
    compose_verdict, frames_of, row_type, type_file, type_rows, Answer, Outcome, Output, Pass,
    Refusal, Type, Verdict,
};

fn paper_answers() -> Vec<Answer> {
    let value = |i: usize| {
        Answer::Typed(Type::Value(
            frames_of(&bytes(PAPER_ANSWERS)).nth(i).expect("six"),
        ))
    };
    vec![
        value(0),
        value(1),
        value(2),
        value(3),
        Answer::Newer { row: 4 },
        Answer::Refused(Refusal::OutOfBoundsIndex { expr: 0, index: 3 }),
    ]
}

#[test]
fn paper_example() {
    let (mut frames, mut answers) = (lent(16 * 11), lent(16 * 6));
    assert_eq!(
        type_rows(&text(PAPER), Pass::First, &mut frames, &mut answers),
        Outcome::Accepted
    );
    assert_eq!(frames, bytes(PAPER));
    assert_eq!(answers, bytes(PAPER_ANSWERS));
    assert_eq!(
        type_file(&text(PAPER), Pass::First),
        Ok(paper_answers().into_iter().map(Output::Row).collect())
    );
}

#[test]
fn paper_row_by_row() {
    for (row, answer) in paper_answers().into_iter().enumerate() {
        let (mut frames, mut answers) = (lent(16 * 11), lent(16 * 6 + 1));
        assert_eq!(
            row_type(
                &text(PAPER),
                Pass::First,
                &mut frames,
                &mut answers,
                row as u32
            ),
            Ok(answer)
        );
        assert_eq!(frames, bytes(PAPER));
        assert_eq!(answers[..16 * 6], bytes(PAPER_ANSWERS)[..]);
        assert_eq!(answers[16 * 6], BEFORE);
    }
}

#[test]
fn rows_that_are_not_there() {
    // 65,536 and more keep none of their low bits: row 0 and row 2 are there
    for row in [
        6,
        7,
        1024,
        65_535,
        65_536,
        65_538,
        131_072,
        0x8000_0000,
        u32::MAX,
    ] {
        let (mut frames, mut answers) = (lent(16 * 11), lent(16 * 6));
        assert_eq!(
            row_type(&text(PAPER), Pass::First, &mut frames, &mut answers, row),
            Err(Outcome::Index { frame: 0 })
        );
        assert_eq!((frames, answers), (bytes(PAPER), lent(16 * 6)));
    }
    for row in [4, 65_535, 65_536, 65_538, u32::MAX] {
        let (mut frames, mut answers) = (lent(16 * 11), lent(16 * 6));
        assert_eq!(
            compose_verdict(&text(COMPOSES), Pass::First, &mut frames, &mut answers, row),
            Err(Outcome::Index { frame: 0 })
        );
        assert_eq!((frames, answers), (bytes(COMPOSES), lent(16 * 6)));
    }
}

#[test]
fn verdicts() {
    let outputs = [
        Output::Row(Answer::Typed(Type::Number(0))),
        Output::Row(Answer::Typed(Type::Number(1))),
        Output::Row(Answer::Typed(Type::Number(2))),
        Output::Compose {
            row: 2,
            verdict: Verdict::Passes,
        },
        Output::Row(Answer::Typed(Type::Number(2))),
        Output::Compose {
            row: 3,
            verdict: Verdict::ComponentCount {
                expected: 4,
                given: 6,
            },
        },
    ];
    assert_eq!(
        type_file(&text(COMPOSES), Pass::First),
        Ok(outputs.to_vec())
    );
    for (row, verdict) in [
        (0, Err(Outcome::Index { frame: 0 })),
        (2, Ok(Verdict::Passes)),
        (
            3,
            Ok(Verdict::ComponentCount {
                expected: 4,
                given: 6,
            }),
        ),
    ] {
        let (mut frames, mut answers) = (lent(16 * 11), lent(16 * 6));
        assert_eq!(
            compose_verdict(&text(COMPOSES), Pass::First, &mut frames, &mut answers, row),
            verdict
        );
        // a row that is no compose leaves the answers as they were
        assert_eq!(answers == lent(16 * 6), verdict.is_err());
    }
}

#[test]
fn every_verdict() {
    // f32, i32, vec2 of f32, unknown; rows: f32, i32, unknown, and a compose of each verdict
    let file = [
        "01010000020400000000000000000000",
        "01010000000400000000000000000000",
        "01020200020400000000000000000000",
        "01c80000000000000000000000000000",
        "04040000000000000000000000000000",
        "04040100000000000000000000000000",
        "04ff0000000000000000000000000000",
        "04070000000000000000000000000000",
        "04050000010000000000000000000000", // 4: f32
        "04050200010000000000000000000000", // 5: vec2 of one f32
        "04050200020000000000000000000000", // 6: vec2 of f32 and i32
        "04050200010000000000000003000000", // 7: vec2 of a refused row
        "04050300010000000000000000000000", // 8: unknown
        "04050200010000000000000002000000", // 9: vec2 of a newer row
        "05000000000000000000000000000000",
        "05000100000000000000000000000000",
        "05000200000000000000000000000000",
        "05000300000000000000000000000000",
    ];
    for (row, verdict) in [
        (4, Verdict::ComposedType),
        (
            5,
            Verdict::ComponentCount {
                expected: 2,
                given: 1,
            },
        ),
        (6, Verdict::ComponentType { index: 1 }),
        (7, Verdict::ComponentRefused { index: 0 }),
        (8, Verdict::NewerComposed),
        (9, Verdict::NewerComponent { index: 0 }),
    ] {
        let (mut frames, mut answers) =
            (lent(gelmusko::FRAMES_BYTES), lent(gelmusko::ANSWERS_BYTES));
        assert_eq!(
            compose_verdict(&text(&file), Pass::First, &mut frames, &mut answers, row),
            Ok(verdict)
        );
    }
}
