//! Replays the stored files of crates/replay_answers, most of them answered by the Rust that was ported: what typing each hands back, row by row and compose by compose too, and
//! the comparisons of two types.
mod common;

use common::lent;
use gelmusko::{
    compose_verdict, ffi, frames_of, row_type, same_type, Answer, Frame, Outcome, Pass, Sameness,
    Type, Verdict,
};
use std::path::Path;

/// What typing a text hands back, or the one frame of its fault.
fn handed_back(text: &[u8]) -> Vec<Frame> {
    let (mut frames, mut answers, mut out) = (
        lent(gelmusko::FRAMES_BYTES),
        lent(gelmusko::ANSWERS_BYTES),
        Frame::default(),
    );
    let number = unsafe {
        ffi::gelmusko_type_rows(
            text.as_ptr(),
            text.len(),
            0,
            0,
            frames.as_mut_ptr(),
            frames.len(),
            answers.as_mut_ptr(),
            answers.len(),
            out.0.as_mut_ptr(),
            16,
        )
    };
    if number != 0 {
        assert_eq!(u32::from(out.0[1]), number);
        return vec![out];
    }
    let rows: Vec<Frame> = frames_of(&frames)
        .take(text.len() / 33)
        .filter(|frame| frame.0[0] == 4)
        .collect();
    let many = rows.len() + rows.iter().filter(|row| row.0[1] == 5).count();
    assert_eq!(answers[16 * many..], lent(answers.len() - 16 * many)[..]);
    row_by_row(text, &rows, &answers[..16 * many]);
    frames_of(&answers).take(many).collect()
}

fn says(answer: Answer, frame: Frame) -> bool {
    match answer {
        Answer::Typed(Type::Number(n)) => Type::Number(n).frame() == frame,
        Answer::Typed(Type::Value(value)) => value == frame,
        Answer::Refused(_) => frame.0[0] == 10 && (10..21).contains(&frame.0[1]),
        Answer::Newer { row } => frame.0[..2] == [10, 22] && frame.place() == row,
    }
}

/// Some of the rows, each asked for by itself, with buffers that are just long enough.
fn row_by_row(text: &[u8], rows: &[Frame], typed: &[u8]) {
    let step = rows.len() / 16 + 1;
    let mut at = 0;
    for (n, row) in rows.iter().enumerate() {
        let answer = frames_of(typed).nth(at).expect("an answer");
        let verdict = frames_of(typed).nth(at + 1);
        at += if row.0[1] == 5 { 2 } else { 1 };
        if n % step != 0 {
            continue;
        }
        let (mut frames, mut answers) = (lent(16 * (text.len() / 33)), lent(typed.len()));
        let given =
            row_type(text, Pass::First, &mut frames, &mut answers, n as u32).expect("a row");
        assert!(says(given, answer), "row {n}: {given:?}, {answer:?}");
        assert_eq!(answers, typed);
        let mut answers = lent(typed.len());
        match compose_verdict(text, Pass::First, &mut frames, &mut answers, n as u32) {
            Ok(given) => {
                let frame = verdict.expect("a verdict");
                assert_eq!(
                    (row.0[1], frame.0[0], usize::from(frame.place())),
                    (5, 11, n)
                );
                assert_eq!(given == Verdict::Passes, frame.0[1] == 0);
                assert_eq!(answers, typed);
            }
            Err(outcome) => {
                assert_eq!(outcome, Outcome::Index { frame: 0 });
                assert_ne!(row.0[1], 5);
                assert_eq!(answers, lent(typed.len()));
            }
        }
    }
}

/// As the program `replay_answers` prints it.
fn word(text: &[u8], left: &[u8], right: &[u8]) -> String {
    match same_type(text, &mut lent(gelmusko::FRAMES_BYTES), left, right) {
        Sameness::Same => "yes".into(),
        Sameness::Different => "no".into(),
        Sameness::Newer => "22".into(),
        Sameness::Refused(outcome) => match outcome {
            Outcome::Accepted => unreachable!(),
            Outcome::Long { .. } => "1".into(),
            Outcome::Torn { .. } => "2".into(),
            Outcome::Short => "3".into(),
            Outcome::Order { .. } => "4".into(),
            Outcome::Field { .. } => "5".into(),
            Outcome::Index { .. } => "6".into(),
        },
    }
}

#[test]
fn stored_answers() {
    let folder = Path::new(env!("CARGO_MANIFEST_DIR")).join("../../crates/replay_answers");
    let cases = std::fs::read(folder.join("data/cases")).expect("the stored cases");
    let expected = std::fs::read_to_string(folder.join("stdout")).expect("what they give");
    let mut printed = String::new();
    let mut rest = &cases[..];
    while !rest.is_empty() {
        // a line of 59 bytes, with two lengths in digits; the text; the lines of the pairs; a line feed
        let (line, after) = rest.split_at(59);
        let line = std::str::from_utf8(line).expect("letters");
        let (n, m): (usize, usize) = (
            line[47..52].parse().expect("digits"),
            line[53..58].parse().expect("digits"),
        );
        let (text, after) = after.split_at(n);
        let (pairs, after) = after.split_at(m);
        rest = &after[1..];
        printed += line;
        for frame in handed_back(text) {
            printed += &format!("{frame:?}\n");
        }
        let lines: Vec<&str> = std::str::from_utf8(pairs)
            .expect("digits")
            .lines()
            .collect();
        for pair in lines.chunks_exact(2) {
            printed += &format!(
                "{}\n",
                word(text, &common::bytes(&pair[..1]), &common::bytes(&pair[1..]))
            );
        }
    }
    for (line, (given, stored)) in printed.lines().zip(expected.lines()).enumerate() {
        assert_eq!(given, stored, "line {}", line + 1);
    }
    assert_eq!(printed.len(), expected.len());
}
