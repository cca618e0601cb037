//! Short, exact and long buffers, and files that are refused: the outcome, and every lent byte after it.
mod common;

use common::*;
use gelmusko::{compose_verdict, ffi, read_file, row_type, type_file, type_rows, Outcome, Pass};

/// What `written` leaves in a lent buffer of so many bytes.
fn after(written: &[u8], bytes: usize) -> Vec<u8> {
    let mut buffer = lent(bytes);
    buffer[..written.len()].copy_from_slice(written);
    buffer
}

#[test]
fn frames_short_exact_and_long() {
    let file = text(PAPER);
    let needed = 16 * PAPER.len();
    for bytes_lent in [0, 1, 15, 16, needed - 16, needed - 1] {
        let mut frames = lent(bytes_lent);
        assert_eq!(read_file(&file, &mut frames), Outcome::Short);
        assert_eq!(frames, lent(bytes_lent));
    }
    for bytes_lent in [needed, needed + 1, needed + 16, gelmusko::FRAMES_BYTES] {
        let mut frames = lent(bytes_lent);
        assert_eq!(read_file(&file, &mut frames), Outcome::Accepted);
        assert_eq!(frames, after(&bytes(PAPER), bytes_lent));
    }
}

#[test]
fn answers_short_exact_and_long() {
    // a compose asks for two
    for (file, rows) in [(PAPER, 6), (COMPOSES, 4 + 2)] {
        let needed = 16 * rows;
        for bytes_lent in [0, 15, needed - 16, needed - 1] {
            let (mut frames, mut answers) = (lent(16 * file.len()), lent(bytes_lent));
            assert_eq!(
                type_rows(&text(file), Pass::First, &mut frames, &mut answers),
                Outcome::Short
            );
            assert_eq!(
                row_type(&text(file), Pass::First, &mut frames, &mut answers, 0),
                Err(Outcome::Short)
            );
            assert_eq!(
                compose_verdict(&text(file), Pass::First, &mut frames, &mut answers, 2),
                Err(Outcome::Short)
            );
            assert_eq!((frames, answers), (lent(16 * file.len()), lent(bytes_lent)));
        }
        for bytes_lent in [needed, needed + 1, needed + 16, gelmusko::ANSWERS_BYTES] {
            let (mut frames, mut answers) = (lent(16 * file.len()), lent(bytes_lent));
            assert_eq!(
                type_rows(&text(file), Pass::First, &mut frames, &mut answers),
                Outcome::Accepted
            );
            assert_eq!(frames, bytes(file));
            assert_eq!(answers[needed..], lent(bytes_lent - needed)[..]);
            assert_ne!(answers[needed - 16..needed], lent(16)[..]);
        }
        // frames too short, and answers long enough
        let (mut frames, mut answers) = (lent(16 * file.len() - 1), lent(needed));
        assert_eq!(
            type_rows(&text(file), Pass::First, &mut frames, &mut answers),
            Outcome::Short
        );
        assert_eq!((frames, answers), (lent(16 * file.len() - 1), lent(needed)));
    }
}

#[test]
fn empty_file_asks_for_nothing() {
    assert_eq!(read_file(&[], &mut []), Outcome::Accepted);
    assert_eq!(
        type_rows(&[], Pass::First, &mut [], &mut []),
        Outcome::Accepted
    );
    assert_eq!(type_file(&[], Pass::First), Ok(vec![]));
    assert_eq!(
        row_type(&[], Pass::First, &mut [], &mut [], 0),
        Err(Outcome::Index { frame: 0 })
    );
}

#[test]
fn long_and_torn_files_change_no_buffer() {
    let lines = |n: usize| text(&vec!["01010000020400000000000000000000"; n]);
    let mut upper = text(PAPER);
    upper[33 * 2 + 2] = b'C';
    let mut cut = text(PAPER);
    cut.pop();
    let mut more = text(PAPER);
    more.push(b'\n');
    for (file, outcome) in [
        (lines(1025), Outcome::Long { limit: 1_024 }),
        (vec![0; 33_793], Outcome::Long { limit: 1_024 }),
        (vec![0; 33_792], Outcome::Torn { line: 0 }),
        (upper, Outcome::Torn { line: 2 }),
        (cut, Outcome::Torn { line: 10 }),
        (more, Outcome::Torn { line: 11 }),
    ] {
        // short buffers too: checks run in order
        for (f, a) in [(gelmusko::FRAMES_BYTES, gelmusko::ANSWERS_BYTES), (0, 0)] {
            let (mut frames, mut answers) = (lent(f), lent(a));
            assert_eq!(read_file(&file, &mut frames), outcome);
            assert_eq!(
                type_rows(&file, Pass::First, &mut frames, &mut answers),
                outcome
            );
            assert_eq!(
                row_type(&file, Pass::First, &mut frames, &mut answers, u32::MAX),
                Err(outcome)
            );
            assert_eq!((frames, answers), (lent(f), lent(a)));
        }
    }
    assert_eq!(
        read_file(&lines(1024), &mut lent(gelmusko::FRAMES_BYTES)),
        Outcome::Accepted
    );
}

#[test]
fn faults_of_frames_leave_the_frames() {
    for (file, outcome) in [
        (DISORDERED, Outcome::Order { frame: 1 }),
        (UNFIT, Outcome::Field { frame: 1 }),
        (STRAY, Outcome::Index { frame: 1 }),
    ] {
        let (mut frames, mut answers) = (lent(40), lent(40));
        assert_eq!(
            type_rows(&text(file), Pass::First, &mut frames, &mut answers),
            outcome
        );
        assert_eq!((&frames, &answers), (&after(&bytes(file), 40), &lent(40)));
        assert_eq!(read_file(&text(file), &mut frames), outcome);
        assert_eq!(
            row_type(&text(file), Pass::First, &mut frames, &mut answers, 65_536),
            Err(outcome)
        );
        assert_eq!(
            compose_verdict(&text(file), Pass::First, &mut frames, &mut answers, 0),
            Err(outcome)
        );
        assert_eq!((&frames, &answers), (&after(&bytes(file), 40), &lent(40)));
        assert_eq!(type_file(&text(file), Pass::First), Err(outcome));
    }
}

/// What the eleven functions return with these buffers, an `out` of so many bytes among them, and that `out`.
fn with_out(
    file: &[u8],
    frames: &mut [u8],
    answers: &mut [u8],
    out_bytes: usize,
) -> Vec<(u32, Vec<u8>)> {
    let (t, n, f, m) = (file.as_ptr(), file.len(), frames.as_mut_ptr(), frames.len());
    let (a, k) = (answers.as_mut_ptr(), answers.len());
    let frame = bytes(&["08000000000000000000000000000000"]);
    let (l, z) = (frame.as_ptr(), frame.len());
    let counts = vec![1; gelmusko::COUNTS];
    let (c, w) = (counts.as_ptr(), counts.len());
    let mut marks = lent(gelmusko::MARKS);
    let (q, v) = (marks.as_mut_ptr(), marks.len());
    let call = |function: &dyn Fn(*mut u8) -> u32| {
        let mut out = lent(out_bytes);
        (function(out.as_mut_ptr()), out)
    };
    vec![
        call(&|o| unsafe { ffi::gelmusko_read_file(t, n, 0, f, m, o, out_bytes) }),
        call(&|o| unsafe { ffi::gelmusko_type_rows(t, n, 0, 0, f, m, a, k, o, out_bytes) }),
        call(&|o| unsafe { ffi::gelmusko_row_type(t, n, 0, 0, f, m, a, k, 0, o, out_bytes) }),
        call(&|o| unsafe {
            ffi::gelmusko_compose_verdict(t, n, 0, 0, f, m, a, k, 2, o, out_bytes)
        }),
        call(&|o| unsafe { ffi::gelmusko_same_type(t, n, 0, f, m, l, z, l, z, o, out_bytes) }),
        call(&|o| unsafe { ffi::gelmusko_canonical_form(t, n, 0, f, m, 0, o, out_bytes) }),
        call(&|o| unsafe { ffi::gelmusko_pointer_base(t, n, 0, f, m, 0, o, out_bytes) }),
        call(&|o| unsafe { ffi::gelmusko_type_size(t, n, 0, f, m, 0, o, out_bytes) }),
        call(&|o| unsafe { ffi::gelmusko_size_range(t, n, 0, f, m, c, w, c, w, 0, o, out_bytes) }),
        call(&|o| unsafe { ffi::gelmusko_smallest_part(t, n, 0, f, m, 0, q, v, o, out_bytes) }),
        call(&|o| unsafe { ffi::gelmusko_cut_text(t, n, 0, f, m, 0, q, v, o, out_bytes) }),
    ]
}

#[test]
fn short_out_changes_nothing() {
    let mut torn = text(COMPOSES);
    torn[0] = b'x';
    for (file, number) in [
        (text(COMPOSES), 3),
        (text(STRAY), 3),
        (vec![], 3),
        (torn, 2),
        (vec![0; 33_793], 1),
    ] {
        for out_bytes in 0..16 {
            let (mut frames, mut answers) = (lent(400), lent(400));
            for given in with_out(&file, &mut frames, &mut answers, out_bytes) {
                assert_eq!(given, (number, lent(out_bytes)));
            }
            assert_eq!((frames, answers), (lent(400), lent(400)));
        }
    }
}

#[test]
fn exact_and_long_out() {
    for out_bytes in [16, 17, 32, 100] {
        let (mut frames, mut answers) = (lent(400), lent(400));
        let given = with_out(&text(COMPOSES), &mut frames, &mut answers, out_bytes);
        let accepted = "0a000000000000000000000000000000";
        let type_0 = "08000000000000000000000000000000";
        let passes = "0b000200000000000000000000000000";
        for ((number, out), (expected, frame)) in given.into_iter().zip([
            (0, accepted),
            (0, accepted),
            (0, type_0),
            (0, passes),
            (0, accepted),
            (0, type_0),
            (257, accepted),
            (0, "0c000000040000000400000000000000"),
            (0, "0d000000040000000400000004000000"),
            (48, "0a300000000000000000000000000000"),
            (48, "0a300000000000000000000000000000"),
        ]) {
            assert_eq!(number, expected);
            assert_eq!(out, after(&bytes(&[frame]), out_bytes));
        }
    }
    // a number stands in the frame with its place
    let (mut frames, mut answers) = (lent(400), lent(400));
    for given in with_out(&text(STRAY), &mut frames, &mut answers, 16) {
        assert_eq!(given, (6, bytes(&["0a060100000000000000000000000000"])));
    }
    for given in with_out(&text(COMPOSES), &mut [], &mut [], 16) {
        assert_eq!(given, (3, bytes(&["0a030000000000000000000000000000"])));
    }
    for given in with_out(&vec![0; 33_793], &mut [], &mut [], 16) {
        assert_eq!(given, (1, bytes(&["0a010004000000000000000000000000"])));
    }
}
