//! The smallest part that shows a refusal, by hand from document 02's request 12: marks and cuts, every outcome, and every lent byte after it.
mod common;

use common::*;
use gelmusko::{
    cut_text, ffi, row_type, smallest_part, Answer, Limit, NoPart, Outcome, Pass, Refusal,
    CUT_BYTES, FRAMES_BYTES, MARKS,
};

/// f32, vec3 and a type of unknown kind; a variable of vec3; eleven rows; and components, the first in no compose.
const PARTS: &[&str] = &[
    "01010000020400000000000000000000",
    "01020300020400000000000000000000",
    "01c80000000000000000000000000000",
    "03050100000000000000000000000000",
    "040c0000000000000000000000000000", // 0  the variable
    "04010000000001000000000000000000", // 1  an f32 literal
    "040d0000000000000000000000000000", // 2  load of 0
    "04050100030000000000000001000000", // 3  vec3 composed
    "04070300000000000000000005000000", // 4  3[5], out of bounds
    "04120200010000000000000000000000", // 5  2 + 1, whose right is not read
    "04120500040002000000000000000000", // 6  5 * 4, refused by its right
    "04120400050002000000000000000000", // 7  4 * 5, refused by its left
    "04080700000003000000000000000000", // 8  splat of 7
    "0416ffffffffffffffffffffffffffff", // 9  Math
    "04110900000000000000000000000000", // 10 unary of 9
    "05000200000000000000000000000000",
    "05000100000000000000000000000000",
    "05000100000000000000000000000000",
    "05000100000000000000000000000000",
];

/// The rows that each row's reading follows; none where it has a type.
const FOLLOWED: [&[usize]; 11] = [
    &[],
    &[],
    &[],
    &[],
    &[3, 4],
    &[],
    &[0, 2, 3, 4, 5, 6],
    &[3, 4, 7],
    &[3, 4, 7, 8],
    &[9],
    &[9, 10],
];

/// The rows of the cuts, after types and items.
const CUTS: [(u32, &[&str]); 6] = [
    (
        4,
        &[
            "04050100000000000000000000000000",
            "04070000000000000000000005000000",
        ],
    ),
    (
        6,
        &[
            "040c0000000000000000000000000000",
            "040d0000000000000000000000000000",
            "04050100000000000000000000000000",
            "04070200000000000000000005000000",
            "04120100000000000000000000000000",
            "04120400030002000000000000000000",
        ],
    ),
    (
        7,
        &[
            "04050100000000000000000000000000",
            "04070000000000000000000005000000",
            "04120100000002000000000000000000",
        ],
    ),
    (
        8,
        &[
            "04050100000000000000000000000000",
            "04070000000000000000000005000000",
            "04120100000002000000000000000000",
            "04080200000003000000000000000000",
        ],
    ),
    (9, &["0416ffffffffffffffffffffffffffff"]),
    (
        10,
        &[
            "0416ffffffffffffffffffffffffffff",
            "04110000000000000000000000000000",
        ],
    ),
];

fn table(rows: &[usize]) -> [bool; MARKS] {
    let mut marks = [false; MARKS];
    rows.iter().for_each(|&row| marks[row] = true);
    marks
}

/// What `written` leaves in a lent buffer of so many bytes.
fn after(written: &[u8], bytes: usize) -> Vec<u8> {
    let mut buffer = lent(bytes);
    buffer[..written.len()].copy_from_slice(written);
    buffer
}

/// The lines of a cut of PARTS.
fn cut_of(row: u32) -> Vec<u8> {
    let (_, rows) = CUTS[CUTS.iter().position(|(n, _)| *n == row).expect("a cut")];
    text(&[&PARTS[..4], rows].concat())
}

/// What a call returns, and its buffers after it: frames, marks or cut, and out.
type Left = (u32, Vec<u8>, Vec<u8>, Vec<u8>);

/// The library's own function, with lent buffers of these sizes.
fn part(file: &[u8], row: u32, [f, m, o]: [usize; 3]) -> Left {
    let (mut frames, mut marks, mut out) = (lent(f), lent(m), lent(o));
    let (t, n, p) = (file.as_ptr(), file.len(), frames.as_mut_ptr());
    let (q, r) = (marks.as_mut_ptr(), out.as_mut_ptr());
    let number = unsafe { ffi::gelmusko_smallest_part(t, n, 0, p, f, row, q, m, r, o) };
    (number, frames, marks, out)
}

fn cut(file: &[u8], row: u32, [f, c, o]: [usize; 3]) -> Left {
    let (mut frames, mut cut, mut out) = (lent(f), lent(c), lent(o));
    let (t, n, p) = (file.as_ptr(), file.len(), frames.as_mut_ptr());
    let (q, r) = (cut.as_mut_ptr(), out.as_mut_ptr());
    let number = unsafe { ffi::gelmusko_cut_text(t, n, 0, p, f, row, q, c, r, o) };
    (number, frames, cut, out)
}

/// The frame of a number and a place, below 256 each.
fn said(number: u8, place: u8) -> Vec<u8> {
    let mut frame = vec![0; 16];
    (frame[0], frame[1], frame[2]) = (10, number, place);
    frame
}

/// Texts with numbers 1, 2, 4, 5 and 6, with these and their places; whether the frames are written.
fn refused() -> Vec<(Vec<u8>, u32, Vec<u8>, Outcome, Option<Vec<u8>>)> {
    let mut torn = text(PARTS);
    torn[33 * 2] = b'x';
    let mut long = said(1, 0);
    long[3] = 4;
    vec![
        (
            vec![0; 33_793],
            1,
            long,
            Outcome::Long { limit: 1_024 },
            None,
        ),
        (torn, 2, said(2, 2), Outcome::Torn { line: 2 }, None),
        (
            text(DISORDERED),
            4,
            said(4, 1),
            Outcome::Order { frame: 1 },
            Some(bytes(DISORDERED)),
        ),
        (
            text(UNFIT),
            5,
            said(5, 1),
            Outcome::Field { frame: 1 },
            Some(bytes(UNFIT)),
        ),
        (
            text(STRAY),
            6,
            said(6, 1),
            Outcome::Index { frame: 1 },
            Some(bytes(STRAY)),
        ),
    ]
}

const NEEDED: usize = 16 * PARTS.len();

#[test]
fn marks_of_every_row() {
    let file = text(PARTS);
    for (row, followed) in FOLLOWED.iter().enumerate() {
        let mut frames = lent(NEEDED);
        let marks = smallest_part(&file, &mut frames, row as u32);
        if followed.is_empty() {
            assert_eq!(marks, Err(NoPart::Sound));
        } else {
            assert_eq!(marks, Ok(table(followed)), "row {row}");
        }
        assert_eq!(frames, bytes(PARTS));
    }
    for row in [11, 1_023, 1_024, 65_535, 65_536, u32::MAX] {
        let no = Err(NoPart::Refused(Outcome::Index { frame: 0 }));
        assert_eq!(smallest_part(&file, &mut lent(NEEDED), row), no);
    }
}

#[test]
fn cuts_of_every_row() {
    let file = text(PARTS);
    for row in 0..14 {
        let (mut frames, mut lines) = (lent(NEEDED), lent(CUT_BYTES));
        let given = cut_text(&file, &mut frames, row, &mut lines);
        assert_eq!(frames, bytes(PARTS));
        if CUTS.iter().any(|(n, _)| *n == row) {
            let wanted = cut_of(row);
            assert_eq!(given, Ok((wanted.len() / 33) as u16));
            assert_eq!(lines, after(&wanted, CUT_BYTES), "row {row}");
        } else {
            let no = if row < 11 {
                NoPart::Sound
            } else {
                NoPart::Refused(Outcome::Index { frame: 0 })
            };
            assert_eq!(given, Err(no));
            assert_eq!(lines, lent(CUT_BYTES));
        }
    }
}

#[test]
fn a_cut_answers_as_the_file() {
    let bound = |expr| {
        Ok(Answer::Refused(Refusal::OutOfBoundsIndex {
            expr,
            index: 5,
        }))
    };
    let newer = |row| Ok(Answer::Newer { row });
    for (row, whole, part) in [
        (4, bound(3), bound(0)),
        (6, bound(3), bound(2)),
        (7, bound(3), bound(0)),
        (8, bound(3), bound(0)),
        (9, newer(9), newer(0)),
        (10, newer(9), newer(0)),
    ] {
        let (mut frames, mut answers) = (lent(FRAMES_BYTES), lent(gelmusko::ANSWERS_BYTES));
        let mut ask = |file: &[u8], n| row_type(file, Pass::First, &mut frames, &mut answers, n);
        assert_eq!(ask(&text(PARTS), row), whole);
        let lines = cut_of(row);
        let last = lines.len() / 33 - 5;
        assert_eq!(ask(&lines, last as u32), part);
        // the cut is its own smallest part
        let mut again = lent(CUT_BYTES);
        assert_eq!(
            cut_text(&lines, &mut frames, last as u32, &mut again),
            Ok(last as u16 + 5)
        );
        assert_eq!(again, after(&lines, CUT_BYTES));
    }
}

#[test]
fn frames_short_exact_and_long() {
    let file = text(PARTS);
    for f in [0, 1, 15, 16, NEEDED - 16, NEEDED - 1] {
        // 3 of the file comes before 48 and 6
        for row in [6, 0, 11] {
            let zeros = vec![0; MARKS];
            assert_eq!(
                part(&file, row, [f, MARKS, 16]),
                (3, lent(f), zeros, said(3, 0))
            );
            assert_eq!(
                cut(&file, row, [f, 400, 16]),
                (3, lent(f), lent(400), said(3, 0))
            );
        }
        let short = NoPart::Refused(Outcome::Short);
        assert_eq!(smallest_part(&file, &mut lent(f), 6), Err(short));
        assert_eq!(cut_text(&file, &mut lent(f), 6, &mut lent(400)), Err(short));
    }
    for f in [NEEDED, NEEDED + 1, NEEDED + 16, FRAMES_BYTES] {
        let frames = after(&bytes(PARTS), f);
        let (number, left, _, out) = part(&file, 6, [f, MARKS, 16]);
        assert_eq!((number, &left, out), (0, &frames, said(0, 0)));
        let (number, left, _, out) = cut(&file, 6, [f, CUT_BYTES, 16]);
        assert_eq!((number, &left, out), (0, &frames, said(0, 10)));
    }
}

#[test]
fn marks_short_exact_and_long() {
    let file = text(PARTS);
    // a row with a part, one with a type, and none
    for (row, number, marked) in [(6, 0, FOLLOWED[6]), (0, 48, &[]), (11, 6, &[])] {
        for m in [0, 1, 11, MARKS - 1] {
            for f in [0, NEEDED, NEEDED + 16] {
                assert_eq!(
                    part(&file, row, [f, m, 16]),
                    (3, lent(f), lent(m), said(3, 0))
                );
            }
        }
        for m in [MARKS, MARKS + 1, MARKS + 16, 2 * MARKS] {
            let marks: Vec<u8> = table(marked).iter().map(|&mark| mark.into()).collect();
            assert_eq!(
                part(&file, row, [NEEDED, m, 16]),
                (
                    number.into(),
                    bytes(PARTS),
                    after(&marks, m),
                    said(number, 0)
                )
            );
        }
    }
    // 1 and 2 of the text come before 3, 4 to 6 after it
    for (file, number, out, _, frames) in refused() {
        for m in [0, MARKS - 1] {
            let (number, out) = if frames.is_some() {
                (3, said(3, 0))
            } else {
                (number, out.clone())
            };
            assert_eq!(
                part(&file, 0, [400, m, 16]),
                (number, lent(400), lent(m), out)
            );
        }
    }
}

#[test]
fn cut_short_exact_and_long() {
    let file = text(PARTS);
    for (row, _) in CUTS {
        let wanted = cut_of(row);
        let needed = wanted.len();
        for c in [0, 1, 32, 33, needed - 33, needed - 1] {
            // the frames are written
            assert_eq!(
                cut(&file, row, [NEEDED + 3, c, 16]),
                (3, after(&bytes(PARTS), NEEDED + 3), lent(c), said(3, 0))
            );
            assert_eq!(
                cut_text(&file, &mut lent(NEEDED), row, &mut lent(c)),
                Err(NoPart::Refused(Outcome::Short))
            );
        }
        for c in [needed, needed + 1, needed + 33, file.len(), CUT_BYTES] {
            assert_eq!(
                cut(&file, row, [NEEDED, c, 16]),
                (
                    0,
                    bytes(PARTS),
                    after(&wanted, c),
                    said(0, (needed / 33) as u8)
                )
            );
        }
    }
    // 48 and 6 come before 3
    for c in [0, 1, CUT_BYTES] {
        assert_eq!(
            cut(&file, 0, [NEEDED, c, 16]),
            (48, bytes(PARTS), lent(c), said(48, 0))
        );
        assert_eq!(
            cut(&file, 11, [NEEDED, c, 16]),
            (6, bytes(PARTS), lent(c), said(6, 0))
        );
    }
}

#[test]
fn refused_files() {
    for (file, number, out, outcome, frames) in refused() {
        for row in [0, 6, u32::MAX] {
            let left = frames.as_ref().map_or(lent(400), |f| after(f, 400));
            for m in [MARKS, MARKS + 7] {
                assert_eq!(
                    part(&file, row, [400, m, 16]),
                    (number, left.clone(), after(&[0; MARKS], m), out.clone())
                );
            }
            for c in [0, 400] {
                assert_eq!(
                    cut(&file, row, [400, c, 16]),
                    (number, left.clone(), lent(c), out.clone())
                );
            }
            let no = NoPart::Refused(outcome);
            assert_eq!(smallest_part(&file, &mut lent(400), row), Err(no));
            assert_eq!(
                cut_text(&file, &mut lent(400), row, &mut lent(400)),
                Err(no)
            );
        }
    }
}

#[test]
fn out_short_exact_and_long() {
    let file = text(PARTS);
    for o in 0..16 {
        for row in [6, 0, 11] {
            for room in [0, MARKS] {
                let left = (3, lent(400), lent(room), lent(o));
                assert_eq!(part(&file, row, [400, room, o]), left);
                assert_eq!(cut(&file, row, [400, room, o]), left);
            }
        }
        for (file, number, _, _, frames) in refused() {
            let number = if frames.is_some() { 3 } else { number };
            let left = (number, lent(400), lent(MARKS), lent(o));
            assert_eq!(part(&file, 0, [400, MARKS, o]), left);
            assert_eq!(cut(&file, 0, [400, MARKS, o]), left);
        }
    }
    for o in [16, 17, 32, 100] {
        assert_eq!(part(&file, 6, [NEEDED, MARKS, o]).3, after(&said(0, 0), o));
        assert_eq!(part(&file, 0, [NEEDED, MARKS, o]).3, after(&said(48, 0), o));
        assert_eq!(cut(&file, 6, [NEEDED, MARKS, o]).3, after(&said(0, 10), o));
        assert_eq!(cut(&file, 0, [NEEDED, MARKS, o]).3, after(&said(48, 0), o));
    }
}

#[test]
fn limits() {
    let file = text(PARTS);
    for limit in [0, 19, 256, 1_024, 1_025, u32::MAX] {
        let (mut frames, mut lines) = (lent(NEEDED), lent(CUT_BYTES));
        let limit = Limit(limit);
        assert_eq!(
            limit.smallest_part(&file, &mut frames, 6),
            Ok(table(FOLLOWED[6]))
        );
        assert_eq!(limit.cut_text(&file, &mut frames, 6, &mut lines), Ok(10));
        assert_eq!(lines, after(&cut_of(6), CUT_BYTES));
    }
    for limit in [1, 18] {
        let (mut frames, mut lines) = (lent(NEEDED), lent(CUT_BYTES));
        let long = NoPart::Refused(Outcome::Long { limit });
        let limit = Limit(limit.into());
        assert_eq!(limit.smallest_part(&file, &mut frames, 6), Err(long));
        assert_eq!(limit.cut_text(&file, &mut frames, 6, &mut lines), Err(long));
        assert_eq!((frames, lines), (lent(NEEDED), lent(CUT_BYTES)));
    }
}

#[test]
fn all_rows_of_the_longest_file() {
    // Math, and 1,023 rows that each read the one before
    let lines: Vec<String> = (0..1_024u16)
        .map(|row| match row.checked_sub(1) {
            None => "04160000000000000000000000000000".to_string(),
            Some(n) => format!("0411{:02x}{:02x}000000000000000000000000", n % 256, n / 256),
        })
        .collect();
    let file = text(&lines.iter().map(String::as_str).collect::<Vec<_>>());
    let mut frames = lent(FRAMES_BYTES);
    for row in [0, 1, 511, 1_022, 1_023] {
        let followed: Vec<usize> = (0..=row as usize).collect();
        assert_eq!(smallest_part(&file, &mut frames, row), Ok(table(&followed)));
        let mut lines = lent(CUT_BYTES);
        assert_eq!(
            cut_text(&file, &mut frames, row, &mut lines),
            Ok(row as u16 + 1)
        );
        assert_eq!(lines, after(&file[..33 * followed.len()], CUT_BYTES));
    }
    assert_eq!(
        smallest_part(&file, &mut frames, 1_024),
        Err(NoPart::Refused(Outcome::Index { frame: 0 }))
    );
    assert_eq!(
        smallest_part(&[], &mut [], 0),
        Err(NoPart::Refused(Outcome::Index { frame: 0 }))
    );
    assert_eq!(
        cut_text(&[], &mut [], 0, &mut []),
        Err(NoPart::Refused(Outcome::Index { frame: 0 }))
    );
}
