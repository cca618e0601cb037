//! Two kernels in one file, by hand from document 02's request 14: a join, its answers, every outcome, and every lent byte after it.
mod common;

use common::*;
use gelmusko::{
    ffi, join_files, type_rows, Limit, NoJoin, Outcome, Pass, ANSWERS_BYTES, FRAMES_BYTES,
    JOINED_BYTES,
};

/// Types, a member, an override, an argument, a local, rows and a component.
const FIRST: &[&str] = &[
    "01010000020400000000000000000000", // 0  f32
    "01080000010000000000000004000000", // 1  array of it, of override 0's count
    "01090000010000000000000004000000", // 2  struct of member 0
    "02000000000000000000000000000000",
    "03020000000000000000000000000000",
    "03040000000000000000000000000000",
    "03050200000000000000000000000000",
    "040a0000000000000000000000000000", // 0  argument 0
    "040c0000000000000000000000000000", // 1  local 0
    "04070100000000000000000000000000", // 2  its member 0
    "04050200010000000000000000000000", // 3  the struct composed of row 0
    "05000000000000000000000000000000",
];

/// The same sorts, constants, globals and functions, and more of each; component 0 is in no compose.
const SECOND: &[&str] = &[
    "01020300020400000000000000000000", // 0  vec3
    "01010000020400000000000000000000", // 1  f32
    "01060100000000000000000000000000", // 2  pointer to 1
    "010e0100010000000100000000000000", // 3  binding array of 1, of override 1's count
    "01090000020000000000000020000000", // 4  struct of members 0 and 1
    "02000100000000000000000000000000",
    "02000000000000000000000010000000",
    "03010100000000000000000000000000", // a constant
    "03020100000000000000000000000000", // two overrides
    "03020100000000000000000000000000",
    "03030400000001000000000000000000", // a private global
    "03040100000000000000000000000000", // two arguments
    "03040000000000000000000000000000",
    "03060100010000000000000000000000", // a function with a result, and one without
    "03060000000000000000000000000000",
    "040a0000000000000000000001000000", // 0  argument 1
    "040b0000000000000000000000000000", // 1  global 0
    "04070100000000000000000001000000", // 2  its member 1
    "04020000000000000000000000000000", // 3  constant 0
    "04030100000000000000000000000000", // 4  override 1
    "04180000000000000000000000000000", // 5  result of function 0
    "04180100000000000000000000000000", // 6  of function 1, which has none
    "04120000030002000000000000000000", // 7  0 * 3
    "04050000030000000000000001000000", // 8  vec3 composed of row 3, thrice
    "04070800000000000000000005000000", // 9  8[5], out of bounds
    "04100000000001000000000000000000", // 10 a query that names no row
    "04150000000000000000000000000000", // 11 All, which names none
    "04040200000000000000000000000000", // 12 a pointer
    "040d0c00000000000000000000000000", // 13 load of 12
    "05000000000000000000000000000000",
    "05000300000000000000000000000000",
    "05000300000000000000000000000000",
    "05000300000000000000000000000000",
];

/// The join: the second's types are past 3, members past 1, overrides past 1, arguments past 1, rows past 4, components past 1.
const JOIN: &[&str] = &[
    "01010000020400000000000000000000",
    "01080000010000000000000004000000",
    "01090000010000000000000004000000",
    "01020300020400000000000000000000",
    "01010000020400000000000000000000",
    "01060400000000000000000000000000",
    "010e0400010000000200000000000000",
    "01090100020000000000000020000000",
    "02000000000000000000000000000000",
    "02000400000000000000000000000000",
    "02000300000000000000000010000000",
    "03010400000000000000000000000000",
    "03020000000000000000000000000000",
    "03020400000000000000000000000000",
    "03020400000000000000000000000000",
    "03030700000001000000000000000000",
    "03040000000000000000000000000000",
    "03040400000000000000000000000000",
    "03040300000000000000000000000000",
    "03050200000000000000000000000000",
    "03060400010000000000000000000000",
    "03060000000000000000000000000000",
    "040a0000000000000000000000000000",
    "040c0000000000000000000000000000",
    "04070100000000000000000000000000",
    "04050200010000000000000000000000",
    "040a0000000000000000000002000000",
    "040b0000000000000000000000000000",
    "04070500000000000000000001000000",
    "04020000000000000000000000000000",
    "04030200000000000000000000000000",
    "04180000000000000000000000000000",
    "04180100000000000000000000000000",
    "04120400070002000000000000000000",
    "04050300030000000000000002000000",
    "04070c00000000000000000005000000",
    "04100000000001000000000000000000",
    "04150000000000000000000000000000",
    "04040500000000000000000000000000",
    "040d1000000000000000000000000000",
    "05000000000000000000000000000000",
    "05000400000000000000000000000000",
    "05000700000000000000000000000000",
    "05000700000000000000000000000000",
    "05000700000000000000000000000000",
];

/// The second before the first: its numbers are past 5 types, 2 members, 2 overrides, 2 arguments, 14 rows, 4 components.
const TURNED: &[&str] = &[
    "01020300020400000000000000000000",
    "01010000020400000000000000000000",
    "01060100000000000000000000000000",
    "010e0100010000000100000000000000",
    "01090000020000000000000020000000",
    "01010000020400000000000000000000",
    "01080500010000000200000004000000",
    "01090200010000000000000004000000",
    "02000100000000000000000000000000",
    "02000000000000000000000010000000",
    "02000500000000000000000000000000",
    "03010100000000000000000000000000",
    "03020100000000000000000000000000",
    "03020100000000000000000000000000",
    "03020500000000000000000000000000",
    "03030400000001000000000000000000",
    "03040100000000000000000000000000",
    "03040000000000000000000000000000",
    "03040500000000000000000000000000",
    "03050700000000000000000000000000",
    "03060100010000000000000000000000",
    "03060000000000000000000000000000",
    "040a0000000000000000000001000000",
    "040b0000000000000000000000000000",
    "04070100000000000000000001000000",
    "04020000000000000000000000000000",
    "04030100000000000000000000000000",
    "04180000000000000000000000000000",
    "04180100000000000000000000000000",
    "04120000030002000000000000000000",
    "04050000030000000000000001000000",
    "04070800000000000000000005000000",
    "04100000000001000000000000000000",
    "04150000000000000000000000000000",
    "04040200000000000000000000000000",
    "040d0c00000000000000000000000000",
    "040a0000000000000000000002000000",
    "040c0000000000000000000000000000",
    "04070f00000000000000000000000000",
    "04050700010000000000000004000000",
    "05000000000000000000000000000000",
    "05000300000000000000000000000000",
    "05000300000000000000000000000000",
    "05000300000000000000000000000000",
    "05000e00000000000000000000000000",
];

const FIRST_ANSWERS: &[&str] = &[
    "08000000000000000000000000000000",
    "09060200000000000000000000000000",
    "09060000000000000000000000000000",
    "08000200000000000000000000000000",
    "0b000300000000000000000000000000",
];
const SECOND_ANSWERS: &[&str] = &[
    "08000000000000000000000000000000",
    "09060400000001000000000000000000",
    "09060000000001000000000000000000",
    "08000100000000000000000000000000",
    "08000100000000000000000000000000",
    "08000100000000000000000000000000",
    "0a110000000000000000000000000000",
    "08000000000000000000000000000000",
    "08000000000000000000000000000000",
    "0b000800000000000000000000000000",
    "0a0a0800050000000000000000000000",
    "09010000010400000000000000000000",
    "09010000030100000000000000000000",
    "08000200000000000000000000000000",
    "08000100000000000000000000000000",
];
/// The second's in the join.
const MOVED_ANSWERS: &[&str] = &[
    "08000300000000000000000000000000",
    "09060700000001000000000000000000",
    "09060300000001000000000000000000",
    "08000400000000000000000000000000",
    "08000400000000000000000000000000",
    "08000400000000000000000000000000",
    "0a110000000000000000000000000000",
    "08000300000000000000000000000000",
    "08000300000000000000000000000000",
    "0b000c00000000000000000000000000",
    "0a0a0c00050000000000000000000000",
    "09010000010400000000000000000000",
    "09010000030100000000000000000000",
    "08000500000000000000000000000000",
    "08000400000000000000000000000000",
];

/// Accepted files that may not be joined.
const UNJOINABLE: &[&[&str]] = &[
    &["01c80000000000000000000000000000"], // a type of unknown kind
    &["04230000000000000000000000000000"], // a row of unknown kind
    &["04160000000000000000000000000000"], // Math
    &[
        "01010000020400000000000000000000",
        "03070000000000000000000000000000", // a special type
    ],
    &[
        "01010000020400000000000000000000",
        "03080000000000000000000000000000",
    ],
    &["040a0000000000000000000000000000"], // 19
    &["041c0000000000000000000000000000"], // 20
    &["041e0000000000000000000000000000"],
];

const F: usize = 16 * FIRST.len();
const S: usize = 16 * SECOND.len();
const J: usize = 33 * JOIN.len();
const OF_FIRST: u8 = 0;
const OF_SECOND: u8 = 1;
const OF_JOIN: u8 = 2;

/// What `written` leaves in a lent buffer of so many bytes.
fn after(written: &[u8], bytes: usize) -> Vec<u8> {
    let mut buffer = lent(bytes);
    buffer[..written.len()].copy_from_slice(written);
    buffer
}

/// The frame of a number and a place, below 256 each, and whose it is.
fn said(number: u8, place: u8, whose: u8) -> Vec<u8> {
    let mut frame = vec![0; 16];
    (frame[0], frame[1], frame[2], frame[4]) = (10, number, place, whose);
    frame
}

/// What a call returns, and its buffers after it: frames, more, joined and out.
type Left = (u32, [Vec<u8>; 4]);

/// The library's own function, with lent buffers of these sizes.
fn join(first: &[u8], second: &[u8], limit: u32, sizes: [usize; 4]) -> Left {
    let mut lent = sizes.map(lent);
    let [f, m, j, o] = lent.each_mut().map(|buffer| buffer.as_mut_ptr());
    let [f_len, m_len, j_len, o_len] = sizes;
    let (t, t_len, u, u_len) = (first.as_ptr(), first.len(), second.as_ptr(), second.len());
    let number = unsafe {
        ffi::gelmusko_join_files(
            t, t_len, u, u_len, limit, f, f_len, m, m_len, j, j_len, o, o_len,
        )
    };
    (number, lent)
}

/// The same by the safe function; buffers of 400, 1,000 and 2,000 bytes.
fn safely(first: &[u8], second: &[u8], limit: u32) -> Result<u16, NoJoin> {
    Limit(limit).join_files(
        first,
        second,
        &mut lent(400),
        &mut lent(1_000),
        &mut lent(2_000),
    )
}

fn answers(file: &[u8], pass: Pass) -> Vec<u8> {
    let mut answers = lent(ANSWERS_BYTES);
    assert_eq!(
        type_rows(file, pass, &mut lent(FRAMES_BYTES), &mut answers),
        Outcome::Accepted
    );
    answers
}

/// Texts with numbers 1, 2, 4, 5 and 6 within 100 frames, with these and their places; and the frames that are written.
fn refused() -> Vec<(Vec<u8>, u8, u8, Outcome, Vec<u8>)> {
    let mut torn = text(FIRST);
    torn[33 * 2] = b'x';
    vec![
        (vec![0; 3_301], 1, 100, Outcome::Long { limit: 100 }, vec![]),
        (torn, 2, 2, Outcome::Torn { line: 2 }, vec![]),
        (
            text(DISORDERED),
            4,
            1,
            Outcome::Order { frame: 1 },
            bytes(DISORDERED),
        ),
        (text(UNFIT), 5, 1, Outcome::Field { frame: 1 }, bytes(UNFIT)),
        (text(STRAY), 6, 1, Outcome::Index { frame: 1 }, bytes(STRAY)),
    ]
}

#[test]
fn joins_by_hand() {
    let (first, second) = (text(FIRST), text(SECOND));
    let pairs = [
        (&first, &second, JOIN, FIRST, SECOND),
        (&second, &first, TURNED, SECOND, FIRST),
    ];
    for (a, b, wanted, fa, fb) in pairs {
        let (mut frames, mut more, mut joined) =
            (lent(FRAMES_BYTES), lent(FRAMES_BYTES), lent(JOINED_BYTES));
        let lines = join_files(a, b, &mut frames, &mut more, &mut joined);
        assert_eq!(lines, Ok(wanted.len() as u16));
        for (k, line) in wanted.iter().enumerate() {
            let got = String::from_utf8_lossy(&joined[33 * k..33 * k + 33]);
            assert_eq!(got, format!("{line}\n"), "line {k}");
        }
        assert_eq!(joined, after(&text(wanted), JOINED_BYTES));
        assert_eq!(frames, after(&bytes(fa), FRAMES_BYTES));
        assert_eq!(more, after(&bytes(fb), FRAMES_BYTES));
    }
}

#[test]
fn every_row_answers_as_alone() {
    // in the second pass a product is a value
    const PRODUCT: &str = "09020300020400000000000000000000";
    let by = |pass, answers: &[&'static str]| {
        let mut answers = answers.to_vec();
        if pass == Pass::Second {
            answers[7] = PRODUCT;
        }
        answers
    };
    for pass in [Pass::First, Pass::Second] {
        let second = by(pass, SECOND_ANSWERS);
        let both = [FIRST_ANSWERS, &by(pass, MOVED_ANSWERS)].concat();
        for (file, wanted) in [(FIRST, FIRST_ANSWERS), (SECOND, &second), (JOIN, &both)] {
            let wanted = after(&bytes(wanted), ANSWERS_BYTES);
            assert!(answers(&text(file), pass) == wanted, "{pass:?}");
        }
    }
}

#[test]
fn buffers_short_exact_and_long() {
    let (first, second) = (text(FIRST), text(SECOND));
    let short = |whose| said(3, 0, whose);
    for f in [0, 1, 16, F - 16, F - 1] {
        // the first's 3 leaves all as it was, whatever the others are
        for (m, j) in [(0, 0), (S, J)] {
            let left = [lent(f), lent(m), lent(j), short(OF_FIRST)];
            assert_eq!(join(&first, &second, 0, [f, m, j, 16]), (3, left));
        }
    }
    for m in [0, 1, 16, S - 16, S - 1] {
        // the second's leaves the first's frames
        for (f, j) in [(F, 0), (F + 5, J)] {
            let left = [after(&bytes(FIRST), f), lent(m), lent(j), short(OF_SECOND)];
            assert_eq!(join(&first, &second, 0, [f, m, j, 16]), (3, left));
        }
    }
    for (f, m) in [(F, S), (F + 1, S + 16), (FRAMES_BYTES, FRAMES_BYTES)] {
        let (frames, more) = (after(&bytes(FIRST), f), after(&bytes(SECOND), m));
        for j in [0, 1, 33, J - 33, J - 1] {
            let left = [frames.clone(), more.clone(), lent(j), short(OF_JOIN)];
            assert_eq!(join(&first, &second, 0, [f, m, j, 16]), (3, left));
        }
        for j in [J, J + 1, J + 33, JOINED_BYTES] {
            let joined = after(&text(JOIN), j);
            let left = [frames.clone(), more.clone(), joined, said(0, 45, 0)];
            assert_eq!(join(&first, &second, 0, [f, m, j, 16]), (0, left));
        }
    }
    let mut room = [lent(400), lent(1_000), lent(2_000)];
    let [f, m, j] = &mut room;
    let of_first = NoJoin::First(Outcome::Short);
    let of_second = NoJoin::Second(Outcome::Short);
    assert_eq!(
        join_files(&first, &second, &mut f[..F - 1], m, j),
        Err(of_first)
    );
    assert_eq!(
        join_files(&first, &second, f, &mut m[..S - 1], j),
        Err(of_second)
    );
    assert_eq!(
        join_files(&first, &second, f, m, &mut j[..J - 1]),
        Err(NoJoin::Short)
    );
    assert_eq!(join_files(&first, &second, f, m, j), Ok(45));
}

#[test]
fn out_short_exact_and_long() {
    let (first, second) = (text(FIRST), text(SECOND));
    for o in 0..16 {
        // nothing is changed; the number is the first text's 1 or 2, else 3
        let mut wanted = vec![
            (first.clone(), second.clone(), 3),
            (first.clone(), vec![0; 9], 3),
        ];
        wanted.push((text(UNJOINABLE[0]), second.clone(), 3));
        for (file, number, _, _, _) in refused() {
            let number = if number < 3 { number } else { 3 };
            wanted.push((file.clone(), second.clone(), number));
            wanted.push((first.clone(), file, 3));
        }
        for (a, b, number) in wanted {
            for [f, m, j] in [[0, 0, 0], [F, S, J]] {
                let left = [lent(f), lent(m), lent(j), lent(o)];
                assert_eq!(join(&a, &b, 100, [f, m, j, o]), (number.into(), left));
            }
        }
    }
    for o in [16, 17, 32, 100] {
        let out = |a: &[u8], b: &[u8]| join(a, b, 0, [400, 1_000, 2_000, o]).1[3].clone();
        assert_eq!(out(&first, &second), after(&said(0, 45, 0), o));
        assert_eq!(out(&first, b"x"), after(&said(2, 0, OF_SECOND), o));
        assert_eq!(
            out(&first, &text(UNJOINABLE[0])),
            after(&said(49, 0, OF_JOIN), o)
        );
    }
}

#[test]
fn refused_files() {
    let first = text(FIRST);
    for (file, number, place, outcome, written) in refused() {
        // the first's number comes before the second's, and leaves the second's frames as they were
        for second in [
            text(SECOND),
            text(UNJOINABLE[0]),
            b"x".to_vec(),
            vec![0; 3_301],
        ] {
            for j in [0, 2_000] {
                let left = [
                    after(&written, 400),
                    lent(1_000),
                    lent(j),
                    said(number, place, OF_FIRST),
                ];
                let got = join(&file, &second, 100, [400, 1_000, j, 16]);
                assert_eq!(got, (number.into(), left));
            }
            assert_eq!(safely(&file, &second, 100), Err(NoJoin::First(outcome)));
        }
        // the second's comes before 49
        for first in [&first, &text(UNJOINABLE[1])] {
            let mut frames = lent(400);
            assert_eq!(gelmusko::read_file(first, &mut frames), Outcome::Accepted);
            for j in [0, 2_000] {
                let left = [
                    frames.clone(),
                    after(&written, 1_000),
                    lent(j),
                    said(number, place, OF_SECOND),
                ];
                let got = join(first, &file, 100, [400, 1_000, j, 16]);
                assert_eq!(got, (number.into(), left));
            }
            assert_eq!(safely(first, &file, 100), Err(NoJoin::Second(outcome)));
        }
    }
}

#[test]
fn unjoinable_files() {
    let first = text(FIRST);
    for lines in UNJOINABLE {
        let file = text(lines);
        // 49 comes before 1 and 3 of the join
        for (limit, j) in [(0, 2_000), (0, 0), (12, 0), (12, 2_000)] {
            let (a, b) = (after(&bytes(FIRST), 400), after(&bytes(lines), 400));
            let out = said(49, 0, OF_JOIN);
            let left = [a.clone(), b.clone(), lent(j), out.clone()];
            assert_eq!(join(&first, &file, limit, [400, 400, j, 16]), (49, left));
            let left = [b.clone(), a, lent(j), out.clone()];
            assert_eq!(join(&file, &first, limit, [400, 400, j, 16]), (49, left));
            let left = [b.clone(), b, lent(j), out];
            assert_eq!(join(&file, &file, limit, [400, 400, j, 16]), (49, left));
            assert_eq!(safely(&first, &file, limit), Err(NoJoin::Unjoinable));
        }
    }
}

#[test]
fn limits() {
    let (first, second) = (text(FIRST), text(SECOND));
    for limit in [0, 45, 256, 1_024, 1_025, u32::MAX] {
        assert_eq!(safely(&first, &second, limit), Ok(45));
    }
    // over the join's, then over the second's, then over the first's
    for limit in [33, 44] {
        for j in [0, J, 2_000] {
            let left = [
                bytes(FIRST),
                bytes(SECOND),
                lent(j),
                said(1, limit as u8, OF_JOIN),
            ];
            assert_eq!(join(&first, &second, limit, [F, S, j, 16]), (1, left));
        }
        let limit = limit as u16;
        let long = NoJoin::Long { limit };
        assert_eq!(safely(&first, &second, limit.into()), Err(long));
    }
    for limit in [12, 32] {
        let long = NoJoin::Second(Outcome::Long { limit });
        assert_eq!(safely(&first, &second, limit.into()), Err(long));
    }
    for limit in [1, 11] {
        let long = NoJoin::First(Outcome::Long { limit });
        assert_eq!(safely(&first, &second, limit.into()), Err(long));
    }
}

#[test]
fn empty_and_longest() {
    // an empty file has no frames, and a join with it is the other file
    assert_eq!(join_files(&[], &[], &mut [], &mut [], &mut []), Ok(0));
    let (first, mut joined) = (text(FIRST), lent(2_000));
    for turned in [false, true] {
        joined.fill(BEFORE);
        let (mut frames, mut none) = (lent(F), []);
        let lines = if turned {
            join_files(&[], &first, &mut none, &mut frames, &mut joined)
        } else {
            join_files(&first, &[], &mut frames, &mut none, &mut joined)
        };
        assert_eq!(lines, Ok(12));
        assert_eq!(joined, after(&first, 2_000));
    }
    // rows that each read the one before: 512 twice fill a file, one more is too many
    let rows = |count: u16, start: u16| -> Vec<String> {
        let line = |row: u16| match row.checked_sub(1) {
            None => "04010000000001000000000000000000".to_string(),
            Some(n) => {
                let n = n + start;
                format!("0411{:02x}{:02x}000000000000000000000000", n % 256, n / 256)
            }
        };
        (0..count).map(line).collect()
    };
    let file = |lines: &[String]| text(&lines.iter().map(String::as_str).collect::<Vec<_>>());
    let (half, over) = (rows(512, 0), rows(513, 0));
    let (mut frames, mut more) = (lent(FRAMES_BYTES), lent(FRAMES_BYTES));
    let mut joined = lent(JOINED_BYTES);
    let (a, b) = (file(&half), file(&over));
    let long = Err(NoJoin::Long { limit: 1_024 });
    assert_eq!(
        join_files(&a, &b, &mut frames, &mut more, &mut joined),
        long
    );
    assert_eq!(joined, lent(JOINED_BYTES));
    // the two may be the same bytes
    assert_eq!(
        join_files(&a, &a, &mut frames, &mut more, &mut joined),
        Ok(1_024)
    );
    assert_eq!(joined, file(&[half, rows(512, 512)].concat()));
}
