//! Files that the tests read, and bytes that stand for what was there before.
#![allow(dead_code)]

/// What a lent buffer is filled with, so that a changed byte is seen.
pub const BEFORE: u8 = 0xa5;

pub fn lent(bytes: usize) -> Vec<u8> {
    vec![BEFORE; bytes]
}

/// Lines, each with its line feed.
pub fn text(lines: &[&str]) -> Vec<u8> {
    lines
        .iter()
        .flat_map(|line| line.bytes().chain([b'\n']))
        .collect()
}

/// The frames that lines stand for, one after the other.
pub fn bytes(lines: &[&str]) -> Vec<u8> {
    lines
        .iter()
        .flat_map(|line| {
            (0..line.len() / 2)
                .map(move |i| u8::from_str_radix(&line[2 * i..2 * i + 2], 16).expect("digits"))
        })
        .collect()
}

/// Document 01's file: f32, vec3 of it, a type of unknown kind, two variables and six rows.
pub const PAPER: &[&str] = &[
    "01010000020400000000000000000000",
    "01020300020400000000000000000000",
    "01c80000000000000000000000000000",
    "03050100000000000000000000000000",
    "03050200000000000000000000000000",
    "040c0000000000000000000000000000",
    "04070000000000000000000002000000",
    "040d0100000000000000000000000000",
    "040c0100000000000000000000000000",
    "040d0300000000000000000000000000",
    "04070000000000000000000003000000",
];

/// What is handed back of it.
pub const PAPER_ANSWERS: &[&str] = &[
    "09060100000000000000000000000000",
    "09070000020400000000000000000000",
    "09010000020400000000000000000000",
    "09060200000000000000000000000000",
    "0a160400000000000000000000000000",
    "0a0a0000030000000000000000000000",
];

/// f32, vec3 and vec4; row 2 composes a vec4 from a vec3 and a scalar, row 3 one from two vec3.
pub const COMPOSES: &[&str] = &[
    "01010000020400000000000000000000",
    "01020300020400000000000000000000",
    "01020400020400000000000000000000",
    "04040000000000000000000000000000",
    "04040100000000000000000000000000",
    "04050200020000000000000000000000",
    "04050200020000000000000002000000",
    "05000100000000000000000000000000",
    "05000000000000000000000000000000",
    "05000100000000000000000000000000",
    "05000100000000000000000000000000",
];

/// f32; two alike structs of one f32; a pointer to f32 and one to a struct; a type of unknown kind, and a pointer to it; the members.
pub const TYPES: &[&str] = &[
    "01010000020400000000000000000000", // 0
    "01090000010000000000000004000000", // 1
    "01090100010000000000000004000000", // 2
    "01060000000000000000000000000000", // 3
    "01060100000000000000000000000000", // 4
    "01c80000000000000000000000000000", // 5
    "01060500000000000000000000000000", // 6
    "02000000000000000000000000000000",
    "02000000000000000000000000000000",
];

/// Refused at frame 1: out of order (4), a constant array with count 0 (5), a row that names type 1 of one type (6).
pub const DISORDERED: &[&str] = &[
    "04040000000000000000000000000000",
    "01010000020400000000000000000000",
];
pub const UNFIT: &[&str] = &[
    "01010000020400000000000000000000",
    "01080000000000000000000000000000",
];
pub const STRAY: &[&str] = &[
    "01010000020400000000000000000000",
    "04040100000000000000000000000000",
];
