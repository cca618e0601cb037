//! The lines of a file, by family. What the fields hold is read in `module`.

use std::prelude::v1::*;

pub type Frame = [u8; 16];

/// Code 2: the file or a frame handed in is not sound. Code 3: the marks and the source differ.
#[derive(Debug)]
pub struct Fault {
    pub code: i32,
    pub text: String,
}

impl Fault {
    pub fn bad(text: String) -> Self {
        Self { code: 2, text }
    }
}

#[derive(Default)]
pub struct File {
    pub types: Vec<Frame>,
    pub members: Vec<Frame>,
    /// By kind, 1 to 8.
    pub items: [Vec<Frame>; 9],
    pub rows: Vec<Frame>,
    pub components: Vec<Frame>,
}

/// The number in bytes `at` and `at + 1`.
pub fn two(frame: &Frame, at: usize) -> usize {
    u16::from_le_bytes([frame[at], frame[at + 1]]) as usize
}

pub fn four(frame: &Frame, at: usize) -> u32 {
    u32::from_le_bytes([frame[at], frame[at + 1], frame[at + 2], frame[at + 3]])
}

pub fn digits(frame: &Frame) -> String {
    frame.iter().map(|byte| format!("{byte:02x}")).collect()
}

pub fn frame(digits: &[u8]) -> Result<Frame, Fault> {
    let torn = || Fault::bad(format!("not 32 digits: {}", String::from_utf8_lossy(digits)));
    let digit = |byte: u8| match byte {
        b'0'..=b'9' => Ok(byte - b'0'),
        b'a'..=b'f' => Ok(byte - b'a' + 10),
        _ => Err(torn()),
    };
    if digits.len() != 32 {
        return Err(torn());
    }
    let mut frame = [0; 16];
    for (at, byte) in frame.iter_mut().enumerate() {
        *byte = digit(digits[2 * at])? * 16 + digit(digits[2 * at + 1])?;
    }
    Ok(frame)
}

impl File {
    pub fn read(text: &[u8]) -> Result<Self, Fault> {
        let mut file = Self::default();
        let mut before = (0, 0);
        if text.len() > 33_792 {
            return Err(Fault::bad(String::from("over 1,024 frames")));
        }
        for (at, line) in text.split_inclusive(|byte| *byte == b'\n').enumerate() {
            let [line @ .., b'\n'] = line else {
                return Err(Fault::bad(format!("line {at} has no feed")));
            };
            let frame = frame(line)?;
            let (family, kind) = (frame[0], frame[1]);
            let place = (family, if family == 3 { kind } else { 0 });
            let twice = place == before && matches!(place, (3, 7 | 8));
            if place < before || twice {
                return Err(Fault::bad(format!("frame {at} is out of order")));
            }
            before = place;
            match (family, kind) {
                (1, _) => file.types.push(frame),
                (2, 0) => file.members.push(frame),
                (3, 1..=8) => file.items[kind as usize].push(frame),
                (4, _) => file.rows.push(frame),
                (5, 0) => file.components.push(frame),
                _ => return Err(Fault::bad(format!("frame {at} is of no known sort"))),
            }
        }
        Ok(file)
    }
}
