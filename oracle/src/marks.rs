//! Where the numbers that the source doesn't have stand: 22 and 33, and a comparison's 5 and 6.
//!
//! From the file and the answers before alone, by document 01. Nothing here calls the source.

use super::{
    file::{four, two, File, Frame},
    module::verdict_of,
};
use std::prelude::v1::*;

/// Why a row is newer.
#[derive(Debug)]
pub enum Newer {
    /// Its own kind.
    Own,
    /// An operand is; the row where it was met.
    Passed(usize),
    /// A type of unknown kind is looked into.
    Look,
}

/// The operands that a row's rule reads, in order.
fn operands(row: &Frame) -> Vec<usize> {
    let (first, second) = (two(row, 2), two(row, 4));
    match (row[1], row[6]) {
        // Multiply
        (18, 2) => vec![first, second],
        // All, Any; NumLevels, NumLayers, NumSamples
        (21, 0 | 1) | (16, 1..) => vec![],
        (6..=9 | 13..=21 | 23 | 33 | 34, _) => vec![first],
        _ => vec![],
    }
}

/// Whether the rule looks into the types of what it reads, and whether into a pointer's base too.
fn looks(row: &Frame) -> (bool, bool) {
    match (row[1], row[6]) {
        // Access, AccessIndex, Load, CooperativeLoad
        (6 | 7 | 13 | 33, _) => (true, true),
        // Splat, Swizzle, images, IsNan, IsInf, As
        (8 | 9 | 14..=16 | 21 | 23, _) => (true, false),
        // Multiply, comparisons, LogicalAnd, LogicalOr
        (18, 2 | 5..=10 | 14 | 15) => (true, false),
        _ => (false, false),
    }
}

fn unknown(ty: &Frame) -> bool {
    !matches!(ty[1], 1..=14)
}

/// The form of an answer that has a type, laid as a type.
fn form<'a>(file: &'a File, answer: &'a Frame) -> &'a Frame {
    match answer[0] {
        8 => &file.types[two(answer, 2)],
        _ => answer,
    }
}

/// Whether a look into the answer's type, and into a pointer's base if `through`, meets an unknown kind.
fn meets(file: &File, answer: &Frame, through: bool) -> bool {
    let form = form(file, answer);
    unknown(form) || through && form[1] == 6 && unknown(&file.types[two(form, 2)])
}

pub fn row(file: &File, answers: &[Frame], at: usize) -> Option<Newer> {
    let row = &file.rows[at];
    if !matches!(row[1], 1..=21 | 23..=34) {
        return Some(Newer::Own);
    }
    let read = operands(row);
    for operand in &read {
        let answer = &answers[*operand];
        match (answer[0], answer[1]) {
            (10, 22) => return Some(Newer::Passed(two(answer, 2))),
            (10, _) => return None,
            _ => {}
        }
    }
    let (looks, through) = looks(row);
    if looks && read.iter().any(|operand| meets(file, &answers[*operand], through)) {
        return Some(Newer::Look);
    }
    None
}

/// A type's canonical form: a pointer to a scalar or vector type as value pointer. Family left out.
fn canonical(file: &File, answer: &Frame) -> Frame {
    let mut form = *form(file, answer);
    form[0] = 9;
    if form[1] == 6 {
        let base = &file.types[two(&form, 2)];
        if matches!(base[1], 1 | 2) {
            form[1..6].copy_from_slice(&[7, base[2], 0, base[4], base[5]]);
        }
    }
    form
}

/// Whether two answers are the same type. None: a look meets an unknown kind.
fn same(file: &File, left: &Frame, right: &Frame) -> Option<bool> {
    if no_look(file, left, right) {
        return Some(left == right);
    }
    if meets(file, left, true) || meets(file, right, true) {
        return None;
    }
    Some(canonical(file, left) == canonical(file, right))
}

/// Identical answers, or the number of a struct on either side.
fn no_look(file: &File, left: &Frame, right: &Frame) -> bool {
    let structs = |answer: &Frame| answer[0] == 8 && form(file, answer)[1] == 9;
    left == right || structs(left) || structs(right)
}

/// The verdict of compose row `at`, if it is 22 or 33.
pub fn verdict(file: &File, answers: &[Frame], at: usize) -> Option<Frame> {
    let row = &file.rows[at];
    let ty = &file.types[two(row, 2)];
    if unknown(ty) {
        return Some(verdict_of(at, 22, u32::MAX, 0));
    }
    let count = two(row, 4);
    let expected = match (ty[1], ty[4]) {
        (2, _) => count,
        (3, _) => ty[2] as usize,
        (8, 0) => four(ty, 8) as usize,
        (9, _) => two(ty, 4),
        _ => return None,
    };
    if count != expected {
        return None;
    }
    for part in 0..count {
        let component = &file.components[four(row, 12) as usize + part];
        let answer = &answers[two(component, 2)];
        if answer[0] == 10 {
            let number = if answer[1] == 22 { 22 } else { 33 };
            return Some(verdict_of(at, number, part as u32, 0));
        }
        let number = |ty: usize| {
            let mut frame = [0; 16];
            frame[0] = 8;
            frame[2..4].copy_from_slice(&(ty as u16).to_le_bytes());
            frame
        };
        let passes = match ty[1] {
            2 | 3 if meets(file, answer, false) => None,
            2 => {
                let form = form(file, answer);
                Some(matches!(form[1], 1 | 2) && form[4..6] == ty[4..6])
            }
            3 => {
                let form = form(file, answer);
                Some(form[1..6] == [2, ty[3], 0, ty[4], ty[5]])
            }
            8 => same(file, &number(two(ty, 2)), answer),
            _ => {
                let member = &file.members[two(ty, 2) + part];
                same(file, &number(two(member, 2)), answer)
            }
        };
        match passes {
            None => return Some(verdict_of(at, 22, part as u32, 0)),
            Some(false) => return None,
            Some(true) => {}
        }
    }
    None
}

#[derive(Debug)]
pub enum Compared {
    /// Number 5.
    Field,
    /// Number 6.
    Index,
    /// Number 22.
    Newer,
    /// Answered with no look into either type.
    NoLook,
    Known,
}

/// Whether the byte values of a frame handed in are those of a type number or a value.
fn sound(frame: &Frame) -> bool {
    let zero = |from: usize, to: usize| frame[from..to].iter().all(|byte| *byte == 0);
    let scalar = frame[4] <= 5 && matches!(frame[5], 1 | 2 | 4 | 8);
    let size = |at: usize| matches!(frame[at], 2..=4);
    let wide = |at: usize| matches!(frame[at], 8 | 16);
    let space = match frame[6] {
        4 => frame[7] <= 7,
        0..=9 => frame[7] == 0,
        _ => false,
    };
    let count = match frame[4] {
        0 => four(frame, 8) != 0,
        1 => true,
        2 => four(frame, 8) == 0,
        _ => false,
    };
    match (frame[0], frame[1]) {
        (8, 0) => zero(4, 16),
        (9, 1 | 5) => zero(2, 4) && scalar && zero(6, 16),
        (9, 2) => size(2) && frame[3] == 0 && scalar && zero(6, 16),
        (9, 3) => size(2) && size(3) && scalar && zero(6, 16),
        (9, 4) => wide(2) && wide(3) && scalar && frame[6] <= 2 && zero(7, 16),
        (9, 6) => zero(4, 6) && space && zero(8, 16),
        (9, 7) => (frame[2] == 0 || size(2)) && frame[3] == 0 && scalar && space && zero(8, 16),
        (9, 8) => count && zero(5, 8),
        (9, 14) => count && zero(5, 8) && zero(12, 16),
        (9, 10) => {
            let class = match frame[4] {
                0 => frame[5] <= 5 && frame[6] <= 1 && frame[7] == 0,
                1 => frame[5] == 0 && frame[6] <= 1 && frame[7] == 0,
                2 => zero(5, 8),
                3 => frame[5] <= 40 && frame[6] == 0 && frame[7] <= 7,
                _ => false,
            };
            matches!(frame[2], 1..=4) && frame[3] <= 1 && class && zero(8, 16)
        }
        (9, 11..=13) => frame[2] <= 1 && zero(3, 16),
        _ => false,
    }
}

/// Whether the numbers of a sound frame are in range.
fn in_range(file: &File, frame: &Frame) -> bool {
    let names = frame[0] == 8 || matches!(frame[1], 6 | 8 | 14);
    let pending = frame[0] == 9 && matches!(frame[1], 8 | 14) && frame[4] == 1;
    (!names || two(frame, 2) < file.types.len())
        && (!pending || (four(frame, 8) as usize) < file.items[2].len())
}

pub fn compare(file: &File, left: &Frame, right: &Frame) -> Compared {
    for frame in [left, right] {
        if !sound(frame) {
            return Compared::Field;
        }
        if !in_range(file, frame) {
            return Compared::Index;
        }
    }
    if no_look(file, left, right) {
        return Compared::NoLook;
    }
    match same(file, left, right) {
        None => Compared::Newer,
        Some(_) => Compared::Known,
    }
}
