//! Bytes that types fill: stored edges, by hand from WGSL's memory layout section and document 02's request 5.
mod common;

use common::*;
use gelmusko::{type_size, Outcome, TypeSize};

const F32: &str = "01010000020400000000000000000000";
const F16: &str = "01010000020200000000000000000000";
const VEC3: &str = "01020300020400000000000000000000";
const BOOL: &str = "01010000030100000000000000000000";

fn fills(align: u8, size: u32) -> TypeSize {
    TypeSize::Fills { align, size }
}

/// An array of so many elements, by its stride; a struct of so many members from `first` on, by its span; a member at an offset.
fn array(base: u16, count: u32, stride: u32) -> String {
    line(&[1, 8], base, [0, 0, 0, 0], count, stride)
}

fn structure(first: u16, count: u16, span: u32) -> String {
    let [low, high] = count.to_le_bytes();
    line(&[1, 9], first, [low, high, 0, 0], 0, span)
}

fn member(ty: u16, offset: u32) -> String {
    line(&[2, 0], ty, [0, 0, 0, 0], 0, offset)
}

fn line(front: &[u8; 2], named: u16, middle: [u8; 4], third: u32, last: u32) -> String {
    let bytes: Vec<u8> = front
        .iter()
        .copied()
        .chain(named.to_le_bytes())
        .chain(middle)
        .chain(third.to_le_bytes())
        .chain(last.to_le_bytes())
        .collect();
    bytes.iter().map(|b| format!("{b:02x}")).collect()
}

fn sizes(lines: &[String], types: u32) -> Vec<TypeSize> {
    let lines: Vec<&str> = lines.iter().map(String::as_str).collect();
    let mut frames = lent(16 * lines.len());
    (0..types)
        .map(|n| type_size(&text(&lines), &mut frames, n))
        .collect()
}

fn file(types: &[&str], more: &[String]) -> Vec<String> {
    types.iter().map(|l| l.to_string()).chain(more.iter().cloned()).collect()
}

#[test]
fn forms() {
    let types = [
        (F32, fills(4, 4)),
        (F16, fills(2, 2)),
        (VEC3, fills(16, 12)),
        ("01020300020200000000000000000000", fills(8, 6)),
        ("01030304020400000000000000000000", fills(16, 48)),
        ("01030402020200000000000000000000", fills(4, 16)),
        ("01050000000400000000000000000000", fills(4, 4)),
        (BOOL, TypeSize::Unmeasured { ty: 7 }),
        ("01030202000400000000000000000000", TypeSize::Unmeasured { ty: 8 }),
        ("01050000010800000000000000000000", TypeSize::Unmeasured { ty: 9 }),
        ("01c80000000000000000000000000000", TypeSize::Unmeasured { ty: 10 }),
    ];
    let lines: Vec<String> = types.iter().map(|(l, _)| l.to_string()).collect();
    let wanted: Vec<TypeSize> = types.iter().map(|(_, s)| *s).collect();
    assert_eq!(sizes(&lines, types.len() as u32), wanted);
    let mut frames = lent(16 * lines.len());
    let lines: Vec<&str> = lines.iter().map(String::as_str).collect();
    for n in [11, 65_536, u32::MAX] {
        assert_eq!(
            type_size(&text(&lines), &mut frames, n),
            TypeSize::Refused(Outcome::Index { frame: 0 })
        );
    }
}

#[test]
fn arrays() {
    let half = 1u32 << 31;
    let lines = file(
        &[VEC3],
        &[
            array(0, 5, 16),
            array(0, 5, 12),
            array(0, 1, 32),
            array(0, 1 << 28, 16),
            array(0, (1 << 28) - 1, 16),
            array(4, 2, half),
            array(0, 2, 24),
        ],
    );
    assert_eq!(
        sizes(&lines, 8)[1..],
        [
            fills(16, 80),
            TypeSize::Misplaced { ty: 2 },
            fills(16, 32),
            TypeSize::Huge { ty: 4 },
            fills(16, 0xffff_fff0),
            TypeSize::Huge { ty: 4 },
            TypeSize::Misplaced { ty: 7 },
        ]
    );
}

#[test]
fn structs() {
    // vec3 at 0 and f32 at 12; f32 at 11 overlaps; a span that is no multiple; one that is too short; a first offset past 0; an offset that is no multiple;
    // no members; an end past 2 to the 32
    let lines = file(
        &[F32, VEC3],
        &[
            structure(0, 2, 16),
            structure(2, 2, 16),
            structure(0, 2, 20),
            structure(0, 1, 8),
            structure(4, 1, 32),
            structure(6, 1, 32),
            structure(0, 0, 0),
            structure(5, 1, 0xffff_fffc),
            member(1, 0),
            member(0, 12),
            member(1, 0),
            member(0, 8),
            member(1, 16),
            member(0, 0xffff_fffc),
            member(1, 4),
        ],
    );
    assert_eq!(
        sizes(&lines, 10)[2..],
        [
            fills(16, 16),
            TypeSize::Misplaced { ty: 3 },
            TypeSize::Misplaced { ty: 4 },
            TypeSize::Misplaced { ty: 5 },
            fills(16, 32),
            TypeSize::Misplaced { ty: 7 },
            TypeSize::Unmeasured { ty: 8 },
            TypeSize::Misplaced { ty: 9 },
        ]
    );
}

#[test]
fn lowest_fault() {
    // 44 at type 1 comes before 42 at type 2, whatever the order of the members
    let lines = file(
        &[F32],
        &[
            array(0, 1 << 30, 4),
            BOOL.to_string(),
            structure(0, 2, 16),
            structure(1, 1, 16),
            member(2, 0),
            member(1, 4),
        ],
    );
    assert_eq!(
        sizes(&lines, 5)[1..],
        [
            TypeSize::Huge { ty: 1 },
            TypeSize::Unmeasured { ty: 2 },
            TypeSize::Huge { ty: 1 },
            TypeSize::Huge { ty: 1 },
        ]
    );
}

#[test]
fn deep_and_shared() {
    // 200 structs of two members each, both of the one before: each is twice as long, and struct 30 would end at 2 to the 32, so it is misplaced, and is
    // the lowest fault of all that follow
    let most = 0xffff_fffc;
    let doubled = |k: u16| (4u64 << k.min(40)).min(most) as u32;
    let mut lines = vec![F32.to_string()];
    for k in 0..200u16 {
        lines.push(structure(2 * k, 2, doubled(k + 1)));
    }
    for k in 0..200u16 {
        lines.push(member(k, 0));
        lines.push(member(k, doubled(k)));
    }
    let wanted: Vec<TypeSize> = (0..=200)
        .map(|k| if k < 30 { fills(4, 4 << k) } else { TypeSize::Misplaced { ty: 30 } })
        .collect();
    assert_eq!(sizes(&lines, 201), wanted);
    // 1,000 arrays, each of the one before
    let mut lines = vec![F32.to_string()];
    for k in 0..1_000u16 {
        lines.push(array(k, 1, 4));
    }
    assert_eq!(sizes(&lines, 1_001), vec![fills(4, 4); 1_001]);
}
