//! Ranges of the bytes that types fill: every choice of counts of up to three overrides, tables of every length, and stored edges, by hand from WGSL's memory layout section
//! and document 02's request 6.
mod common;

use common::*;
use gelmusko::{size_range, type_size, Limit, Outcome, SizeRange, TypeSize, COUNTS};

const F32: &str = "01010000020400000000000000000000";
const F16: &str = "01010000020200000000000000000000";
const VEC3: &str = "01020300020400000000000000000000";
const VEC4: &str = "01020400020400000000000000000000";
const BOOL: &str = "01010000030100000000000000000000";
const OVERRIDE: &str = "03020000000000000000000000000000";

fn spans(align: u8, least: u32, greatest: u32) -> SizeRange {
    SizeRange::Spans {
        align,
        least,
        greatest,
    }
}

fn line(kind: [u8; 2], named: u16, middle: [u8; 4], third: u32, last: u32) -> String {
    let bytes = kind
        .into_iter()
        .chain(named.to_le_bytes())
        .chain(middle)
        .chain(third.to_le_bytes())
        .chain(last.to_le_bytes());
    bytes.map(|b| format!("{b:02x}")).collect()
}

/// An array of constant, pending or dynamic size, by its stride; a BindingArray of pending size; a struct of so many members from `first` on, by its span; a member.
fn array(base: u16, count: u32, stride: u32) -> String {
    line([1, 8], base, [0; 4], count, stride)
}

fn pending(base: u16, item: u32, stride: u32) -> String {
    line([1, 8], base, [1, 0, 0, 0], item, stride)
}

fn dynamic(base: u16, stride: u32) -> String {
    line([1, 8], base, [2, 0, 0, 0], 0, stride)
}

fn binding(base: u16, item: u32) -> String {
    line([1, 14], base, [1, 0, 0, 0], item, 0)
}

fn structure(first: u16, count: u16, span: u32) -> String {
    let [low, high] = count.to_le_bytes();
    line([1, 9], first, [low, high, 0, 0], 0, span)
}

fn member(ty: u16, offset: u32) -> String {
    line([2, 0], ty, [0; 4], 0, offset)
}

fn file(types: &[&str], more: &[String], overrides: usize) -> Vec<u8> {
    let lines = types.iter().map(|l| l.to_string());
    let lines = lines.chain(more.iter().cloned());
    let lines: Vec<String> = lines.chain(vec![OVERRIDE.to_string(); overrides]).collect();
    text(&lines.iter().map(String::as_str).collect::<Vec<_>>())
}

/// A table whose entries past these are 0.
fn table(counts: &[u32]) -> Vec<u32> {
    let mut table = vec![0; COUNTS];
    table[..counts.len()].copy_from_slice(counts);
    table
}

/// The first so many types.
fn ranges(text: &[u8], least: &[u32], greatest: &[u32], types: u32) -> Vec<SizeRange> {
    let mut frames = lent(16 * (text.len() / 33));
    (0..types)
        .map(|n| size_range(text, &mut frames, &table(least), &table(greatest), n))
        .collect()
}

/// A type as the choices below have it: alignment and size; a pending array by base, override and stride; a struct by its members.
enum Ty {
    Plain(u32, u32),
    Pending(usize, usize, u32),
    Struct(&'static [usize]),
}

fn round_up(align: u32, n: u32) -> u32 {
    n.div_ceil(align) * align
}

/// WGSL's alignment and size of type n at these counts.
fn at(types: &[Ty], counts: &[u32], n: usize) -> (u32, u32) {
    match types[n] {
        Ty::Plain(align, size) => (align, size),
        Ty::Pending(base, item, stride) => (at(types, counts, base).0, counts[item] * stride),
        Ty::Struct(members) => {
            let (mut widest, mut end) = (1, 0);
            for &m in members {
                let (align, size) = at(types, counts, m);
                widest = align.max(widest);
                end = round_up(align, end) + size;
            }
            (widest, round_up(widest, end))
        }
    }
}

/// Each of four counts for each override.
fn choices(least: &[u32]) -> Vec<Vec<u32>> {
    least.iter().fold(vec![vec![]], |before, &low| {
        before
            .iter()
            .flat_map(|choice| {
                (low..low + 4).map(move |count| choice.iter().copied().chain([count]).collect())
            })
            .collect()
    })
}

#[test]
fn every_choice_of_counts() {
    // pending arrays of f32, f16 (its stride no power of two), vec3 and a struct; structs with them at the front, between and at the end, twice, and at two depths
    let types = [
        Ty::Plain(4, 4),
        Ty::Plain(2, 2),
        Ty::Plain(16, 12),
        Ty::Pending(0, 0, 4),
        Ty::Pending(1, 1, 6),
        Ty::Pending(2, 2, 16),
        Ty::Struct(&[2, 4, 0]),
        Ty::Struct(&[3, 3]),
        Ty::Struct(&[1, 5, 1, 3]),
        Ty::Struct(&[1, 6, 4, 8, 2]),
    ];
    let text = |overrides: usize| {
        let item = |o: usize| o.min(overrides - 1) as u32;
        file(
            &[F32, F16, VEC3],
            &[
                pending(0, item(0), 4),
                pending(1, item(1), 6),
                pending(2, item(2), 16),
                structure(0, 3, 1),
                structure(3, 2, 0),
                structure(5, 4, 7),
                structure(9, 5, 3),
                member(2, 5),
                member(4, 3),
                member(0, 1),
                member(3, 9),
                member(3, 2),
                member(1, 8),
                member(5, 0),
                member(1, 0),
                member(3, 3),
                member(1, 0),
                member(6, 0),
                member(4, 1),
                member(8, 1),
                member(2, 1),
            ],
            overrides,
        )
    };
    for least in [
        vec![1],
        vec![5],
        vec![1, 1],
        vec![3, 2],
        vec![1, 1, 1],
        vec![2, 7, 4],
    ] {
        let (text, overrides) = (text(least.len()), least.len());
        let greatest: Vec<u32> = least.iter().map(|low| low + 3).collect();
        let all: Vec<Vec<(u32, u32)>> = choices(&least)
            .iter()
            .map(|choice| {
                let counts: Vec<u32> = (0..3).map(|o| choice[o.min(overrides - 1)]).collect();
                let sizes: Vec<_> = (0..types.len()).map(|n| at(&types, &counts, n)).collect();
                // one choice is a range of its own
                let wanted = sizes.iter().map(|&(a, z)| spans(a as u8, z, z));
                assert_eq!(
                    ranges(&text, choice, choice, types.len() as u32),
                    wanted.collect::<Vec<_>>()
                );
                sizes
            })
            .collect();
        assert_eq!(all.len(), 4usize.pow(overrides as u32));
        for (n, range) in ranges(&text, &least, &greatest, types.len() as u32)
            .into_iter()
            .enumerate()
        {
            let sizes = || all.iter().map(|sizes| sizes[n].1);
            assert_eq!(
                range,
                spans(
                    all[0][n].0 as u8,
                    sizes().min().expect("a choice"),
                    sizes().max().expect("a choice")
                )
            );
        }
    }
}

#[test]
fn tables_short_exact_and_long() {
    let good = file(&[F32], &[pending(0, 0, 4)], 1);
    let counts = |n: usize| vec![3; n];
    for (l, g) in [
        (0, 0),
        (0, 1_024),
        (1_024, 0),
        (1_023, 1_024),
        (1_024, 1_023),
        (1_023, 2_000),
    ] {
        // number 3 comes after 1 and 2, before 4 to 6, and whatever type is asked for
        for (text, outcome) in [
            (good.clone(), Outcome::Short),
            (vec![], Outcome::Short),
            (text(DISORDERED), Outcome::Short),
            (text(UNFIT), Outcome::Short),
            (text(STRAY), Outcome::Short),
            (vec![b'x'; 33], Outcome::Torn { line: 0 }),
            (vec![0; 33_793], Outcome::Long { limit: 1_024 }),
        ] {
            for n in [1, 7, u32::MAX] {
                let mut frames = lent(100);
                assert_eq!(
                    size_range(&text, &mut frames, &counts(l), &counts(g), n),
                    SizeRange::Refused(outcome)
                );
                assert_eq!(frames, lent(100));
            }
        }
        assert_eq!(
            Limit(2).size_range(&good, &mut lent(100), &counts(l), &counts(g), 0),
            SizeRange::Refused(Outcome::Long { limit: 2 })
        );
    }
    for (l, g) in [
        (1_024, 1_024),
        (1_025, 1_024),
        (1_024, 5_000),
        (9_000, 1_025),
    ] {
        let mut frames = lent(50);
        assert_eq!(
            size_range(&good, &mut frames, &counts(l), &counts(g), 1),
            spans(4, 12, 12)
        );
        assert_eq!(frames[48..], lent(2)[..]);
        assert_ne!(frames[..48], lent(48)[..]);
        // the file's own number, and a frame buffer too short
        for (text, outcome, written) in [
            (text(DISORDERED), Outcome::Order { frame: 1 }, true),
            (text(UNFIT), Outcome::Field { frame: 1 }, true),
            (text(STRAY), Outcome::Index { frame: 1 }, true),
            (good.clone(), Outcome::Short, false),
        ] {
            let mut frames = lent(32);
            assert_eq!(
                size_range(&text, &mut frames, &counts(l), &counts(g), 0),
                SizeRange::Refused(outcome)
            );
            assert_eq!(frames != lent(32), written);
        }
    }
}

#[test]
fn numbers_6_and_45() {
    let text = file(&[BOOL], &[pending(0, 0, 4)], 3);
    let index = SizeRange::Refused(Outcome::Index { frame: 0 });
    // every override is asked about, used or not; 6 before 45, and 45 before 42
    for (least, greatest, item) in [
        ([0, 1, 1], [5, 5, 5], 0),
        ([1, 6, 0], [5, 5, 5], 1),
        ([1, 1, 0], [1, 1, 0], 2),
        ([1, 1, u32::MAX], [1, 1, u32::MAX - 1], 2),
    ] {
        let span = SizeRange::Span { item };
        assert_eq!(ranges(&text, &least, &greatest, 3), [span, span, index]);
    }
    assert_eq!(
        ranges(&text, &[1; 3], &[u32::MAX; 3], 3),
        [
            SizeRange::Unmeasured { ty: 0 },
            SizeRange::Unmeasured { ty: 0 },
            index
        ]
    );
    for n in [65_536, u32::MAX] {
        let (counts, mut frames) = (table(&[]), lent(16 * 5));
        assert_eq!(size_range(&text, &mut frames, &counts, &counts, n), index);
    }
    // the most overrides that a file with an array over the last one can have; entries past them are free
    let text = file(&[F32], &[pending(0, 1_021, 4)], 1_022);
    let (mut least, mut greatest) = (vec![7; 1_024], vec![9; 1_024]);
    (least[1_022], greatest[1_022], least[1_023], greatest[1_023]) = (0, 0, 5, 4);
    let mut frames = lent(gelmusko::FRAMES_BYTES);
    assert_eq!(
        size_range(&text, &mut frames, &least, &greatest, 1),
        spans(4, 28, 36)
    );
    least[1_021] = 10;
    assert_eq!(
        size_range(&text, &mut frames, &least, &greatest, 0),
        SizeRange::Span { item: 1_021 }
    );
}

#[test]
fn laid_out_afresh() {
    // vec3, a pending array and vec4, at offsets and a span that are not read; the same offsets without the array are 43; a struct without one, inside one that has it
    let text = file(
        &[F32, VEC3, VEC4],
        &[
            pending(0, 0, 4),
            structure(0, 3, 0),
            structure(3, 2, 0),
            structure(5, 2, 0),
            pending(1, 0, 12),
            member(1, 0),
            member(3, 0),
            member(2, 0),
            member(1, 0),
            member(2, 0),
            member(3, 0),
            member(5, 0),
        ],
        1,
    );
    assert_eq!(
        ranges(&text, &[1], &[2], 8)[3..],
        [
            spans(4, 4, 8),
            spans(16, 32, 48),
            SizeRange::Misplaced { ty: 5 },
            SizeRange::Misplaced { ty: 5 },
            SizeRange::Misplaced { ty: 7 },
        ]
    );
    // request 5's own function has no counts
    let mut frames = lent(16 * 16);
    for n in [3, 4] {
        assert_eq!(
            type_size(&text, &mut frames, n),
            TypeSize::Unmeasured { ty: 3 }
        );
    }
}

#[test]
fn outside_the_list() {
    // an array over a pending one, or over what holds one, is named itself, though the pending one has 43; a BindingArray is no pending array
    let text = file(
        &[F32],
        &[
            pending(0, 0, 3),
            array(1, 2, 4),
            array(2, 2, 8),
            pending(1, 0, 4),
            dynamic(1, 4),
            array(5, 2, 4),
            structure(0, 1, 4),
            array(7, 2, 4),
            binding(0, 0),
            structure(1, 1, 4),
            member(1, 0),
            member(9, 0),
        ],
        1,
    );
    let unmeasured = |ty| SizeRange::Unmeasured { ty };
    assert_eq!(
        ranges(&text, &[2], &[2], 11)[1..],
        [
            SizeRange::Misplaced { ty: 1 },
            unmeasured(2),
            unmeasured(3),
            unmeasured(4),
            unmeasured(5),
            unmeasured(6),
            SizeRange::Misplaced { ty: 1 },
            unmeasured(8),
            unmeasured(9),
            unmeasured(9),
        ]
    );
}

#[test]
fn huge_by_the_greatest() {
    // 44 goes by the greatest size; of a struct laid out afresh too, and it comes before 43 of a higher type
    let text = file(
        &[F32],
        &[
            pending(0, 0, 4),
            pending(0, 1, 4),
            structure(0, 2, 8),
            array(0, 1, 3),
            structure(2, 2, 8),
            member(1, 0),
            member(0, 4),
            member(4, 0),
            member(2, 0),
        ],
        2,
    );
    assert_eq!(
        ranges(&text, &[1, 1], &[1_073_741_823, 1_073_741_824], 6)[1..],
        [
            spans(4, 4, 4_294_967_292),
            SizeRange::Huge { ty: 2 },
            SizeRange::Huge { ty: 3 },
            SizeRange::Misplaced { ty: 4 },
            SizeRange::Huge { ty: 2 },
        ]
    );
    assert_eq!(
        ranges(&text, &[1, 1], &[1, 1], 6)[1..],
        [
            spans(4, 4, 4),
            spans(4, 4, 4),
            spans(4, 8, 8),
            SizeRange::Misplaced { ty: 4 },
            SizeRange::Misplaced { ty: 4 },
        ]
    );
    // many members of almost 2 to the 32 each: the end is past any 32 bits
    let members = vec![member(1, 0); 500];
    let types = [vec![pending(0, 0, 4), structure(0, 500, 0)], members].concat();
    let text = file(&[F32], &types, 1);
    assert_eq!(
        ranges(&text, &[1], &[1_073_741_823], 3)[2],
        SizeRange::Huge { ty: 2 }
    );
    assert_eq!(ranges(&text, &[1], &[2], 3)[2], spans(4, 2_000, 4_000));
}

#[test]
fn deep_and_shared() {
    // 300 structs, each of two members, the one before twice, over an array of a pending size; and 400 structs, each of the one before
    let mut types = vec![pending(0, 0, 4)];
    types.extend((0..300).map(|k| structure(2 * k, 2, 0)));
    types.extend((0..300).flat_map(|k| [member(k + 1, 0), member(k + 1, 0)]));
    let text = file(&[F32], &types, 1);
    assert_eq!(
        ranges(&text, &[1], &[3], 302)[21..23],
        [spans(4, 4 << 20, 12 << 20), spans(4, 4 << 21, 12 << 21)]
    );
    let (counts, mut frames) = (table(&[1]), lent(gelmusko::FRAMES_BYTES));
    assert_eq!(
        size_range(&text, &mut frames, &counts, &counts, 301),
        SizeRange::Huge { ty: 31 }
    );
    let mut types = vec![pending(0, 0, 4)];
    types.extend((0..400).map(|k| structure(k, 1, 0)));
    types.extend((0..400).map(|k| member(k + 1, 0)));
    let text = file(&[F32], &types, 1);
    assert_eq!(ranges(&text, &[1], &[3], 402)[401], spans(4, 4, 12));
}

#[test]
fn the_example_of_the_rules() {
    // docs/RULES.md, section 21
    let text = file(
        &[F32, VEC3],
        &[
            pending(0, 0, 4),
            structure(0, 3, 0),
            array(2, 2, 16),
            member(1, 0),
            member(2, 0),
            member(0, 0),
        ],
        1,
    );
    assert_eq!(
        ranges(&text, &[1], &[5], 5),
        [
            spans(4, 4, 4),
            spans(16, 12, 12),
            spans(4, 4, 20),
            spans(16, 32, 48),
            SizeRange::Unmeasured { ty: 4 },
        ]
    );
}
