//! Texels of densities: short, exact and long out-slices, densities that are out of range, and every density against the stored texels of crates/replay_texels.
mod common;

use common::{lent, BEFORE};
use gelmusko::{ffi, texel, Texel};
use std::path::Path;

/// The number returned with an out-slice of so many bytes, and the slice after it.
fn written(density: u32, bytes: usize) -> (u32, Vec<u8>) {
    let mut out = lent(bytes);
    let number = unsafe { ffi::gelmusko_texel(density, out.as_mut_ptr(), out.len()) };
    (number, out)
}

#[test]
fn out_short_exact_and_long() {
    // 1,000 gives 6,554, hex 199a
    for bytes in [0, 1] {
        assert_eq!(written(1000, bytes), (3, lent(bytes)));
    }
    assert_eq!(written(1000, 2), (0, vec![0x9a, 0x19]));
    assert_eq!(written(1000, 3), (0, vec![0x9a, 0x19, BEFORE]));
    let (number, out) = written(1000, 64);
    assert_eq!((number, &out[..2]), (0, &[0x9a, 0x19][..]));
    assert_eq!(out[2..], lent(62)[..]);
}

#[test]
fn out_of_range() {
    // the last ones would be 0, 1,000 and 10,000 in 16 bits
    for density in [10_001, 65_535, u32::MAX, 65_536, 66_536, 75_536] {
        for bytes in [0, 1] {
            assert_eq!(written(density, bytes), (3, lent(bytes)));
        }
        for bytes in [2, 3, 64] {
            assert_eq!(written(density, bytes), (40, lent(bytes)));
        }
        assert_eq!(texel(density), Texel::Range);
    }
}

#[test]
fn ends_and_halves() {
    for (density, given) in [
        (0, 0),
        (1, 7),
        (1_000, 6_554),
        (3_000, 19_660),
        (7_000, 45_874),
        (10_000, 65_535),
    ] {
        assert_eq!(texel(density), Texel::Given(given));
    }
}

#[test]
fn every_density() {
    let path = Path::new(env!("CARGO_MANIFEST_DIR")).join("../../crates/replay_texels/stdout");
    let stored = std::fs::read_to_string(path).expect("the stored texels");
    let mut given = 0;
    for line in stored.lines() {
        let (density, says) = line.split_once(' ').expect("a density and what it gives");
        let density = density.parse().expect("a density");
        match texel(density) {
            Texel::Given(t) => {
                assert_eq!(says, t.to_string());
                assert_eq!(written(density, 2), (0, t.to_le_bytes().to_vec()));
                given += 1;
            }
            Texel::Range => assert_eq!(says, "refused 40"),
        }
    }
    assert_eq!(given, 10_001);
}
