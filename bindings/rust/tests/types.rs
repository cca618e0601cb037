//! Types compared, canonical forms and bases, and the frames and numbers that are handed in.
mod common;

use common::*;
use gelmusko::{
    canonical_form, pointer_base, read_file, same_type, CanonicalForm, Frame, Outcome, PointerBase,
    Sameness, Type,
};

fn value(line: &str) -> Frame {
    gelmusko::frames_of(&bytes(&[line]))
        .next()
        .expect("a frame")
}

fn number(n: u16) -> Vec<u8> {
    Type::Number(n).frame().0.to_vec()
}

fn compare(left: &[u8], right: &[u8]) -> Sameness {
    let mut frames = lent(16 * TYPES.len() + 1);
    let given = same_type(&text(TYPES), &mut frames, left, right);
    assert_eq!(frames[..16 * TYPES.len()], bytes(TYPES)[..]);
    assert_eq!(frames[16 * TYPES.len()], BEFORE);
    given
}

const FIELD: Outcome = Outcome::Field { frame: 0 };
const INDEX: Outcome = Outcome::Index { frame: 0 };

#[test]
fn same_or_not() {
    assert_eq!(
        read_file(&text(TYPES), &mut lent(16 * TYPES.len())),
        Outcome::Accepted
    );
    let value_pointer = value("09070000020400000000000000000000").0;
    assert_eq!(compare(&number(3), &value_pointer), Sameness::Same);
    assert_eq!(compare(&value_pointer, &number(3)), Sameness::Same);
    assert_eq!(compare(&number(1), &number(1)), Sameness::Same);
    assert_eq!(compare(&number(1), &number(2)), Sameness::Different);
    assert_eq!(compare(&number(0), &number(3)), Sameness::Different);
    assert_eq!(compare(&number(0), &number(6)), Sameness::Newer);
    assert_eq!(compare(&number(1), &number(6)), Sameness::Different);
    assert_eq!(compare(&number(5), &number(5)), Sameness::Same);
}

#[test]
fn frames_of_wrong_length() {
    for length in (0..16).chain(17..50) {
        let wrong = vec![8; length];
        assert_eq!(compare(&wrong, &number(0)), Sameness::Refused(FIELD));
        assert_eq!(compare(&number(0), &wrong), Sameness::Refused(FIELD));
        assert_eq!(compare(&wrong, &wrong), Sameness::Refused(FIELD));
        // the left one first: its wrong length before the right's number, its number before the right's length
        assert_eq!(compare(&wrong, &number(7)), Sameness::Refused(FIELD));
        assert_eq!(compare(&number(7), &wrong), Sameness::Refused(INDEX));
    }
    // a good frame and more bytes
    let mut long = number(0);
    long.push(0);
    assert_eq!(compare(&long, &long), Sameness::Refused(FIELD));
    long.extend([0; 15]);
    assert_eq!(compare(&long, &number(0)), Sameness::Refused(FIELD));
}

#[test]
fn frames_that_are_no_types() {
    for line in [
        "00000000000000000000000000000000",
        "0a000000000000000000000000000000", // a refusal
        "0b000000000000000000000000000000", // a verdict
        "01010000020400000000000000000000", // a type of the file
        "08010000000000000000000000000000",
        "08000000010000000000000000000000",
        "09c80000000000000000000000000000",
        "09010000060400000000000000000000", // scalar kind 6
        "09010000020300000000000000000000", // a scalar of 3 bytes
        "09070200021004030000000000000000", // a value pointer to scalars of 16 bytes
        "09090000010000000000000004000000", // a struct as value
    ] {
        let bad = value(line).0;
        assert_eq!(
            compare(&bad, &number(0)),
            Sameness::Refused(FIELD),
            "{line}"
        );
        assert_eq!(
            compare(&number(0), &bad),
            Sameness::Refused(FIELD),
            "{line}"
        );
        assert_eq!(compare(&bad, &bad), Sameness::Refused(FIELD), "{line}");
    }
    for stray in [7, 1024, 65_535] {
        assert_eq!(
            compare(&number(stray), &number(stray)),
            Sameness::Refused(INDEX)
        );
    }
}

#[test]
fn canonical_forms() {
    for (n, form) in [
        (0, CanonicalForm::Form(Type::Number(0))),
        (1, CanonicalForm::Form(Type::Number(1))),
        (
            3,
            CanonicalForm::Form(Type::Value(value("09070000020400000000000000000000"))),
        ),
        (4, CanonicalForm::Form(Type::Number(4))),
        (5, CanonicalForm::Newer),
        (6, CanonicalForm::Newer),
        (7, CanonicalForm::Refused(INDEX)),
        (65_535, CanonicalForm::Refused(INDEX)),
        (65_536, CanonicalForm::Refused(INDEX)),
        (65_539, CanonicalForm::Refused(INDEX)),
        (u32::MAX, CanonicalForm::Refused(INDEX)),
    ] {
        let mut frames = lent(16 * TYPES.len());
        assert_eq!(
            canonical_form(&text(TYPES), &mut frames, n),
            form,
            "type {n}"
        );
        assert_eq!(frames, bytes(TYPES));
    }
}

#[test]
fn pointer_bases() {
    for (n, base) in [
        (0, PointerBase::NotPointer),
        (1, PointerBase::NotPointer),
        (3, PointerBase::Base(Type::Number(0))),
        (4, PointerBase::Base(Type::Number(1))),
        (5, PointerBase::Newer),
        (6, PointerBase::Base(Type::Number(5))),
        (7, PointerBase::Refused(INDEX)),
        (65_536, PointerBase::Refused(INDEX)),
        (65_539, PointerBase::Refused(INDEX)),
        (u32::MAX, PointerBase::Refused(INDEX)),
    ] {
        let mut frames = lent(16 * TYPES.len());
        assert_eq!(pointer_base(&text(TYPES), &mut frames, n), base, "type {n}");
        assert_eq!(frames, bytes(TYPES));
    }
    // of a value pointer the scalar, or the vector, by value
    let file = text(&[
        "01070000020400000000000000000000",
        "01070300020400000000000000000000",
    ]);
    let mut frames = lent(32);
    assert_eq!(
        pointer_base(&file, &mut frames, 0),
        PointerBase::Base(Type::Value(value("09010000020400000000000000000000")))
    );
    assert_eq!(
        pointer_base(&file, &mut frames, 1),
        PointerBase::Base(Type::Value(value("09020300020400000000000000000000")))
    );
}

#[test]
fn refused_file_first() {
    for (file, outcome) in [
        (DISORDERED, Outcome::Order { frame: 1 }),
        (UNFIT, Outcome::Field { frame: 1 }),
        (STRAY, Outcome::Index { frame: 1 }),
    ] {
        let mut frames = lent(32);
        assert_eq!(
            same_type(&text(file), &mut frames, &[], &number(9)),
            Sameness::Refused(outcome)
        );
        assert_eq!(
            canonical_form(&text(file), &mut frames, u32::MAX),
            CanonicalForm::Refused(outcome)
        );
        assert_eq!(
            pointer_base(&text(file), &mut frames, 65_536),
            PointerBase::Refused(outcome)
        );
        assert_eq!(frames, bytes(file));
    }
    let mut frames = lent(31);
    assert_eq!(
        same_type(&text(STRAY), &mut frames, &[], &[]),
        Sameness::Refused(Outcome::Short)
    );
    assert_eq!(frames, lent(31));
}
