//! ALIKE-1, ALIKE-2 among records with long banks.

use model::map::{alike, alike_exhaustive, map};
use model::Record;

use crate::{mb, on, Card, LARGEST};

/// Asked both ways.
fn are_alike(one: &Record, other: &Record) -> bool {
    let answer = alike(one, other).unwrap();
    assert_eq!(alike(other, one), Ok(answer));
    answer
}

fn cards_alike(one: &[Card], other: &[Card]) -> bool {
    are_alike(&on(one), &on(other))
}

/// ON-7: extended bytes count by two bits, F2 by one. Registers of errors, and
/// of bank 7 as long as it is off, don't count at all.
#[test]
fn one_span_in_different_bytes() {
    let plain = on(&LARGEST[..7]);
    let mut other = on(&LARGEST);
    other.set(0xA0, 0x7F);
    for offset in (0x88..0x90).chain(0x98..0xA0) {
        other.set(offset, other.at(offset) | 0xFC);
    }
    for (offset, value) in [(0xF2, 0xFF), (0xB9, 9), (0xC0, 0xFF), (0xC8, 1)] {
        other.set(offset, value);
    }
    assert!(are_alike(&plain, &other));
    other.set(0xA0, 0xFF);
    assert!(!are_alike(&plain, &other));
    assert!(are_alike(&on(&LARGEST), &other));
}

#[test]
fn a_megabyte_more_is_not_alike() {
    for (start, last) in [(0, 127), (100, 227), (100, 228), (0, 254), (895, 1022)] {
        let one = [(3, start, last, 3)];
        let other = [(3, start, last + 1, 3)];
        assert!(!cards_alike(&one, &other), "MB {start} to {last}");
        assert!(cards_alike(&one, &one));
        assert!(cards_alike(&other, &other));
    }
}

/// 128 MB from MB 0 have rows 0 to 4095, as have the lower 128 of 129 MB: the
/// last MB alone tells. From MB 128 to 255 it is rows 0 to 4095 with 128 MB, but
/// 4096 to 8191 with 129, whichever MB is added.
#[test]
fn places_shared_by_128_and_129_megabytes() {
    let shown = |record: &Record, address| {
        let place = map(record, address).unwrap().unwrap();
        (place.row.0, place.column.0)
    };
    let short = on(&[(0, 0, 127, 3)]);
    let long = on(&[(0, 0, 128, 3)]);
    assert_eq!(shown(&short, mb(127)), (4064, 0));
    assert_eq!(shown(&long, mb(127)), (4064, 0));
    assert!(!are_alike(&short, &long));
    let short = on(&[(0, 128, 255, 3)]);
    for long in [on(&[(0, 127, 255, 3)]), on(&[(0, 128, 256, 3)])] {
        assert_eq!(shown(&short, mb(128)), (0, 0));
        assert_eq!(shown(&long, mb(128)), (4096, 0));
        assert!(!are_alike(&short, &long));
    }
}

/// ALIKE-2: bank 0 has MB 0 with 2^17 cells or, with ten row bits, 2^18. Row and
/// column are the same, the cells of the long bank after it are not.
#[test]
fn cell_numbers_do_not_count() {
    let one = on(&[(0, 0, 0, 0), (1, 200, 400, 3)]);
    let other = on(&[(0, 0, 0, 1), (1, 200, 400, 3)]);
    let cell = |record| map(record, mb(256)).unwrap().unwrap().cell;
    assert_eq!((cell(&one), cell(&other)), (131_072, 262_144));
    assert!(are_alike(&one, &other));
}

#[test]
fn another_bank_or_another_span_is_not_alike() {
    assert!(!cards_alike(&[(0, 0, 128, 3)], &[(1, 0, 128, 3)]));
    assert!(!cards_alike(&[(0, 0, 255, 3)], &[(0, 256, 511, 3)]));
    assert!(!cards_alike(&LARGEST, &LARGEST[..7]));
    // Two banks of 128 MB where the other has one of 256.
    let halves = [(0, 0, 127, 3), (1, 128, 255, 3)];
    assert!(!cards_alike(&halves, &[(0, 0, 255, 3)]));
    // The same two spans, exchanged between the banks.
    let one = [(0, 0, 128, 3), (1, 129, 384, 3)];
    let other = [(1, 0, 128, 3), (0, 129, 384, 3)];
    assert!(!cards_alike(&one, &other));
}

/// The same answers from every doubleword of the banks.
#[test]
fn against_every_doubleword() {
    let one = on(&[(0, 130, 258, 3), (1, 0, 0, 2)]);
    for (other, expected) in [
        (on(&[(0, 130, 258, 3), (1, 0, 0, 3)]), true),
        (on(&[(0, 130, 257, 3), (1, 0, 0, 2)]), false),
        (on(&[(0, 130, 259, 3), (1, 0, 0, 2)]), false),
    ] {
        assert_eq!(alike_exhaustive(&one, &other), Ok(expected));
        assert_eq!(are_alike(&one, &other), expected);
    }
}
