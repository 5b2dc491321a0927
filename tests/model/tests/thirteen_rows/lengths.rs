//! REG-13, REG-14, REF-13: rows and columns by length, and what is too long.

use model::map::{self, alike, judge, way_back, Column, Row};
use model::memory::{flip, read, scrub, write};
use model::{Record, Refusal};

use crate::{draft, on, switch_on, Card};

/// R and C that a lone bank gets, or the refusal.
fn shape(card: Card) -> Result<(u32, u32), Refusal> {
    let record = switch_on(&[card])?;
    let bank = judge(&record)?.banks[usize::from(card.0)].unwrap();
    Ok((bank.row_bits, bank.column_bits))
}

/// Starts that leave room for 257 MB, next to edges of 128 and 256 MB among
/// them. The last makes a bank of 257 MB end at MB 1023.
const STARTS: [u32; 9] = [0, 1, 100, 127, 128, 255, 256, 511, 767];

#[test]
fn lengths_beside_128_and_256_with_code_3() {
    for n in 0..8 {
        for start in STARTS {
            let of = |length| shape((n, start, start + length - 1, 3));
            assert_eq!(of(127), Ok((12, 12)), "bank {n} at {start}");
            assert_eq!(of(128), Ok((12, 12)), "bank {n} at {start}");
            assert_eq!(of(129), Ok((13, 12)), "bank {n} at {start}");
            assert_eq!(of(255), Ok((13, 12)), "bank {n} at {start}");
            assert_eq!(of(256), Ok((13, 12)), "bank {n} at {start}");
            assert_eq!(of(257), Err(Refusal::TooLong(n)), "bank {n} at {start}");
        }
    }
}

/// With the other codes the longest are 2, 8 and 32 MB.
#[test]
fn lengths_beside_128_and_256_with_other_codes() {
    for (n, start) in (0..8).zip(STARTS) {
        for length in [127, 128, 129, 255, 256, 257] {
            let of = |code| shape((n, start, start + length - 1, code));
            let refused = [of(0), of(1), of(2)];
            assert_eq!(refused, [Err(Refusal::TooLong(n)); 3], "{length} MB");
        }
    }
}

/// The longest bank in MB for each pair of R and C that a row code can give, in
/// ascending order: 2^(R+C+3) bytes are 2^(R+C-17) MB.
const LONGEST: [&[(u32, u32, u32)]; 4] = [
    &[(1, 9, 8), (2, 9, 9)],
    &[(2, 10, 8), (4, 10, 9), (8, 10, 10)],
    &[(4, 11, 8), (8, 11, 9), (16, 11, 10), (32, 11, 11)],
    &[
        (8, 12, 8),
        (16, 12, 9),
        (32, 12, 10),
        (64, 12, 11),
        (128, 12, 12),
        (256, 13, 12),
    ],
];

#[test]
fn every_length_with_every_code() {
    for (code, shapes) in (0..).zip(LONGEST) {
        for length in 1..=1024 {
            let fitting = shapes.iter().find(|(longest, ..)| length <= *longest);
            let expected = fitting.map(|&(_, r, c)| (r, c)).ok_or(Refusal::TooLong(5));
            let found = shape((5, 1024 - length, 1023, code));
            assert_eq!(found, expected, "{length} MB, code {code}");
        }
    }
}

/// In ten bits these would be 129, 256, 257, 0 and 2 MB.
#[test]
fn a_start_above_the_end_has_no_length() {
    for (start, last) in [(1000, 104), (900, 131), (1000, 232), (1, 0), (1023, 0)] {
        for code in 0..4 {
            let refused = shape((2, start, last, code));
            assert_eq!(refused, Err(Refusal::StartAboveEnd(2)), "{start} to {last}");
        }
    }
}

/// ON-2: 12 and 13 bank by bank upward, 14 after both.
#[test]
fn order_of_refusals() {
    let too_long = (0, 256);
    let backward = (600, 471);
    let refused = |spans: [(u32, u32); 3]| {
        let cards: Vec<Card> = (1..)
            .zip(spans)
            .map(|(n, (start, last))| (n, start, last, 3))
            .collect();
        switch_on(&cards).unwrap_err()
    };
    let order = [too_long, backward, (700, 828)];
    assert_eq!(refused(order), Refusal::TooLong(1));
    let order = [backward, too_long, (700, 828)];
    assert_eq!(refused(order), Refusal::StartAboveEnd(1));
    // Banks 1 and 2 meet in MB 128, the last of one and the first of the other.
    let order = [(0, 128), (128, 256), (700, 828)];
    assert_eq!(refused(order), Refusal::MeetsLowerBank(2));
    let order = [(0, 128), (128, 256), (700, 956)];
    assert_eq!(refused(order), Refusal::TooLong(3));
    let order = [(0, 128), (128, 256), backward];
    assert_eq!(refused(order), Refusal::StartAboveEnd(3));
    let order = [(0, 128), (129, 384), (128, 128)];
    assert_eq!(refused(order), Refusal::MeetsLowerBank(3));
    let apart = [(1, 0, 128, 3), (2, 129, 384, 3), (3, 700, 828, 3)];
    assert!(switch_on(&apart).is_ok());
}

/// A bank that is off may have any length.
#[test]
fn a_long_bank_that_is_off_is_not_judged() {
    let mut record = draft(&[(0, 0, 1023, 3), (1, 600, 728, 3)]);
    record.write_register(0xA0, 2).unwrap();
    assert_eq!(record.write_register(0xF2, 8), Ok(()));
    assert_eq!(judge(&record).unwrap().cells(), 1 << 25);
}

/// REF-5: every call refuses the record, and nothing else changes.
fn refused_by_all(record: &Record) {
    let off = Refusal::NotSwitchedOn;
    let mut after = *record;
    let mut cells = [0x5A; 9];
    let mut buffer = [0x77; 8];
    let good = on(&[(0, 0, 255, 3)]);
    assert_eq!(map::map(record, 0), Err(off));
    assert_eq!(way_back(record, 0, Row(0), Column(0)), Err(off));
    assert_eq!(alike(record, &good), Err(off));
    assert_eq!(alike(&good, record), Err(off));
    assert_eq!(read(&mut after, &cells, 0, &mut buffer), Err(off));
    assert_eq!(write(&mut after, &mut cells, 0, &[0; 8]), Err(off));
    assert_eq!(flip(&after, &mut cells, 0, 0), Err(off));
    assert_eq!(scrub(&mut after, &mut cells, 0), Err(off));
    assert_eq!(after, *record);
    assert_eq!((cells, buffer), ([0x5A; 9], [0x77; 8]));
}

/// ON-7: a record made by hand with 257 MB, then with the same bank backward.
#[test]
fn records_made_by_hand_with_a_bank_too_long() {
    let mut record = on(&[(0, 0, 255, 3)]);
    record.set(0x90, 0);
    record.set(0x98, 1);
    refused_by_all(&record);
    record.set(0x80, 1);
    assert!(map::map(&record, 0).is_ok(), "256 MB again");
    record.set(0x88, 1);
    refused_by_all(&record);
}
