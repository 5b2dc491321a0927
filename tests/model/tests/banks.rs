//! The map and the way back, also at the edges of the boundary registers, and
//! alike.

use model::gen::{setups, Rng};
use model::map::{alike, alike_exhaustive, map, switched_on, way_back, Bank, Column, Place, Row};
use model::record::Record;
use model::Refusal;

/// Bank `n` alone with a span, switched on through the registers.
fn lone_bank(n: u8, start_mb: u32, last_mb: u32, row_code: u8) -> Record {
    let mut record = Record::fresh();
    let [start_low, start_high, ..] = start_mb.to_le_bytes();
    let [last_low, last_high, ..] = last_mb.to_le_bytes();
    let codes = if n < 4 { 0xF0 } else { 0xF1 };
    for (offset, value) in [
        (0x80 + n, start_low),
        (0x88 + n, start_high),
        (0x90 + n, last_low),
        (0x98 + n, last_high),
        (0xA0, 1 << n),
        (codes, row_code << (2 * (n % 4))),
        (0xF2, 8),
    ] {
        record.write_register(offset, value).unwrap();
    }
    record
}

#[test]
fn banks_that_end_at_255_256_and_1023() {
    for (n, last_mb) in [(0, 255), (3, 256), (4, 1023), (7, 1023)] {
        let record = lone_bank(n, last_mb - 2, last_mb, 1);
        let first = (last_mb - 2) << 20;
        let last = (last_mb << 20) + 0xF_FFFF;
        assert_eq!(map(&record, first - 1), Ok(None));
        assert_eq!(map(&record, last + 1), Ok(None));
        for address in [first, first + (1 << 20), last & !7] {
            let place = map(&record, address).unwrap().unwrap();
            assert_eq!(place.bank, n);
            assert_eq!(place.cell, address / 8 % (1 << 19));
            assert_eq!(way_back(&record, n, place.row, place.column), Ok(address));
        }
    }
}

#[test]
fn a_bank_over_the_edge_of_eight_bits() {
    let record = lone_bank(2, 250, 260, 3);
    for megabyte in [250, 255, 256, 260] {
        assert!(map(&record, megabyte << 20).unwrap().is_some());
    }
    for megabyte in [0, 4, 249, 261] {
        assert_eq!(map(&record, megabyte << 20), Ok(None));
    }
}

#[test]
fn there_and_back_and_there() {
    for seed in 0..400 {
        let rng = &mut Rng::new(seed);
        let record = setups::accepted(rng, u32::MAX);
        let layout = switched_on(&record).unwrap();
        for _ in 0..200 {
            let address = setups::address(rng, &layout);
            let Some(place) = map(&record, address).unwrap() else {
                continue;
            };
            let back = way_back(&record, place.bank, place.row, place.column);
            assert_eq!(back, Ok(address & !7), "seed {seed}, {address:08x}");
            assert_eq!(map(&record, address & !7), Ok(Some(place)), "seed {seed}");
        }
    }
}

/// True if the way back leads to an address that has the place, or to refusal
/// 17 in a bank that is not full: a full one has an address for every cell.
fn goes_back_and_there(record: &Record, n: u8, bank: &Bank, row: Row, column: Column) -> bool {
    match way_back(record, n, row, column) {
        Ok(address) => {
            let there = map(record, address).unwrap().unwrap();
            (there.bank, there.row, there.column) == (n, row, column)
        }
        Err(refusal) => {
            let length = bank.last_mb - bank.start_mb + 1;
            refusal == Refusal::NoAddress && length << 17 < bank.cells()
        }
    }
}

#[test]
fn back_and_there_or_no_address() {
    for seed in 0..400 {
        let rng = &mut Rng::new(seed);
        let record = setups::accepted(rng, u32::MAX);
        for (n, bank) in switched_on(&record).unwrap().enabled() {
            for _ in 0..50 {
                let row = Row(rng.below(1 << bank.row_bits));
                let column = Column(rng.below(1 << bank.column_bits));
                assert!(
                    goes_back_and_there(&record, n, bank, row, column),
                    "seed {seed}, bank {n}, {row:?}, {column:?}"
                );
            }
        }
    }
}

/// The way back against the map of every doubleword of small set-ups: exactly
/// the cells that some address has get that address.
#[test]
fn way_back_against_every_doubleword() {
    for seed in 0..6 {
        let rng = &mut Rng::new(seed);
        let record = setups::small(rng, 12);
        let layout = switched_on(&record).unwrap();
        let mut address_of_cell = vec![None; layout.cells() as usize];
        for address in (0..12u32 << 20).step_by(8) {
            if let Some(place) = layout.locate(address) {
                let slot: &mut Option<u32> = &mut address_of_cell[place.cell as usize];
                assert_eq!(slot.replace(address), None, "seed {seed}: cell taken twice");
            }
        }
        let mut cell = 0;
        for (n, bank) in layout.enabled() {
            for w in (0..bank.cells()).step_by(61) {
                let row = Row(w >> bank.column_bits);
                let column = Column(w & ((1 << bank.column_bits) - 1));
                let expected = address_of_cell[(cell + w) as usize];
                let back = way_back(&record, n, row, column);
                assert_eq!(back, expected.ok_or(Refusal::NoAddress), "seed {seed}");
            }
            cell += bank.cells();
        }
    }
}

#[test]
fn alike_against_every_doubleword() {
    let mut yes = 0;
    let mut no = 0;
    for seed in 0..60 {
        let rng = &mut Rng::new(seed);
        let one = setups::small(rng, 10);
        let other = setups::neighbour(rng, &one);
        let brute = alike(&one, &other).unwrap();
        assert_eq!(Ok(brute), alike_exhaustive(&one, &other), "seed {seed}");
        assert_eq!(alike(&other, &one), Ok(brute), "seed {seed}");
        assert_eq!(alike(&one, &one), Ok(true));
        if brute {
            yes += 1;
        } else {
            no += 1;
        }
    }
    assert!(yes >= 10 && no >= 10, "{yes} alike, {no} not");
}

#[test]
fn extended_bytes_count_by_their_two_low_bits() {
    let plain = lone_bank(1, 255, 256, 0);
    let mut by_hand = plain;
    by_hand.set(0x89, 0xFC);
    by_hand.set(0x99, 0x55);
    by_hand.set(0xF2, 0xFF);
    assert_eq!(by_hand.read_register(0x89), Ok(0xFC));
    assert_eq!(alike(&plain, &by_hand), Ok(true));
    let expected = Some(Place {
        bank: 1,
        row: Row(0),
        column: Column(1),
        cell: 1,
    });
    assert_eq!(map(&by_hand, 0x1000_0008), Ok(expected));
}

#[test]
fn records_made_by_hand_are_judged_at_each_call() {
    let mut judged_bad = 0;
    for seed in 0..2000 {
        let record = setups::made_by_hand(&mut Rng::new(seed));
        let good = record.is_on() && model::map::judge(&record).is_ok();
        let expected = if good {
            Ok(true)
        } else {
            Err(Refusal::NotSwitchedOn)
        };
        assert_eq!(map(&record, 0).map(|_| true), expected, "seed {seed}");
        assert_eq!(alike(&record, &record), expected, "seed {seed}");
        judged_bad += u32::from(record.is_on() && !good);
    }
    assert!(judged_bad > 100, "{judged_bad}");
}
