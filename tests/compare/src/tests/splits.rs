//! Splits, that is reads and writes that run into the next doubleword (MEM-17):
//! from any state, at every place with every count, and with every report.

pub mod edges;

use model::code::CELL_BYTES;
use model::gen::{self, Rng};
use model::map;
use model::record::{offset, SWITCH_ON};
use model::{Call, Record};

use crate::case::Case;
use crate::coverage::Coverage;
use crate::draw;
use crate::in_turn;
use crate::lent;
use crate::request::Request;
use crate::ways::{every_bit, mixtures, ways, Met};

const CASES: usize = 60_000;

const PLACE_RECORDS: usize = 40;

/// The place of the first byte in its doubleword and the count, of each split.
pub fn places_and_counts() -> impl Iterator<Item = (u32, usize)> {
    (1..8).flat_map(|place| (9 - place..=8).map(move |count| (place, count as usize)))
}

/// The read comes first, so that it finds the cells as they were.
fn read_and_write(rng: &mut Rng, address: u32, count: usize) -> [Request; 2] {
    let bytes = rng.bytes(count);
    let read = Call::Read { address, count };
    [read, Call::Write { address, bytes }].map(Request::Listed)
}

/// One split on each record, with few cells of all conditions lent.
pub fn from_any_state(rng: &mut Rng) -> Result<String, String> {
    let mut coverage = Coverage::new();
    for _ in 0..CASES {
        let (mut case, hot) = lent::few_cells(rng);
        let layout = map::judge(&case.record).ok();
        let address = lent::hot_address(rng, layout.as_ref(), &hot);
        let split = draw::split(rng, address);
        case.requests.push(Request::Listed(split.clone()));
        case.check(&mut coverage)?;
        in_turn::check(&case, &split)?;
    }
    coverage.check(all_ways())?;
    Ok(format!("{CASES} records and cells, one split each"))
}

/// All ways that splits go whose cells are among the lowest. A second part
/// without a bank is not among them: the cell before it is the last one of a
/// megabyte. The tests of edges have it.
pub fn all_ways() -> impl Iterator<Item = Met> {
    of_both(|kind| {
        mixtures(kind, 2, &[1, 2, 3])
            .chain(ways(kind, &[0x51, 0x52, 0x53, 0x55], &[5, 7, 9]))
            .chain(every_bit(kind, 2))
    })
}

/// The same ways of reads and of writes.
pub fn of_both<I: Iterator<Item = Met>>(
    ways: impl Fn(&'static str) -> I,
) -> impl Iterator<Item = Met> {
    ["split read", "split write"].into_iter().flat_map(ways)
}

fn pairs<T: Copy, const COUNT: usize>(items: [T; COUNT]) -> Vec<[T; 2]> {
    items
        .map(|first| items.map(|second| [first, second]))
        .concat()
}

/// The conditions of a cell, by how many of its bits are inverted.
const CONDITIONS: [usize; 3] = [0, 1, 2];

/// Every place with every count, on each of the nine mixtures of clean,
/// corrected and uncorrectable cells.
pub fn every_place(rng: &mut Rng) -> Result<String, String> {
    let mut coverage = Coverage::new();
    for _ in 0..PLACE_RECORDS {
        let (record, doubleword) = lent::record_with_cell(rng, 0);
        for (place, count) in places_and_counts() {
            for flips in pairs(CONDITIONS) {
                let case = Case {
                    record,
                    cells: flips.map(|flips| lent::flipped_cell(rng, flips)).concat(),
                    requests: read_and_write(rng, doubleword + place, count).into(),
                };
                case.check_lent(true, &mut coverage)?;
            }
        }
    }
    coverage.check(of_both(|kind| mixtures(kind, 2, &[1, 2, 3])))?;
    Ok(format!(
        "{PLACE_RECORDS} records, 28 splits of 9 mixtures each"
    ))
}

/// What a part of a split finds: a cell with so many bits inverted, or no bank.
type Found = Option<usize>;

const FOUND: [Found; 4] = [Some(0), Some(1), Some(2), None];

/// B8 and B9: each correction below, at and above the trigger, and at 255.
const COUNTERS: [(u8, u8); 13] = [
    (0, 0),
    (0, 1),
    (0, 2),
    (0, 3),
    (1, 1),
    (6, 5),
    (252, 255),
    (253, 254),
    (253, 255),
    (254, 255),
    (254, 254),
    (255, 255),
    (255, 0),
];

/// C1 and C5: clear, or with a bit that counts or one that has no other effect.
const DETECTED: [(u8, u8); 4] = [(0, 0), (0x20, 0), (0x80, 0), (0, 0x01)];

/// ERR-1 to ERR-6: every combination of enables, near the trigger and near 255,
/// with every mixture of two parts.
pub fn every_report(rng: &mut Rng) -> Result<String, String> {
    let mut coverage = Coverage::new();
    let mut count = 0;
    for record in reporting_records(rng) {
        for parts in pairs(FOUND) {
            for case in finding(rng, record, parts) {
                case.check(&mut coverage)?;
                count += 1;
            }
        }
    }
    coverage.check(of_both(|kind| mixtures(kind, 2, &[1, 2, 3, 5])))?;
    Ok(format!("{count} records and cells"))
}

/// MB 1 is bank 0, with 2^17 cells.
fn reporting_records(rng: &mut Rng) -> Vec<Record> {
    let mut records = Vec::new();
    for enables in 0..8u8 {
        for (counter, trigger) in COUNTERS {
            for (detected_1, detected_2) in DETECTED {
                // The bits that enable nothing are random.
                let enable_1 = rng.byte() & !0x24 | (enables & 1) << 5 | (enables & 2) << 1;
                let enable_2 = rng.byte() & !0x08 | (enables & 4) << 1;
                records.push(record(&[
                    (offset::START, 1),
                    (offset::LAST, 1),
                    (offset::BANK_ENABLES, 1),
                    (offset::SWITCH, SWITCH_ON),
                    (offset::COUNTER, counter),
                    (offset::TRIGGER, trigger),
                    (offset::ERROR_ENABLE_1, enable_1),
                    (offset::ERROR_ENABLE_2, enable_2),
                    (offset::ERROR_DETECTION_1, detected_1),
                    (offset::ERROR_DETECTION_2, detected_2),
                    (offset::ERROR_ADDRESS, 0xA6),
                ]));
            }
        }
    }
    records
}

/// A fresh record with these bytes.
fn record(bytes: &[(u8, u8)]) -> Record {
    let mut record = Record::fresh();
    for &(offset, value) in bytes {
        record.set(offset, value);
    }
    record
}

/// A read and a write whose parts find this. The cell at the end of the bank is
/// its last one, so then all are lent.
fn finding(rng: &mut Rng, record: Record, parts: [Found; 2]) -> [Case; 2] {
    let mut cells = match parts {
        [Some(_), None] => vec![0; CELL_BYTES * 0x1_FFFF],
        _ => Vec::new(),
    };
    for flips in parts.into_iter().flatten() {
        cells.extend(lent::flipped_cell(rng, flips));
    }
    let doubleword = match parts {
        [Some(_), Some(_)] => 0x0010_0000,
        [None, Some(_)] => 0x000F_FFF8,
        [Some(_), None] => 0x001F_FFF8,
        [None, None] => 0x002F_FFF8,
    };
    let (address, count) = gen::edges::split(rng, doubleword);
    read_and_write(rng, address, count).map(|request| Case {
        record,
        cells: cells.clone(),
        requests: vec![request],
    })
}
