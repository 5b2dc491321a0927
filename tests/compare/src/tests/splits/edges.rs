//! Splits at edges: of banks, of megabytes, of what is lent, and of the address
//! space.

use model::code::{CELL_BYTES, FLIP_BITS};
use model::gen::{edges, setups, Rng};
use model::map;
use model::record::{offset, SWITCH_ON};
use model::{Call, Record};

use super::{of_both, places_and_counts, read_and_write, record};
use crate::case::Case;
use crate::coverage::Coverage;
use crate::draw;
use crate::lent;
use crate::request::Request;
use crate::ways::{mixtures, ways, Met};

/// Two banks next to each other, each with its number and its first and last
/// MB, in both orders of their numbers, which order their cells too. Where the
/// bank of two MB starts at an odd one, its cells start again at its inner edge.
const NEIGHBOURS: [[(u8, u8, u8); 2]; 4] = [
    [(0, 1, 2), (1, 3, 3)],
    [(7, 1, 2), (3, 3, 3)],
    [(5, 2, 2), (2, 0, 1)],
    [(4, 2, 2), (6, 0, 1)],
];

/// The MB edges at the ends of these banks and inside them. A split over edge 0
/// would pass the last address.
const EDGES: std::ops::RangeInclusive<u32> = 0..=4;

const RANDOM_CASES: usize = 40;
const RANDOM_SPLITS: usize = 12;

/// Cells of all banks together where all are lent: some megabytes.
const RANDOM_CELLS: u32 = 1 << 19;

const LENT_CASES: usize = 60;

const LAST_CASES: usize = 200;

/// Every place with every count at each end of two banks, between them and
/// inside one of them; then edges of random set-ups. All cells are lent.
pub fn of_banks(rng: &mut Rng) -> Result<String, String> {
    let mut coverage = Coverage::new();
    for case in cases(rng) {
        case.check(&mut coverage)?;
    }
    coverage.check(bank_ways())?;
    let neighbours = NEIGHBOURS.len();
    Ok(format!(
        "{neighbours} pairs of banks, {RANDOM_CASES} set-ups"
    ))
}

/// One part without a bank, both or none, and none that is refused but with 7.
pub fn bank_ways() -> impl Iterator<Item = Met> {
    of_both(|kind| mixtures(kind, 2, &[1, 2, 3, 5]).chain(ways(kind, &[], &[7])))
}

pub fn cases(rng: &mut Rng) -> Vec<Case> {
    let mut cases: Vec<Case> = NEIGHBOURS
        .iter()
        .map(|banks| neighbours_case(rng, banks))
        .collect();
    cases.extend((0..RANDOM_CASES).map(|_| random_case(rng)));
    cases
}

fn neighbours_case(rng: &mut Rng, banks: &[(u8, u8, u8); 2]) -> Case {
    let mut record = record(&[(offset::SWITCH, SWITCH_ON)]);
    for &(bank, start, last) in banks {
        record.set(offset::START + bank, start);
        record.set(offset::LAST + bank, last);
        let enables = record.at(offset::BANK_ENABLES) | 1 << bank;
        record.set(offset::BANK_ENABLES, enables);
    }
    draw::scatter_error_registers(rng, &mut record);
    let mut requests = Vec::new();
    for edge in EDGES {
        for (place, count) in places_and_counts() {
            let before = (edge << 20).wrapping_sub(8);
            requests.extend(requests_at(rng, before + place, count));
        }
    }
    all_lent(record, requests)
}

/// Edges as the model's generator draws them.
fn random_case(rng: &mut Rng) -> Case {
    let mut record = setups::accepted(rng, RANDOM_CELLS);
    draw::scatter_error_registers(rng, &mut record);
    let layout = map::judge(&record).expect("accepted");
    let mut requests = Vec::new();
    for _ in 0..RANDOM_SPLITS {
        let doubleword = edges::edge(rng, &layout);
        let (address, count) = edges::split(rng, doubleword);
        requests.extend(requests_at(rng, address, count));
    }
    all_lent(record, requests)
}

fn all_lent(record: Record, requests: Vec<Request>) -> Case {
    let layout = map::judge(&record).expect("accepted");
    Case {
        record,
        cells: vec![0; CELL_BYTES * layout.cells() as usize],
        requests,
    }
}

/// A split after its doublewords were stored anew and up to two bits of each
/// were inverted.
fn requests_at(rng: &mut Rng, address: u32, count: usize) -> Vec<Request> {
    let first = address & !7;
    let mut calls = Vec::new();
    for address in [first, first.wrapping_add(8)] {
        let bytes = rng.bytes(8);
        calls.push(Call::Write { address, bytes });
        for _ in 0..rng.below(3) {
            let bit = rng.below(u32::from(FLIP_BITS)) as u8;
            calls.push(Call::Flip { address, bit });
        }
    }
    let mut requests: Vec<_> = calls.into_iter().map(Request::Listed).collect();
    requests.extend(read_and_write(rng, address, count));
    requests
}

/// Every number of bytes with which lent cells can end in the two cells of a
/// split or in the one after them, and every place with every count.
pub fn of_what_is_lent(rng: &mut Rng) -> Result<String, String> {
    let mut coverage = Coverage::new();
    for _ in 0..LENT_CASES {
        // The next doubleword has the next cell: it is in the same megabyte.
        let first = rng.below(4);
        let (record, doubleword) = lent::record_with_cell(rng, first);
        let cells = lent::cells(rng, first + 3);
        let first = first as usize;
        for lent in CELL_BYTES * first..=cells.len() {
            for (place, count) in places_and_counts() {
                let case = Case {
                    record,
                    cells: cells[..lent].to_vec(),
                    requests: read_and_write(rng, doubleword + place, count).into(),
                };
                case.check_lent(lent >= CELL_BYTES * (first + 2), &mut coverage)?;
            }
        }
    }
    cells_that_start_again(rng, &mut coverage)?;
    coverage.check(of_both(|kind| ways(kind, &[0x11], &[9])))?;
    Ok(format!(
        "{LENT_CASES} pairs of cells, each length that is lent"
    ))
}

/// MB 1 and 2 are bank 0, so the first part has its last cell and the second
/// its cell 0: the second may be lent and the first not.
fn cells_that_start_again(rng: &mut Rng, coverage: &mut Coverage<Met>) -> Result<(), String> {
    let record = record(&[
        (offset::START, 1),
        (offset::LAST, 2),
        (offset::BANK_ENABLES, 1),
        (offset::SWITCH, SWITCH_ON),
    ]);
    let whole = CELL_BYTES << 18;
    for lent in (0..=CELL_BYTES).chain(whole - CELL_BYTES..=whole) {
        let case = Case {
            record,
            cells: vec![0; lent],
            requests: read_and_write(rng, 0x001F_FFFB, 8).into(),
        };
        case.check_lent(lent == whole, coverage)?;
    }
    Ok(())
}

/// REF-7: every count from 0 to 9 at each address of the last doubleword, on
/// records of every kind.
pub fn of_all_addresses(rng: &mut Rng) -> Result<String, String> {
    let mut coverage = Coverage::new();
    for _ in 0..LAST_CASES {
        last_case(rng).check(&mut coverage)?;
    }
    coverage.check(ways("read", &[5], &[5, 6]).chain(ways("write", &[5], &[5, 6])))?;
    coverage.check(of_both(|kind| ways(kind, &[], &[5, 7])))?;
    Ok(format!("{LAST_CASES} records, 80 reads and 80 writes each"))
}

pub fn last_case(rng: &mut Rng) -> Case {
    let mut requests = Vec::new();
    for address in 0xFFFF_FFF8..=0xFFFF_FFFF {
        for count in 0..=9 {
            requests.extend(read_and_write(rng, address, count));
        }
    }
    Case {
        record: draw::record(rng),
        cells: Vec::new(),
        requests,
    }
}
