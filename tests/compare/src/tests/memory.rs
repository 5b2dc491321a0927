//! Memory calls on lent cells of any length.

use model::code::{CELL_BYTES, FLIP_BITS};
use model::gen::{setups, Rng};
use model::map::{self, Layout};
use model::record::offset;
use model::{Call, Record};

use crate::case::Case;
use crate::coverage::Coverage;
use crate::draw;
use crate::lent;
use crate::request::Request;
use crate::tests::{bursts, splits};
use crate::ways::{every_bit_of_single_calls, ways, Met};

const CASES: usize = 16_000;
const CALLS: usize = 60;

const TWO_BANK_CASES: usize = 24;
const TWO_BANK_CALLS: usize = 200;

/// Cells of all banks together where two are to be lent: some megabytes.
const TWO_BANK_CELLS: u32 = 1 << 19;

const FLIP_CASES: usize = 40;

/// Few cells are lent, so that most calls hit the same ones again; the last one
/// is often only partly lent.
pub fn few_cells(rng: &mut Rng) -> Result<String, String> {
    let mut coverage = Coverage::new();
    for _ in 0..CASES {
        few_cells_case(rng).check(&mut coverage)?;
    }
    coverage.check(all_ways())?;
    Ok(format!("{CASES} records and cells, {CALLS} calls each"))
}

/// Cells of a second bank are lent too, wholly or in part.
pub fn two_banks(rng: &mut Rng) -> Result<String, String> {
    let mut coverage = Coverage::new();
    for _ in 0..TWO_BANK_CASES {
        two_bank_case(rng).check(&mut coverage)?;
    }
    coverage.check(
        ways("read", &[1, 2, 3, 5], &[9])
            .chain(ways("split read", &[0x11], &[9]))
            .chain(ways("split write", &[0x11], &[9]))
            .chain(ways("burst read", &[0x1111, 0x5555], &[9]))
            .chain(ways("burst write", &[0x4444, 0x5555], &[9])),
    )?;
    Ok(format!(
        "{TWO_BANK_CASES} records and cells, {TWO_BANK_CALLS} calls each"
    ))
}

/// Each flip bit, and each pair of one bit with some other, on random data.
pub fn every_flip(rng: &mut Rng) -> Result<String, String> {
    let mut coverage = Coverage::new();
    for _ in 0..FLIP_CASES {
        let (record, address) = lent::record_with_cell(rng, 0);
        for bit in 0..FLIP_BITS {
            let case = Case {
                record,
                cells: vec![0; CELL_BYTES],
                requests: flip_requests(rng, address, bit),
            };
            case.check(&mut coverage)?;
        }
    }
    coverage.check(ways("scrub", &[1, 2, 3], &[]))?;
    Ok(format!("{FLIP_CASES} records, each flip bit"))
}

pub fn all_ways() -> impl Iterator<Item = Met> {
    ways("read", &[1, 2, 3, 5], &[5, 6, 9])
        .chain(ways("write", &[1, 2, 3, 4, 5], &[5, 6, 9]))
        .chain(ways("scrub", &[1, 2, 3, 5], &[5, 9]))
        .chain(ways("flip", &[0], &[5, 8, 9, 10]))
        .chain(ways("wide flip", &[], &[5, 8]))
        .chain(every_bit_of_single_calls())
        .chain(splits::all_ways())
        .chain(bursts::all_ways())
}

pub fn few_cells_case(rng: &mut Rng) -> Case {
    let (mut case, hot) = lent::few_cells(rng);
    case.requests = requests(rng, &case.record, &hot, CALLS);
    case
}

fn two_bank_case(rng: &mut Rng) -> Case {
    let (record, layout) = loop {
        let record = setups::accepted(rng, TWO_BANK_CELLS);
        let layout = map::judge(&record).expect("accepted");
        if layout.enabled().count() > 1 {
            break (record, layout);
        }
    };
    let second = layout.enabled().next().expect("two banks").1.cells();
    let end = layout.cells();
    let lent = rng.pick(&[second, second + 1, end - 1, end, end + 1]);
    let numbers = [
        0,
        1,
        second - 1,
        second,
        second + 1,
        lent - 1,
        lent,
        end - 1,
    ];
    let length = CELL_BYTES * lent as usize + rng.below(CELL_BYTES as u32) as usize;
    let hot = draw::addresses_of_cells(&record, &numbers);
    let requests = requests(rng, &record, &hot, TWO_BANK_CALLS);
    Case {
        record,
        cells: vec![0; length],
        requests,
    }
}

fn requests(rng: &mut Rng, record: &Record, hot: &[u32], count: usize) -> Vec<Request> {
    let layout = map::judge(record).ok();
    (0..count)
        .map(|_| {
            let call = call(rng, layout.as_ref(), hot);
            widened(rng, call)
        })
        .collect()
}

/// Now and then a flip of a bit that would be in range if it were cut to a
/// byte.
fn widened(rng: &mut Rng, call: Call) -> Request {
    match call {
        Call::Flip { address, bit } if rng.percent(5) => Request::WideFlip {
            address,
            bit: u32::from(bit) + (1 << (8 + rng.below(24))),
        },
        call => Request::Listed(call),
    }
}

fn call(rng: &mut Rng, layout: Option<&Layout>, hot: &[u32]) -> Call {
    let address = lent::hot_address(rng, layout, hot);
    match rng.below(100) {
        0..=15 => {
            let count = count(rng, address);
            Call::Read { address, count }
        }
        16..=25 => {
            let count = count(rng, address);
            let bytes = rng.bytes(count);
            Call::Write { address, bytes }
        }
        26..=33 => Call::Write {
            address: address & !7,
            bytes: rng.bytes(8),
        },
        34..=49 => Call::Flip {
            address,
            bit: flip_bit(rng),
        },
        50..=59 => Call::Scrub { address },
        60..=75 => draw::burst(rng, address),
        76..=86 => draw::split(rng, address),
        87..=97 => error_register_call(rng),
        _ => Call::WriteRegister {
            offset: offset::SWITCH,
            value: rng.pick(&[0, 8, 8, 8]),
        },
    }
}

/// Mostly a count that stays in the doubleword; also 0, counts to 12, and
/// ones whose low eight or sixteen bits alone would be allowed.
fn count(rng: &mut Rng, address: u32) -> usize {
    match rng.below(60) {
        0 => 256 + rng.below(9) as usize,
        1 => 65_536 + rng.below(9) as usize,
        2..=11 => rng.below(13) as usize,
        _ => 1 + rng.below(8 - address % 8) as usize,
    }
}

fn flip_bit(rng: &mut Rng) -> u8 {
    match rng.below(20) {
        0 => rng.byte(),
        1 => rng.pick(&[63, 64, 71, 72, 128, 255]),
        _ => rng.below(u32::from(FLIP_BITS)) as u8,
    }
}

/// Offsets B8 to CB.
fn error_register_call(rng: &mut Rng) -> Call {
    let offset = 0xB8 + rng.below(20) as u8;
    match rng.below(8) {
        0 => Call::ReadRegister { offset },
        1 | 2 => Call::WriteRegister {
            offset: rng.pick(&[offset::ERROR_DETECTION_1, offset::ERROR_DETECTION_2]),
            value: 0xFF,
        },
        3 => Call::WriteRegister {
            offset: rng.pick(&[offset::ERROR_ENABLE_1, offset::ERROR_ENABLE_2]),
            value: 0xFF,
        },
        4 => Call::WriteRegister {
            offset: rng.pick(&[offset::COUNTER, offset::TRIGGER]),
            value: rng.pick(&[0, 1, 2, 254, 255]),
        },
        _ => Call::WriteRegister {
            offset,
            value: rng.byte(),
        },
    }
}

/// Random data, one flip, every kind of access; then a second flip, which
/// cannot be corrected, and the same accesses.
fn flip_requests(rng: &mut Rng, address: u32, bit: u8) -> Vec<Request> {
    let other = (bit + 1 + rng.below(u32::from(FLIP_BITS) - 1) as u8) % FLIP_BITS;
    let store = Call::Write {
        address,
        bytes: rng.bytes(8),
    };
    let merge = Call::Write {
        address: address + rng.below(8),
        bytes: rng.bytes(1),
    };
    let read = Call::Read { address, count: 8 };
    let scrub = Call::Scrub { address };
    let flip = |bit| Call::Flip { address, bit };
    let calls = [
        store.clone(),
        flip(bit),
        read.clone(),
        scrub.clone(),
        read.clone(),
        flip(bit),
        merge.clone(),
        read.clone(),
        flip(bit),
        flip(other),
        read.clone(),
        scrub.clone(),
        merge,
        read.clone(),
        store,
        read,
        scrub,
    ];
    calls.into_iter().map(Request::Listed).collect()
}
