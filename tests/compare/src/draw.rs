//! Random records, addresses, bursts and splits, beyond those that the model's
//! own generators draw.

use model::gen::{edges, setups, Rng};
use model::map::{self, Column, Layout, Row};
use model::record::{is_extended, offset, SWITCH_ON};
use model::{Call, Record};

/// Addresses at the ends of the address space and of the ten bits of an MB.
const EDGES: [u32; 8] = [
    0,
    7,
    8,
    0x3FFF_FFFF,
    0x4000_0000,
    0x4000_0007,
    0xFFFF_FFF8,
    0xFFFF_FFFF,
];

/// Lengths that a burst does not take. The low bits of the last two would do.
const BAD_LENGTHS: [usize; 10] = [0, 1, 8, 24, 31, 33, 40, 64, 256 + 32, 65_536 + 32];

/// Accepted (on and off), refused, or made by hand.
pub fn record(rng: &mut Rng) -> Record {
    let mut record = match rng.below(10) {
        0..=3 => setups::accepted(rng, u32::MAX),
        4 => setups::accepted_draft(rng, u32::MAX),
        5 => setups::refused_draft(rng),
        6 => refused_but_on(rng),
        _ => setups::made_by_hand(rng),
    };
    if rng.percent(50) {
        scatter_error_registers(rng, &mut record);
    }
    record
}

/// A record with memory on; if it is one that switching on refuses, it must be
/// hand-made.
pub fn mostly_on(rng: &mut Rng) -> Record {
    let mut record = match rng.below(10) {
        0 => record(rng),
        1 | 2 => setups::made_by_hand(rng),
        _ => setups::accepted(rng, u32::MAX),
    };
    if rng.percent(70) {
        scatter_error_registers(rng, &mut record);
    }
    record
}

/// Enables a bank with this span and row code.
pub fn set_bank(record: &mut Record, n: u8, start_mb: u32, last_mb: u32, row_code: u8) {
    let [start, start_extended, ..] = start_mb.to_le_bytes();
    let [last, last_extended, ..] = last_mb.to_le_bytes();
    record.set(offset::START + n, start);
    record.set(offset::START_EXTENDED + n, start_extended);
    record.set(offset::LAST + n, last);
    record.set(offset::LAST_EXTENDED + n, last_extended);
    let codes = offset::ROW_CODES_LOW + n / 4;
    record.set(codes, record.at(codes) | row_code << (2 * (n % 4)));
    let enables = record.at(offset::BANK_ENABLES) | 1 << n;
    record.set(offset::BANK_ENABLES, enables);
}

fn refused_but_on(rng: &mut Rng) -> Record {
    let mut record = setups::refused_draft(rng);
    record.set(offset::SWITCH, SWITCH_ON);
    record
}

/// Counter and trigger are often close together and the detection bits often
/// clear; otherwise triggers and error addresses would be rare.
pub fn scatter_error_registers(rng: &mut Rng, record: &mut Record) {
    let counter = match rng.below(3) {
        0 => rng.pick(&[0, 1, 253, 254, 255]),
        _ => rng.byte(),
    };
    record.set(offset::COUNTER, counter);
    record.set(offset::TRIGGER, counter.wrapping_add(rng.below(4) as u8));
    for enables in [offset::ERROR_ENABLE_1, offset::ERROR_ENABLE_2] {
        record.set(enables, [rng.byte(), 0xFF][rng.below(2) as usize]);
    }
    for detections in [offset::ERROR_DETECTION_1, offset::ERROR_DETECTION_2] {
        record.set(detections, if rng.percent(70) { 0 } else { rng.byte() });
    }
    for place in offset::ERROR_ADDRESS..=offset::ERROR_ADDRESS_END {
        record.set(place, rng.byte());
    }
}

/// Changes that do not affect the map of any address: registers of banks that
/// are off, error registers, bytes at no listed offset, the high bits of
/// extended bytes.
pub fn harmless_change(rng: &mut Rng, record: &Record) -> Record {
    let mut other = *record;
    for _ in 0..1 + rng.below(6) {
        let bank = rng.below(8) as u8;
        match rng.below(4) {
            0 if !record.is_enabled(bank) => {
                let register = 0x80 + 8 * rng.below(4) as u8 + bank;
                other.set(register, rng.byte());
            }
            1 => {
                let place = 0x88 + 16 * rng.below(2) as u8 + bank;
                debug_assert!(is_extended(place));
                other.set(place, other.at(place) & 3 | rng.byte() & 0xFC);
            }
            2 => scatter_error_registers(rng, &mut other),
            _ => other.set(rng.byte() & 0x7F, rng.byte()),
        }
    }
    other
}

/// An address: near a bank if the record has any, at an edge, the same with a
/// bit above the ten of an MB, or anywhere.
pub fn address(rng: &mut Rng, layout: Option<&Layout>) -> u32 {
    match (rng.below(12), layout) {
        (0, _) => rng.pick(&EDGES),
        (1, _) => rng.next_u64() as u32,
        (2, Some(layout)) => setups::address(rng, layout) | 1 << (30 + rng.below(2)),
        (_, Some(layout)) => setups::address(rng, layout),
        (_, None) => rng.below(1 << 30),
    }
}

/// A burst from any doubleword in the line of an address. Few have a wrong
/// address or length; of these some have both, which shows that 19 comes first.
pub fn burst(rng: &mut Rng, address: u32) -> Call {
    let aligned = (address & !31) + 8 * rng.below(4);
    let misaligned = aligned + 1 + rng.below(7);
    let bad_length = rng.pick(&BAD_LENGTHS);
    let (address, count) = match rng.below(16) {
        0 => (misaligned, 32),
        1 => (aligned, bad_length),
        2 => (misaligned, bad_length),
        _ => (aligned, 32),
    };
    if rng.percent(60) {
        return Call::BurstRead { address, count };
    }
    let bytes = rng.bytes(count);
    Call::BurstWrite { address, bytes }
}

/// A split (MEM-17) that starts in the doubleword of an address or in the one
/// before it, of any count that runs into the next.
pub fn split(rng: &mut Rng, address: u32) -> Call {
    let doubleword = (address & !7).wrapping_sub(8 * rng.below(2));
    let (address, count) = edges::split(rng, doubleword);
    if rng.percent(60) {
        return Call::Read { address, count };
    }
    let bytes = rng.bytes(count);
    Call::Write { address, bytes }
}

/// Addresses of the doublewords with these cell numbers; a cell without an
/// address is left out, and a record that is not ready has none.
pub fn addresses_of_cells(record: &Record, cells: &[u32]) -> Vec<u32> {
    let Ok(layout) = map::switched_on(record) else {
        return Vec::new();
    };
    let mut addresses = Vec::new();
    let mut first = 0;
    for (n, bank) in layout.enabled() {
        for &cell in cells {
            let Some(w) = cell.checked_sub(first).filter(|&w| w < bank.cells()) else {
                continue;
            };
            let row = Row(w >> bank.column_bits);
            let column = Column(w % (1 << bank.column_bits));
            addresses.extend(map::way_back(record, n, row, column));
        }
        first += bank.cells();
    }
    addresses
}
