//! Random set-ups: accepted ones, refused ones, and records made by hand.

mod faults;
mod fields;
mod spans;

use super::Rng;
use crate::map::{self, Layout};
use crate::record::{is_extended, offset::*, Record, BANKS, SWITCH_ON};
use faults::spoil;
use fields::{set_mb, set_row_code};

/// How many of a hundred set-ups have a run of long banks, if their cells are
/// within the limit.
const WITH_RUN: u32 = 20;

/// A record just switched on, its cells no more than the limit. Banks that
/// are off have registers of any value.
pub fn accepted(rng: &mut Rng, cell_limit: u32) -> Record {
    let mut record = accepted_draft(rng, cell_limit);
    record
        .write_register(SWITCH, SWITCH_ON)
        .expect("a draft that was judged acceptable");
    record
}

/// The same before the write of 8 to F2.
pub fn accepted_draft(rng: &mut Rng, cell_limit: u32) -> Record {
    loop {
        let mut record = Record::fresh();
        for n in 0..BANKS {
            spans::scatter_bank(rng, &mut record, n);
        }
        let wanted = 1 + rng.below(u32::from(BANKS));
        let in_run = if cell_limit >= spans::LONG_BANK_CELLS && rng.percent(WITH_RUN) {
            1 + rng.below(wanted)
        } else {
            0
        };
        let banks = shuffled_banks(rng);
        let (run, others) = banks[..wanted as usize].split_at(in_run as usize);
        spans::place_run(rng, &mut record, run, cell_limit);
        for &n in others {
            spans::place_bank(rng, &mut record, n, cell_limit);
        }
        if map::judge(&record).is_ok() {
            return record;
        }
    }
}

/// A set-up in the lowest megabytes, for tests that look at every doubleword.
pub fn small(rng: &mut Rng, end_mb: u32) -> Record {
    loop {
        let record = accepted(rng, u32::MAX);
        let layout = map::judge(&record).expect("accepted");
        if layout.enabled().all(|(_, bank)| bank.last_mb < end_mb) {
            return record;
        }
    }
}

/// A record just switched on that has a bank of more than 128 MB. One in three
/// has; a model that accepts none is found out instead of being asked for ever.
pub fn long(rng: &mut Rng) -> Record {
    (0..1000)
        .map(|_| accepted(rng, u32::MAX))
        .find(|record| (0..BANKS).any(|n| record.is_enabled(n) && record.length_mb(n) > 128))
        .expect("a long bank in a thousand set-ups")
}

/// A record that is off and that switching on refuses.
pub fn refused_draft(rng: &mut Rng) -> Record {
    loop {
        let mut record = accepted_draft(rng, u32::MAX);
        for _ in 0..1 + rng.below(3) {
            spoil(rng, &mut record);
        }
        if map::judge(&record).is_err() {
            return record;
        }
    }
}

/// A record that register calls need not be able to produce: extended bytes
/// above 3, F2 with other bits, bytes where nothing is listed, or all of it
/// random.
pub fn made_by_hand(rng: &mut Rng) -> Record {
    let mut record = match rng.below(10) {
        0 => Record::fresh(),
        1 => random_record(rng),
        2 | 3 => refused_draft(rng),
        _ => accepted_draft(rng, u32::MAX),
    };
    for offset in (0..=255).filter(|&offset| is_extended(offset)) {
        if rng.percent(50) {
            record.set(offset, record.at(offset) | rng.byte() & 0xFC);
        }
    }
    let other_bits = if rng.percent(50) {
        rng.byte() & !SWITCH_ON
    } else {
        0
    };
    let switch = if rng.percent(85) { SWITCH_ON } else { 0 };
    record.set(SWITCH, other_bits | switch);
    for offset in 0xB8..=0xCB {
        record.set(offset, rng.byte());
    }
    for _ in 0..rng.below(4) {
        let unlisted = rng.pick(&[0x00, 0x7F, 0xA1, 0xB7, 0xCC, 0xEF, 0xF3, 0xFF]);
        record.set(unlisted, rng.byte());
    }
    record
}

/// A record beside an accepted one that may or may not be alike: a row code, an
/// end or something that does not affect the map is changed. It is still
/// accepted.
pub fn neighbour(rng: &mut Rng, record: &Record) -> Record {
    let enabled: Vec<u8> = (0..BANKS).filter(|&n| record.is_enabled(n)).collect();
    loop {
        let mut other = *record;
        let n = if rng.percent(90) {
            rng.pick(&enabled)
        } else {
            rng.below(u32::from(BANKS)) as u8
        };
        match rng.below(6) {
            0..=2 => set_row_code(&mut other, n, rng.byte() & 3),
            3 => set_mb(&mut other, LAST + n, (record.last_mb(n) + 1) % 1024),
            4 => set_mb(&mut other, START + n, (record.start_mb(n) + 1) % 1024),
            _ => other.set(rng.pick(&[COUNTER, TRIGGER, ERROR_ENABLE_1]), rng.byte()),
        }
        if other != *record && map::judge(&other).is_ok() {
            return other;
        }
    }
}

/// The register writes that bring a record's set-up into one that is off,
/// without the write of F2.
pub fn writes_of(record: &Record) -> Vec<(u8, u8)> {
    (START..=BANK_ENABLES)
        .chain([ROW_CODES_LOW, ROW_CODES_HIGH])
        .map(|offset| (offset, record.at(offset)))
        .collect()
}

fn random_record(rng: &mut Rng) -> Record {
    let mut record = Record::fresh();
    for offset in 0..=255 {
        record.set(offset, rng.byte());
    }
    record
}

fn shuffled_banks(rng: &mut Rng) -> Vec<u8> {
    let mut banks: Vec<u8> = (0..BANKS).collect();
    for upper in (1..banks.len()).rev() {
        banks.swap(upper, rng.below(upper as u32 + 1) as usize);
    }
    banks
}

/// An address: in a bank, at an edge of one, or anywhere.
pub fn address(rng: &mut Rng, layout: &Layout) -> u32 {
    let banks: Vec<_> = layout.enabled().map(|(_, bank)| *bank).collect();
    let bank = rng.pick(&banks);
    let first = bank.start_mb << 20;
    let after = (bank.last_mb + 1) << 20;
    match rng.below(8) {
        0 => first + rng.below(16),
        1 => after - 1 - rng.below(16),
        2 => after + rng.below(16),
        3 => first.wrapping_sub(1 + rng.below(16)),
        4 => rng.next_u64() as u32,
        _ => first + rng.below(after - first),
    }
}
