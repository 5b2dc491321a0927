//! Random spans for the banks of a set-up.

use std::ops::RangeInclusive;

use super::fields::{set_enabled, set_mb, set_row_code};
use crate::gen::Rng;
use crate::map;
use crate::record::{offset::*, Record, BANKS};

/// How many times a place for a bank is tried before the bank stays off.
const ATTEMPTS: u32 = 8;

/// Ten bits name an MB.
const MEGABYTES: u32 = 1024;

/// The cells of a bank with 13 row bits: it has 12 column bits.
pub(super) const LONG_BANK_CELLS: u32 = 1 << (13 + 12);

/// Any start, any end, any row code.
pub(super) fn scatter_bank(rng: &mut Rng, record: &mut Record, n: u8) {
    if rng.percent(50) {
        set_mb(record, START + n, rng.below(MEGABYTES));
        set_mb(record, LAST + n, rng.below(MEGABYTES));
    }
    set_row_code(record, n, rng.byte() & 3);
}

/// Enables bank n with some span that keeps the record acceptable, or leaves
/// the record as it is.
pub(super) fn place_bank(rng: &mut Rng, record: &mut Record, n: u8, cell_limit: u32) {
    for _ in 0..ATTEMPTS {
        let code = rng.byte() & 3;
        let length = random_length(rng, code);
        let Some(last) = random_last(rng, record, length) else {
            continue;
        };
        let tried = with_bank(record, n, code, last + 1 - length..=last);
        if is_within(&tried, cell_limit) {
            *record = tried;
            return;
        }
    }
}

/// Enables banks of row code 3, most of them long, each directly after the one
/// before. A bank that would pass the last megabyte ends there, so that runs
/// often reach it.
pub(super) fn place_run(rng: &mut Rng, record: &mut Record, banks: &[u8], cell_limit: u32) {
    let common_length = rng.percent(40).then(|| long_length(rng));
    let mut start = match rng.below(4) {
        0 | 1 => 0,
        2 => rng.below(256),
        _ => rng.below(MEGABYTES),
    };
    for &n in banks {
        let length = common_length.unwrap_or_else(|| long_length(rng));
        let end = (start + length).min(MEGABYTES);
        if start == end {
            return;
        }
        let tried = with_bank(record, n, 3, start..=end - 1);
        if is_within(&tried, cell_limit) {
            *record = tried;
        }
        start = end;
    }
}

/// The record with bank n enabled on a span.
fn with_bank(record: &Record, n: u8, code: u8, span: RangeInclusive<u32>) -> Record {
    let mut with = *record;
    set_row_code(&mut with, n, code);
    set_mb(&mut with, START + n, *span.start());
    set_mb(&mut with, LAST + n, *span.end());
    set_enabled(&mut with, n, true);
    with
}

/// True if a record is acceptable and has no more cells than the limit.
fn is_within(record: &Record, cell_limit: u32) -> bool {
    map::judge(record).is_ok_and(|layout| layout.cells() <= cell_limit)
}

/// ON-3: the longest bank that a row code allows, in MB.
pub(super) fn longest(code: u8) -> u32 {
    [2, 8, 32, 256][usize::from(code)]
}

fn random_length(rng: &mut Rng, code: u8) -> u32 {
    let longest = longest(code);
    let half = longest / 2;
    match rng.below(5) {
        0 => 1,
        1 => longest,
        2 => longest >> rng.below(longest.ilog2() + 1),
        // Past the half there is one more column bit or, with code 3, row bit.
        3 => rng.pick(&[half - 1, half, half + 1, longest - 1]).max(1),
        _ => 1 + rng.below(longest),
    }
}

/// A length of 129 to 256 MB, now and then a little less.
fn long_length(rng: &mut Rng) -> u32 {
    match rng.below(4) {
        0 => 129,
        1 => rng.pick(&[127, 128, 129, 255, 256]),
        _ => 129 + rng.below(128),
    }
}

/// A last MB for a bank of some length: at the edges of the eight low bits
/// and of all ten, low down, next to another bank, or anywhere.
fn random_last(rng: &mut Rng, record: &Record, length: u32) -> Option<u32> {
    let last = match rng.below(10) {
        0 => 255,
        1 => 256,
        2 => 1023,
        3 => length - 1,
        4 => 255 + rng.below(length),
        5 | 6 => record.last_mb(rng.below(u32::from(BANKS)) as u8) + length,
        7 | 8 => rng.below(16),
        _ => rng.below(MEGABYTES),
    };
    (last < MEGABYTES && last + 1 >= length).then_some(last)
}
