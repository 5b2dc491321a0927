//! Writing the fields of a bank.

use crate::record::{offset::*, Record};

/// Writes an MB number at a boundary register and its extended byte, which
/// stands eight offsets above.
pub(super) fn set_mb(record: &mut Record, low: u8, megabyte: u32) {
    record.set(low, megabyte as u8);
    record.set(low + 8, (megabyte >> 8) as u8);
}

pub(super) fn set_row_code(record: &mut Record, n: u8, code: u8) {
    let offset = if n < 4 { ROW_CODES_LOW } else { ROW_CODES_HIGH };
    let shift = 2 * (n % 4);
    let others = record.at(offset) & !(3 << shift);
    record.set(offset, others | code << shift);
}

pub(super) fn set_enabled(record: &mut Record, n: u8, enabled: bool) {
    let others = record.at(BANK_ENABLES) & !(1 << n);
    record.set(BANK_ENABLES, others | u8::from(enabled) << n);
}
