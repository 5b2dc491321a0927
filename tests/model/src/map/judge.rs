//! Judging the banks: how many rows and columns they have, and refusals 11 to
//! 14, or 5 in a later call.

use super::{Bank, Layout};
use crate::record::{Record, BANKS};
use crate::refusal::Refusal;

/// REG-14: the most column bits that a bank has; with 13 row bits they are no
/// more than with 12.
const MOST_COLUMN_BITS: u32 = 12;

/// REG-14: C, the number of column bits; none if the bank is too long for its
/// rows.
pub fn column_bits(row_bits: u32, length_mb: u32) -> Option<u32> {
    (8..=row_bits.min(MOST_COLUMN_BITS))
        .find(|c| 1u64 << (row_bits + c + 3) >= u64::from(length_mb) << 20)
}

/// ON-2, REF-103: judges the banks as switching on does.
pub fn judge(record: &Record) -> Result<Layout, Refusal> {
    let mut layout = Layout {
        banks: [None; BANKS as usize],
    };
    for n in (0..BANKS).filter(|&n| record.is_enabled(n)) {
        layout.banks[usize::from(n)] = Some(judge_bank(record, n)?);
    }
    if layout.enabled().next().is_none() {
        return Err(Refusal::NoneEnabled);
    }
    for (n, bank) in layout.enabled() {
        if layout.meets_lower(n, bank) {
            return Err(Refusal::MeetsLowerBank(n));
        }
    }
    Ok(layout)
}

/// Refusals 12 and 13 of one enabled bank.
fn judge_bank(record: &Record, n: u8) -> Result<Bank, Refusal> {
    let start_mb = record.start_mb(n);
    let last_mb = record.last_mb(n);
    if start_mb > last_mb {
        return Err(Refusal::StartAboveEnd(n));
    }
    let row_bits = record.row_bits(n);
    let column_bits = column_bits(row_bits, record.length_mb(n)).ok_or(Refusal::TooLong(n))?;
    Ok(Bank {
        start_mb,
        last_mb,
        row_bits,
        column_bits,
    })
}

/// ON-7, REF-5: each call judges its record again.
pub fn switched_on(record: &Record) -> Result<Layout, Refusal> {
    if !record.is_on() {
        return Err(Refusal::NotSwitchedOn);
    }
    judge(record).map_err(|_| Refusal::NotSwitchedOn)
}

#[cfg(test)]
mod tests {
    use super::*;

    #[test]
    fn column_bits_by_length() {
        assert_eq!(column_bits(9, 1), Some(8));
        assert_eq!(column_bits(9, 2), Some(9));
        assert_eq!(column_bits(9, 3), None);
        assert_eq!(column_bits(10, 3), Some(9));
        assert_eq!(column_bits(10, 8), Some(10));
        assert_eq!(column_bits(10, 9), None);
        assert_eq!(column_bits(12, 128), Some(12));
        assert_eq!(column_bits(13, 129), Some(12));
        assert_eq!(column_bits(13, 256), Some(12));
        assert_eq!(column_bits(13, 257), None);
    }
}
