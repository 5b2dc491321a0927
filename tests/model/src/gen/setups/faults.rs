//! Set-ups that switching on refuses.

use super::fields::{set_enabled, set_mb};
use super::spans::longest;
use crate::gen::Rng;
use crate::record::{offset::*, Record, BANKS};

/// Breaks a set-up in one of the ways of 11 to 14 (it may by chance stay
/// acceptable).
pub(super) fn spoil(rng: &mut Rng, record: &mut Record) {
    let n = rng.below(u32::from(BANKS)) as u8;
    let other = rng.below(u32::from(BANKS)) as u8;
    match rng.below(6) {
        0 => record.set(BANK_ENABLES, 0),
        1 => {
            set_mb(record, START + n, 1 + rng.below(1023));
            set_mb(record, LAST + n, rng.below(record.start_mb(n)));
            set_enabled(record, n, true);
        }
        2 => {
            let length = longest(record.row_code(n));
            set_mb(record, START + n, rng.below(1024 - length));
            set_mb(record, LAST + n, record.start_mb(n) + length);
            set_enabled(record, n, true);
        }
        3 => {
            set_mb(record, START + n, record.start_mb(other));
            set_mb(record, LAST + n, record.start_mb(other));
            set_enabled(record, n, true);
        }
        4 => {
            set_mb(record, START + n, record.last_mb(other));
            set_mb(record, LAST + n, record.last_mb(other));
            set_enabled(record, n, true);
        }
        _ => record.set(BANK_ENABLES, rng.byte()),
    }
}
