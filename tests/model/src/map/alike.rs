//! Whether two records are alike.

use super::{switched_on, Layout, DOUBLEWORDS_PER_MB};
use crate::record::Record;
use crate::refusal::Refusal;

/// Banks end at MB 1023 at the latest: ten bits name an MB.
const MEGABYTES: u32 = 1 << 10;

/// ALIKE-1: whether two records are alike.
///
/// Every MB is compared at the doublewords of [`deciding_doublewords`]; no
/// record has a bank past MB 1023.
pub fn alike(one: &Record, other: &Record) -> Result<bool, Refusal> {
    let one = switched_on(one)?;
    let other = switched_on(other)?;
    let same = (0..MEGABYTES).all(|megabyte| {
        deciding_doublewords().all(|doubleword| {
            let address = (megabyte << 20) + doubleword * 8;
            same_place(&one, &other, address)
        })
    });
    Ok(same)
}

/// Doublewords of an MB whose places decide those of all others in it: one MB
/// has one bank, and each bit of row and column either is a bit of the
/// doubleword's number or is constant within the MB. So doubleword 0 and the
/// doublewords whose number has a single one bit show which bit goes where.
fn deciding_doublewords() -> impl Iterator<Item = u32> {
    std::iter::once(0).chain((0..17).map(|bit| 1 << bit))
}

/// The same question asked at every doubleword up to the end of the highest
/// bank of either record. Only for set-ups low in the address space.
pub fn alike_exhaustive(one: &Record, other: &Record) -> Result<bool, Refusal> {
    let one = switched_on(one)?;
    let other = switched_on(other)?;
    let end_mb = one
        .enabled()
        .chain(other.enabled())
        .map(|(_, bank)| bank.last_mb + 1)
        .max()
        .unwrap_or(0);
    let same =
        (0..end_mb * DOUBLEWORDS_PER_MB).all(|doubleword| same_place(&one, &other, doubleword * 8));
    Ok(same)
}

/// ALIKE-2: bank, row and column count, the cell number doesn't.
fn same_place(one: &Layout, other: &Layout, address: u32) -> bool {
    let shown = |layout: &Layout| {
        layout
            .locate(address)
            .map(|place| (place.bank, place.row, place.column))
    };
    shown(one) == shown(other)
}
