//! Each of the 256 syndromes (ECC-6): what the calls answer, and what the
//! printed page says.

use model::code::{self, Reading, COLUMNS};
use model::gen::Rng;

use super::{cell, every_call, meaning, Setup, PATTERNS};
use crate::coverage::Coverage;
use crate::ways::{every_bit_of_single_calls, ways};

const PAGE: &str = include_str!("../../../../../docs/SYNDROMES.md");

/// The data bytes stay as they are, and the stored check byte makes the
/// syndrome: a read, a short write, a scrub, one access of a split, one beat of a
/// burst.
pub fn of_stored_check_bytes(rng: &mut Rng) -> Result<String, String> {
    let mut coverage = Coverage::new();
    for pattern in PATTERNS {
        let setup = Setup::draw(rng);
        for syndrome in 0..=u8::MAX {
            let mut cell = cell(pattern, &[]);
            cell[8] ^= syndrome;
            every_call(rng, &setup, &cell, meaning(syndrome), &mut coverage)?;
        }
    }
    for kind in ["read", "write", "scrub"] {
        coverage.check(ways(kind, &[1, 2, 3], &[]))?;
    }
    coverage.check(every_bit_of_single_calls())?;
    Ok(format!("{} patterns, each syndrome", PATTERNS.len()))
}

/// The columns and the readings of docs/SYNDROMES.md, against those of the model.
pub fn on_the_page() -> Result<String, String> {
    let columns = entries(9)
        .into_iter()
        .map(|text| u8::from_str_radix(text, 16));
    if !columns.eq(COLUMNS.map(Ok)) {
        return Err("the page has other columns than the model".to_string());
    }
    let readings = entries(17).into_iter().map(reading);
    let readings = readings.collect::<Result<Vec<_>, _>>()?;
    if readings.len() != 256 {
        return Err(format!("the page has {} syndromes", readings.len()));
    }
    match (0..=u8::MAX).find(|&s| readings[usize::from(s)] != code::reading(s)) {
        Some(s) => Err(format!("the page has another reading of {s:02x}")),
        None => Ok("72 columns, 256 syndromes".to_string()),
    }
}

/// What stands in the table whose lines have so many fields, but for its head
/// and the first field of each line.
fn entries(width: usize) -> Vec<&'static str> {
    let lines = PAGE.lines().map(fields).filter(|line| line.len() == width);
    lines
        .skip(2)
        .flat_map(|line| line.into_iter().skip(1))
        .collect()
}

/// The fields of a line of a table.
fn fields(line: &'static str) -> Vec<&'static str> {
    let inner = line
        .strip_prefix('|')
        .and_then(|line| line.strip_suffix('|'));
    inner.map_or_else(Vec::new, |line| line.split('|').map(str::trim).collect())
}

fn reading(text: &str) -> Result<Reading, String> {
    match text {
        "n" => Ok(Reading::Clean),
        "u" => Ok(Reading::Uncorrectable),
        bit => bit
            .parse()
            .map(Reading::Corrected)
            .map_err(|_| format!("the page has {bit:?} for a reading")),
    }
}
