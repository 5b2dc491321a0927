//! Random set-ups with long banks: the map against a second reading of the rule,
//! and what the generators produce.

use std::collections::HashSet;

use model::gen::{scripts, setups, Rng};
use model::lines::LineProgram;
use model::map::{judge, map, switched_on, way_back, Bank, Layout, Place};
use model::record::BANKS;
use model::{Record, Refusal};

/// A bank has as many megabytes of cells as the next power of two after its
/// length, at least 1, 2, 4 or 8 by its row code.
fn cells(record: &Record, n: u8) -> u32 {
    let length = record.last_mb(n) + 1 - record.start_mb(n);
    length.next_power_of_two().max(1 << record.row_code(n)) << 17
}

/// Bank, row, column and cell number, from the registers alone. The columns are
/// what is left of the cells for each of the rows.
fn reading(record: &Record, address: u32) -> Option<(u8, u32, u32, u32)> {
    let enabled = || (0..BANKS).filter(|&n| record.is_enabled(n));
    let megabyte = address / (1 << 20);
    let n = enabled().find(|&n| (record.start_mb(n)..=record.last_mb(n)).contains(&megabyte))?;
    let is_long = record.last_mb(n) - record.start_mb(n) >= 128;
    let rows = if is_long {
        8192
    } else {
        512 << record.row_code(n)
    };
    let columns = cells(record, n) / rows;
    let w = (address >> 3) & (cells(record, n) - 1);
    let lower: u32 = enabled()
        .filter(|&lower| lower < n)
        .map(|n| cells(record, n))
        .sum();
    Some((n, w / columns, w % columns, lower + w))
}

#[test]
fn map_of_long_set_ups_and_back() {
    for seed in 0..400 {
        let rng = &mut Rng::new(seed);
        let record = setups::long(rng);
        let layout = switched_on(&record).unwrap();
        for _ in 0..300 {
            let address = setups::address(rng, &layout);
            let found = map(&record, address).unwrap();
            let plain = |place: Place| (place.bank, place.row.0, place.column.0, place.cell);
            assert_eq!(
                found.map(plain),
                reading(&record, address),
                "seed {seed}, {address:08x}"
            );
            if let Some(place) = found {
                let back = way_back(&record, place.bank, place.row, place.column);
                assert_eq!(back, Ok(address & !7), "seed {seed}, {address:08x}");
            }
        }
    }
}

fn long_banks(layout: &Layout) -> Vec<Bank> {
    let banks = layout.enabled().map(|(_, bank)| *bank);
    banks
        .filter(|bank| bank.last_mb - bank.start_mb >= 128)
        .collect()
}

/// Lengths beside the edges, up to seven long banks in one set-up, cells up to
/// the largest number, and long banks at both ends of the ten bits.
#[test]
fn accepted_set_ups_have_long_banks() {
    let mut lengths = HashSet::new();
    let mut numbers = HashSet::new();
    let mut ends = HashSet::new();
    let mut most_cells = 0;
    for seed in 0..5000 {
        let layout = judge(&setups::accepted(&mut Rng::new(seed), u32::MAX)).unwrap();
        let long = long_banks(&layout);
        numbers.insert(long.len());
        ends.extend(long.iter().flat_map(|bank| [bank.start_mb, bank.last_mb]));
        lengths.extend(
            layout
                .enabled()
                .map(|(_, bank)| bank.last_mb + 1 - bank.start_mb),
        );
        most_cells = most_cells.max(layout.cells());
    }
    for length in [127, 128, 129, 130, 200, 254, 255, 256] {
        assert!(lengths.contains(&length), "{length}");
    }
    assert_eq!(numbers, HashSet::from_iter(0..=7));
    assert!([0, 255, 256, 1023].iter().all(|end| ends.contains(end)));
    assert_eq!(most_cells, 15 << 24);
}

/// A limit of cells is kept with long banks too.
#[test]
fn limits_of_cells() {
    let mut with_long = 0;
    for seed in 0..500 {
        for limit in [1 << 17, 1 << 24, (1 << 25) - 1, 1 << 25, 3 << 24] {
            let layout = judge(&setups::accepted(&mut Rng::new(seed), limit)).unwrap();
            assert!(layout.cells() <= limit, "seed {seed}, {limit}");
            with_long += long_banks(&layout).len();
        }
    }
    assert!(with_long > 100, "{with_long}");
}

/// REF-13 with code 3 at every bank, of 257 MB and of nothing shorter.
#[test]
fn refused_set_ups_have_257_megabytes() {
    let mut seen = HashSet::new();
    for seed in 0..5000 {
        let mut draft = setups::refused_draft(&mut Rng::new(seed));
        let Err(Refusal::TooLong(n)) = draft.write_register(0xF2, 8) else {
            continue;
        };
        if draft.row_code(n) == 3 {
            seen.insert((n, draft.length_mb(n)));
        }
    }
    assert!((0..8).all(|n| seen.contains(&(n, 257))), "{seen:?}");
    assert!(seen.iter().all(|&(_, length)| length > 256), "{seen:?}");
}

/// Scripts switch long banks on, and some of their cells are lent: row 0 of the
/// lowest bank.
#[test]
fn scripts_have_long_banks() {
    let mut long = 0;
    let mut lent = 0;
    for seed in 0..40 {
        let mut program = LineProgram::new();
        for line in scripts::script(&mut Rng::new(seed), 2000) {
            program.take_line(&line, &mut Vec::new());
            let on = switched_on(program.record());
            let lowest = on
                .ok()
                .and_then(|layout| layout.enabled().next().map(|(_, bank)| *bank));
            if let Some(bank) = lowest.filter(|bank| bank.row_bits == 13) {
                long += 1;
                lent += u32::from(bank.start_mb / 256 != bank.last_mb / 256);
            }
        }
    }
    assert!(long > 1000 && lent > 100, "{long} lines, {lent} over row 0");
}
