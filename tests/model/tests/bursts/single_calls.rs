//! MEM-16: a burst is its four single calls.

use std::collections::HashSet;

use model::gen::{setups, Rng};
use model::map::{map, switched_on};
use model::memory::{burst_read, burst_write, flip, read, write};
use model::{Answer, Record};

use crate::{beats, single};

/// The single reads of a burst, one after the other.
pub(crate) fn four_reads(
    record: &mut Record,
    cells: &[u8],
    address: u32,
) -> ([Answer; 4], Vec<u8>) {
    let mut bytes = Vec::new();
    let answers = beats(address).map(|beat| {
        let mut buffer = [0; 8];
        let answers = read(record, cells, beat, &mut buffer).unwrap();
        bytes.extend(buffer);
        single(answers)
    });
    (answers, bytes)
}

/// The single writes of a burst, one after the other.
pub(crate) fn four_writes(
    record: &mut Record,
    cells: &mut [u8],
    address: u32,
    bytes: &[u8],
) -> [Answer; 4] {
    let mut parts = bytes.chunks(8);
    beats(address).map(|beat| single(write(record, cells, beat, parts.next().unwrap()).unwrap()))
}

/// A burst read and its single reads, from the same record: all must be equal.
/// Gives the answers and the record after them.
pub(crate) fn same_reads(start: &Record, cells: &[u8], address: u32) -> ([Answer; 4], Record) {
    let (mut one, mut four) = (*start, *start);
    let mut buffer = [0x77; 32];
    let answers = burst_read(&mut one, cells, address, &mut buffer).unwrap();
    let singles = four_reads(&mut four, cells, address);
    assert_eq!((answers, buffer.to_vec()), singles, "{address:08x}");
    assert_eq!(one, four, "{address:08x}");
    (answers, one)
}

/// A record just switched on with any error registers. Its cells are at most
/// some 9 MB.
pub(crate) fn random_record(rng: &mut Rng) -> Record {
    let mut record = setups::accepted(rng, 1 << 20);
    for offset in [0xB8, 0xB9, 0xC0, 0xC4] {
        record.write_register(offset, rng.byte()).unwrap();
    }
    record
}

/// Puts a line in disorder: each cell is kept, gets one flip or two, or nine
/// bytes of any value.
fn spoil(rng: &mut Rng, record: &Record, cells: &mut [u8], line: u32) {
    for address in beats(line) {
        let Some(place) = map(record, address).unwrap() else {
            continue;
        };
        for _ in 0..rng.below(3) {
            flip(record, cells, address, rng.below(72) as u8).unwrap();
        }
        if rng.percent(10) {
            let first = 9 * place.cell as usize;
            cells[first..first + 9].copy_from_slice(&rng.bytes(9));
        }
    }
}

/// Clears what stands in the error registers, so that there are new reports.
fn clear_errors(record: &mut Record) {
    for (offset, value) in [(0xB8, 0), (0xC1, 0xFF), (0xC5, 0xFF)] {
        record.write_register(offset, value).unwrap();
    }
}

#[test]
fn random_bursts_are_four_single_calls() {
    let mut seen = HashSet::new();
    for seed in 0..40 {
        println!("seed {seed}");
        let rng = &mut Rng::new(seed);
        let mut record = random_record(rng);
        let layout = switched_on(&record).unwrap();
        let mut cells = vec![0; 9 * layout.cells() as usize];
        let mut singles = cells.clone();
        let lines = [(); 8].map(|()| setups::address(rng, &layout) & !31);
        for _ in 0..200 {
            let line = rng.pick(&lines);
            let address = line + 8 * rng.below(4);
            // The same disorder in both.
            spoil(&mut rng.clone(), &record, &mut singles, line);
            spoil(rng, &record, &mut cells, line);
            let (answers, after) = same_reads(&record, &cells, address);
            seen.extend(answers);
            record = after;
            if rng.percent(20) {
                clear_errors(&mut record);
            }
            if rng.percent(30) {
                let bytes = rng.bytes(32);
                let mut four = record;
                let answers = burst_write(&mut record, &mut cells, address, &bytes).unwrap();
                let expected = four_writes(&mut four, &mut singles, address, &bytes);
                assert_eq!((answers, record), (expected, four), "{address:08x}");
                seen.extend(answers);
            }
        }
        assert!(cells == singles, "seed {seed}");
    }
    // Clean, uncorrectable, stored, without a bank, and each bit corrected.
    assert_eq!(seen.len(), 4 + 72, "{seen:?}");
}
