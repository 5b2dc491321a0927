//! MEM-16: a split is its two single calls.

use std::collections::HashSet;
use std::mem;

use model::gen::{edges, setups, Rng};
use model::map::{map, switched_on};
use model::memory::{flip, read, write};
use model::{Answer, Answers, Record};

/// A read inside a doubleword.
fn single_read(record: &mut Record, cells: &[u8], address: u32, buffer: &mut [u8]) -> Answer {
    match read(record, cells, address, buffer) {
        Ok(Answers::Single(answer)) => answer,
        other => panic!("a read inside a doubleword: {other:?}"),
    }
}

/// A write inside a doubleword.
fn single_write(record: &mut Record, cells: &mut [u8], address: u32, bytes: &[u8]) -> Answer {
    match write(record, cells, address, bytes) {
        Ok(Answers::Single(answer)) => answer,
        other => panic!("a write inside a doubleword: {other:?}"),
    }
}

/// A split read and its single reads, from the same record: all must be equal.
/// Gives the answers and the record after them.
pub(crate) fn same_reads(
    start: &Record,
    cells: &[u8],
    address: u32,
    count: usize,
) -> (Answers, Record) {
    let (mut one, mut two) = (*start, *start);
    let mut buffer = vec![0x77; count];
    let answers = read(&mut one, cells, address, &mut buffer).unwrap();
    let mut parts = vec![0x88; count];
    let edge = (address | 7) + 1;
    let (front, back) = parts.split_at_mut((edge - address) as usize);
    let first = single_read(&mut two, cells, address, front);
    let second = single_read(&mut two, cells, edge, back);
    assert_eq!(answers, Answers::Split([first, second]), "{address:08x}");
    assert_eq!((buffer, one), (parts, two), "{address:08x}");
    (answers, one)
}

/// The same for a write; `others` are the cells that the single writes change.
pub(crate) fn same_writes(
    start: &Record,
    cells: &mut [u8],
    others: &mut [u8],
    address: u32,
    bytes: &[u8],
) -> (Answers, Record) {
    let (mut one, mut two) = (*start, *start);
    let answers = write(&mut one, cells, address, bytes).unwrap();
    let edge = (address | 7) + 1;
    let (front, back) = bytes.split_at((edge - address) as usize);
    let first = single_write(&mut two, others, address, front);
    let second = single_write(&mut two, others, edge, back);
    assert_eq!(answers, Answers::Split([first, second]), "{address:08x}");
    assert_eq!(one, two, "{address:08x}");
    (answers, one)
}

/// A record just switched on with any error registers. Its cells are at most
/// some 9 MB.
pub(crate) fn random_record(rng: &mut Rng) -> Record {
    let mut record = setups::accepted(rng, 1 << 20);
    for offset in [0xB8, 0xB9, 0xC0, 0xC4] {
        record.write_register(offset, rng.byte()).unwrap();
    }
    record
}

/// Puts two doublewords in disorder: each cell is kept, gets one flip or two, or
/// nine bytes of any value.
fn spoil(rng: &mut Rng, record: &Record, cells: &mut [u8], lower: u32) {
    for address in [lower, lower + 8] {
        let Some(place) = map(record, address).unwrap() else {
            continue;
        };
        for _ in 0..rng.below(3) {
            flip(record, cells, address, rng.below(72) as u8).unwrap();
        }
        if rng.percent(10) {
            let first = 9 * place.cell as usize;
            cells[first..first + 9].copy_from_slice(&rng.bytes(9));
        }
    }
}

/// Clears what stands in the error registers, so that there are new reports.
fn clear_errors(record: &mut Record) {
    for (offset, value) in [(0xB8, 0), (0xC1, 0xFF), (0xC5, 0xFF)] {
        record.write_register(offset, value).unwrap();
    }
}

/// Edges over which a split is accepted; the last doubleword has none.
fn accepted_edges(rng: &mut Rng, record: &Record) -> Vec<u32> {
    let layout = switched_on(record).unwrap();
    let edges = (0..12).map(|_| edges::edge(rng, &layout));
    edges.filter(|&edge| edge != 0xFFFF_FFF8).collect()
}

/// What the accesses of reads and writes have answered.
#[derive(Default)]
struct Seen {
    /// The kinds of both accesses, corrections of all bits being one kind.
    kinds: HashSet<(bool, Vec<mem::Discriminant<Answer>>)>,
    /// The answers of each access by itself, with the bits of corrections.
    answers: HashSet<(bool, usize, Answer)>,
}

impl Seen {
    fn note(&mut self, is_write: bool, answers: &Answers) {
        let kinds = answers.kinds().iter().map(mem::discriminant).collect();
        self.kinds.insert((is_write, kinds));
        for (place, &answer) in answers.kinds().iter().enumerate() {
            self.answers.insert((is_write, place, answer));
        }
    }
}

#[test]
fn random_splits_are_two_single_calls() {
    let mut seen = Seen::default();
    for seed in 0..60 {
        println!("seed {seed}");
        let rng = &mut Rng::new(seed);
        let mut record = random_record(rng);
        let mut cells = vec![0; 9 * switched_on(&record).unwrap().cells() as usize];
        let mut others = cells.clone();
        let edges = accepted_edges(rng, &record);
        for _ in 0..200 {
            let lower = rng.pick(&edges);
            // The same disorder in both.
            spoil(&mut rng.clone(), &record, &mut others, lower);
            spoil(rng, &record, &mut cells, lower);
            let (address, count) = edges::split(rng, lower);
            let (answers, after) = same_reads(&record, &cells, address, count);
            seen.note(false, &answers);
            record = after;
            if rng.percent(20) {
                clear_errors(&mut record);
            }
            let (address, count) = edges::split(rng, lower);
            let bytes = rng.bytes(count);
            let (answers, after) = same_writes(&record, &mut cells, &mut others, address, &bytes);
            seen.note(true, &answers);
            record = after;
        }
        assert!(cells == others, "seed {seed}");
    }
    // Reads and writes: each access clean, corrected, uncorrectable or without
    // a bank, and corrected at each of the bits.
    assert_eq!(seen.kinds.len(), 2 * 16, "{:?}", seen.kinds);
    assert_eq!(seen.answers.len(), 2 * 2 * (3 + 72), "{:?}", seen.answers);
}
