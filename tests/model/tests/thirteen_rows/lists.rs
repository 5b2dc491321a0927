//! The flat machine against the cells of long banks, over whole lists.

use std::collections::HashSet;

use model::calls::{self, Call, Outcome};
use model::flat::FlatMachine;
use model::gen::{lists, setups, Rng};
use model::map::{map, switched_on};
use model::{Record, Refusal};

use crate::{end_of, mb, on};

/// Cells that are lent at most: all of a long bank and some of the next one. A
/// list touches few of them, and the others take no memory.
const LENT_CELLS: u32 = (1 << 25) + (1 << 22);

fn lent_cells(record: &Record) -> u32 {
    switched_on(record).unwrap().cells().min(LENT_CELLS)
}

/// Runs a list on both from zeros; every outcome must be the same.
fn same_outcomes(start: &Record, lent: u32, list: &[Call]) -> Vec<Option<Outcome>> {
    assert!(lists::keeps_condition(start, list));
    let mut record = *start;
    let mut cells = vec![0; 9 * lent as usize];
    let outcomes = calls::run(&mut record, &mut cells, list);
    let expected = FlatMachine::of_record(start).unwrap().run(list);
    for (call, (outcome, expected)) in list.iter().zip(outcomes.iter().zip(&expected)) {
        assert_eq!(outcome, expected, "{call:?}");
    }
    outcomes
}

/// Every sort of call at a doubleword, over its end and in its line. A scrub
/// ends it, so that no flip is left.
fn calls_at(address: u32) -> Vec<Call> {
    let bytes = (address ^ 0xA5A5_A5A5).to_be_bytes().repeat(2);
    let line = bytes.repeat(4);
    let flip = |bit| Call::Flip { address, bit };
    let read = || Call::Read { address, count: 8 };
    let write = |distance, bytes: &[u8]| Call::Write {
        address: address + distance,
        bytes: bytes.to_vec(),
    };
    let scrub = Call::Scrub { address };
    vec![
        read(),
        write(0, &bytes),
        flip(0),
        read(),
        write(3, &[0x5A]),
        read(),
        flip(71),
        write(5, &[1, 2, 3, 4, 5, 6]),
        Call::Read {
            address: address + 1,
            count: 8,
        },
        Call::BurstWrite {
            address,
            bytes: line,
        },
        flip(40),
        Call::BurstRead { address, count: 32 },
        scrub.clone(),
        flip(63),
        scrub,
        read(),
    ]
}

/// Bank 0 from MB 200 to 328, bank 1 from 0 to 128: 2^26 cells, all lent. The
/// places are the ends of the spans, what lies outside, where rows begin again
/// and where they would with twelve row bits.
#[test]
fn calls_at_the_ends_of_long_banks() {
    let record = on(&[(0, 200, 328, 3), (1, 0, 128, 3)]);
    let places = [
        mb(0),
        end_of(127),
        mb(128),
        end_of(128),
        mb(129),
        end_of(199),
        mb(200),
        end_of(255),
        mb(256),
        end_of(327),
        mb(328),
        end_of(328),
        mb(329),
    ];
    let mut list: Vec<Call> = places.into_iter().flat_map(calls_at).collect();
    // At last all of it once more: nothing was put in two cells or in one twice.
    for address in places {
        let line = address & !31;
        list.push(Call::BurstRead {
            address: line,
            count: 32,
        });
    }
    same_outcomes(&record, 1 << 26, &list);
}

/// Notes what an accepted flip shows of a long bank: which half of the rows it
/// is in, and whether other banks have lower numbers.
fn note(record: &Record, call: &Call, outcome: &Option<Outcome>, seen: &mut HashSet<(bool, bool)>) {
    let (Call::Flip { address, .. }, Some(Outcome::Flipped)) = (call, outcome) else {
        return;
    };
    let layout = switched_on(record).unwrap();
    let place = map(record, *address).unwrap().unwrap();
    let bank = layout.banks[usize::from(place.bank)].unwrap();
    let is_lowest = layout.enabled().all(|(n, _)| n >= place.bank);
    if bank.last_mb - bank.start_mb >= 128 {
        seen.insert((place.row.0 >= 4096, is_lowest));
    }
}

#[test]
fn random_lists_in_long_banks() {
    let mut seen = HashSet::new();
    for seed in 5000..5060 {
        println!("seed {seed}");
        let rng = &mut Rng::new(seed);
        let record = setups::long(rng);
        let lent = lent_cells(&record);
        let list = lists::list_in_lent(rng, &record, lent, 1500);
        let outcomes = same_outcomes(&record, lent, &list);
        for (call, outcome) in list.iter().zip(&outcomes) {
            note(&record, call, outcome, &mut seen);
        }
    }
    assert_eq!(seen.len(), 4, "{seen:?}");
}

/// With few cells lent the lists keep to them: no call gets 9.
#[test]
fn random_lists_keep_to_the_lent_cells() {
    for seed in 5100..5140 {
        let rng = &mut Rng::new(seed);
        let record = setups::long(rng);
        for lent in [1, 4, 5000, 1 << 20] {
            let list = lists::list_in_lent(rng, &record, lent, 300);
            let outcomes = same_outcomes(&record, lent, &list);
            let refused = Some(Outcome::Refused(Refusal::CellNotLent));
            assert!(!outcomes.contains(&refused), "seed {seed}, {lent} cells");
        }
    }
}
