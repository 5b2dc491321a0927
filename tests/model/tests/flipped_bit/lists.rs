//! LIST-9: lists on cells and on the flat machine, the bits compared.

use std::collections::HashSet;

use model::calls::{self, Call, Outcome};
use model::flat::FlatMachine;
use model::gen::{lists, setups, Rng};
use model::map;
use model::Answer::{self, Clean, Corrected, Stored};
use model::Answers::{Single, Split};
use model::Record;

use crate::switched_on;

fn read(address: u32, count: usize) -> Call {
    Call::Read { address, count }
}

fn write(address: u32, count: usize) -> Call {
    let bytes = vec![0; count];
    Call::Write { address, bytes }
}

fn got(answer: Answer, count: usize) -> Outcome {
    Outcome::Read(Single(answer), vec![0; count])
}

/// A list that flips three bits in turn, in several doublewords, and what the
/// rules say of each of its calls. All bytes stay zero.
fn list(a: u8, b: u8, c: u8) -> Vec<(Call, Outcome)> {
    use Outcome::{Answered, BurstRead, BurstWritten, Flipped};
    let flip = |address, bit| (Call::Flip { address, bit }, Flipped);
    let burst = |address| Call::BurstRead { address, count: 32 };
    let scrub = |address| Call::Scrub { address };
    let (address, bytes) = (0x38, vec![0; 32]);
    let burst_write = Call::BurstWrite { address, bytes };
    let beats = |answers| BurstRead(answers, vec![0; 32]);
    let [x, y, z] = [a, b, c].map(Corrected);
    let split = |first, second, count| Outcome::Read(Split([first, second]), vec![0; count]);
    vec![
        flip(0x21, a),
        (read(0x26, 2), got(x, 2)),
        flip(0x2F, b),
        (read(0x27, 2), split(x, y, 2)),
        flip(0x38, c),
        (burst(0x28), beats([y, Clean, z, x])),
        (write(0x23, 8), Answered(Split([x, y]))),
        (read(0x23, 8), split(Clean, Clean, 8)),
        (burst(0x38), beats([z, Clean, Clean, Clean])),
        flip(0x20, b),
        (write(0x20, 7), Answered(Single(y))),
        flip(0x20, c),
        (scrub(0x27), Answered(Single(z))),
        flip(0x20, a),
        (write(0x20, 8), Answered(Single(Stored))),
        (scrub(0x20), Answered(Single(Clean))),
        (read(0x3F, 1), got(z, 1)),
        (write(0x36, 4), Answered(Split([Clean, z]))),
        flip(0x3C, a),
        (write(0x3E, 6), Answered(Split([x, Clean]))),
        flip(0x30, b),
        (burst_write, BurstWritten([Stored; 4])),
        (read(0x30, 8), got(Clean, 8)),
    ]
}

/// The cells and the flat machine give what is written above, for every bit in
/// every place.
#[test]
fn written_lists_with_every_bit() {
    for bit in 0..72 {
        for (b, c) in [(1, 2), (0, 0), (8, 64), (71, 36)] {
            let list = list(bit, (bit + b) % 72, (bit + c) % 72);
            let mut record = switched_on();
            let mut flat = FlatMachine::of_record(&record).unwrap();
            let mut cells = [0; 9 * 12];
            for (call, expected) in list {
                let outcome = calls::step(&mut record, &mut cells, &call);
                assert_eq!(outcome.as_ref(), Some(&expected), "{bit}: {call:?}");
                assert_eq!(flat.step(&call), Some(expected), "{bit}: {call:?}");
            }
        }
    }
}

/// The answers of an outcome, each with the sort of access that gave it.
fn sorted(call: &Call, outcome: &Outcome) -> Vec<(String, Answer)> {
    let (sort, answers): (&str, &[Answer]) = match (call, outcome) {
        (_, Outcome::Read(answers, _)) => ("read", answers.kinds()),
        (Call::Scrub { .. }, Outcome::Answered(answers)) => ("scrub", answers.kinds()),
        (_, Outcome::Answered(answers)) => ("write", answers.kinds()),
        (_, Outcome::BurstRead(answers, _)) => ("burst read", answers),
        _ => ("", &[]),
    };
    let of = answers.len();
    let numbered = answers.iter().enumerate();
    numbered
        .map(|(place, &answer)| (format!("{sort} {place} of {of}"), answer))
        .collect()
}

/// Runs a random list on cells and on the flat machine and notes which sorts of
/// accesses named which bits.
fn same_list(rng: &mut Rng, mut record: Record, seen: &mut HashSet<(String, u8)>) {
    let calls = lists::list(rng, &record, 3000);
    assert!(lists::keeps_condition(&record, &calls));
    let mut flat = FlatMachine::of_record(&record).unwrap();
    let mut cells = vec![0; 9 * map::switched_on(&record).unwrap().cells() as usize];
    for call in &calls {
        let outcome = calls::step(&mut record, &mut cells, call);
        assert_eq!(outcome, flat.step(call), "{call:?}");
        let Some(outcome) = outcome else { continue };
        for (sort, answer) in sorted(call, &outcome) {
            if let Corrected(bit) = answer {
                seen.insert((sort, bit));
            }
        }
    }
}

#[test]
fn random_lists_with_every_bit() {
    let mut seen = HashSet::new();
    for seed in 3000..3060 {
        println!("seed {seed}");
        let rng = &mut Rng::new(seed);
        let record = setups::accepted(rng, 1 << 20);
        same_list(rng, record, &mut seen);
    }
    // Reads, short writes and scrubs, both accesses of split reads and of split
    // writes, and the four beats of burst reads, each with every bit.
    let sorts: HashSet<&String> = seen.iter().map(|(sort, _)| sort).collect();
    assert_eq!(sorts.len(), 3 + 2 + 2 + 4, "{sorts:?}");
    assert_eq!(seen.len(), 72 * sorts.len());
}
