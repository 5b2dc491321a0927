//! The flat machine against the cells, over whole lists.

use std::collections::{BTreeSet, HashMap};

use model::calls::{self, Call, Outcome};
use model::flat::{FlatMachine, Span};
use model::gen::{lists, setups, Rng};
use model::map::switched_on;
use model::Answers::Single;
use model::{Answer, Record};

/// Cells of a set-up in these tests at most: some 38 MB of lent bytes.
const CELL_LIMIT: u32 = 1 << 22;

/// A record that an accepted write of 8 to F2 has just returned, its error
/// registers of any value that writes can give.
fn start_record(rng: &mut Rng) -> Record {
    let mut record = setups::accepted_draft(rng, CELL_LIMIT);
    for offset in [0xB8, 0xB9, 0xC0, 0xC4] {
        record.write_register(offset, rng.byte()).unwrap();
    }
    record.write_register(0xF2, 8).unwrap();
    record
}

#[test]
fn flat_machine_against_cells() {
    let mut seen: HashMap<String, u32> = HashMap::new();
    for seed in 0..60 {
        println!("seed {seed}");
        let rng = &mut Rng::new(seed);
        let start = start_record(rng);
        let calls = lists::list(rng, &start, 2000);
        assert!(lists::keeps_condition(&start, &calls), "seed {seed}");
        let mut flat = FlatMachine::of_record(&start).unwrap();
        let mut record = start;
        let mut cells = vec![0; 9 * switched_on(&start).unwrap().cells() as usize];
        for (place, call) in calls.iter().enumerate() {
            let expected = flat.step(call);
            let outcome = calls::step(&mut record, &mut cells, call);
            assert_eq!(outcome, expected, "seed {seed}, place {place}: {call:?}");
            *seen.entry(kind(&outcome)).or_default() += 1;
        }
    }
    println!("{seen:?}");
    // Single calls and register calls; splits: a read or a write, each access
    // clean, corrected or without a bank; bursts: four kinds of reads, two of
    // writes, two refusals.
    assert_eq!(seen.len(), 13 + 2 * 9 + 4 + 2 + 2, "{seen:?}");
}

/// What kind of outcome it is, bytes and bits left out; of a burst, which answers
/// occur.
fn kind(outcome: &Option<Outcome>) -> String {
    match outcome {
        Some(Outcome::Read(answers, _)) => format!("read {:?}", names(answers.kinds())),
        Some(Outcome::Answered(answers)) => format!("{:?}", names(answers.kinds())),
        Some(Outcome::BurstRead(answers, _)) => format!("burst read {}", occurring(answers)),
        Some(Outcome::BurstWritten(answers)) => format!("burst write {}", occurring(answers)),
        other => format!("{other:?}"),
    }
}

fn occurring(answers: &[Answer]) -> String {
    let names: BTreeSet<String> = names(answers).into_iter().collect();
    format!("{names:?}")
}

/// Corrections have one name, whichever bits they tell.
fn names(answers: &[Answer]) -> Vec<String> {
    let name = |answer: &Answer| match answer {
        Answer::Corrected(_) => "Corrected".into(),
        other => format!("{other:?}"),
    };
    answers.iter().map(name).collect()
}

#[test]
fn two_flips_break_the_condition() {
    let record = start_record(&mut Rng::new(5));
    let (_, bank) = switched_on(&record)
        .unwrap()
        .enabled()
        .next()
        .map(|(n, bank)| (n, *bank))
        .unwrap();
    let address = bank.start_mb << 20;
    let flip = |bit| Call::Flip { address, bit };
    let scrub = Call::Scrub { address };
    let refused = write(address, &[0; 9]);
    assert!(!lists::keeps_condition(&record, &[flip(1), flip(1)]));
    assert!(!lists::keeps_condition(
        &record,
        &[flip(1), refused, flip(2)]
    ));
    assert!(lists::keeps_condition(
        &record,
        &[flip(1), flip(72), scrub, flip(2)]
    ));
}

/// LIST-6: an accepted burst write comes between two flips of any doubleword of
/// its line. A burst read, a refused burst write or one of another line doesn't.
#[test]
fn bursts_in_the_condition() {
    let mut record = Record::fresh();
    record.write_register(0xA0, 1).unwrap();
    record.write_register(0xF2, 8).unwrap();
    let keeps = |flipped, burst: Call| {
        let flip = |bit| Call::Flip {
            address: flipped,
            bit,
        };
        lists::keeps_condition(&record, &[flip(1), burst, flip(2)])
    };
    let burst_write = |address, count| Call::BurstWrite {
        address,
        bytes: vec![0; count],
    };
    for flipped in [0x20, 0x2F, 0x33, 0x38] {
        for address in [0x20, 0x28, 0x30, 0x38] {
            assert!(keeps(flipped, burst_write(address, 32)));
            assert!(!keeps(flipped, burst_write(address, 31)));
            assert!(!keeps(flipped, burst_write(address + 1, 32)));
            assert!(!keeps(flipped, Call::BurstRead { address, count: 32 }));
        }
        assert!(!keeps(flipped, burst_write(0x18, 32)));
        assert!(!keeps(flipped, burst_write(0x40, 32)));
    }
}

/// A flat machine whose only span is MB 0.
fn flat_megabyte() -> FlatMachine {
    FlatMachine::new(vec![Span {
        start_mb: 0,
        last_mb: 0,
    }])
}

fn write(address: u32, bytes: &[u8]) -> Call {
    let bytes = bytes.to_vec();
    Call::Write { address, bytes }
}

#[test]
fn flat_machine_answers_by_the_mark() {
    use Outcome::{Answered, Flipped, Read};
    let (address, count) = (4, 2);
    let read = || Call::Read { address, count };
    let flip = |bit| Call::Flip { address: 3, bit };
    let scrub = || Call::Scrub { address: 1 };
    let list = [
        (read(), Read(Single(Answer::Clean), vec![0, 0])),
        (flip(9), Flipped),
        (read(), Read(Single(Answer::Corrected(9)), vec![0, 0])),
        (write(5, &[0xAB]), Answered(Single(Answer::Corrected(9)))),
        (read(), Read(Single(Answer::Clean), vec![0, 0xAB])),
        (flip(40), Flipped),
        (write(0, &[1; 8]), Answered(Single(Answer::Stored))),
        (write(6, &[2]), Answered(Single(Answer::Clean))),
        (flip(71), Flipped),
        (scrub(), Answered(Single(Answer::Corrected(71)))),
        (scrub(), Answered(Single(Answer::Clean))),
    ];
    let mut flat = flat_megabyte();
    for (call, expected) in list {
        assert_eq!(flat.step(&call), Some(expected));
    }
}
