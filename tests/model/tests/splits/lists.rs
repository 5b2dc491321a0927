//! FLAT-9: splits of the flat machine, and lists with splits.

use model::calls::{self, Call, Outcome};
use model::flat::{FlatMachine, Span};
use model::gen::{lists, Rng};
use model::map::switched_on;
use model::Answer::{Clean, Corrected, NoBank};
use model::Answers::{Single, Split};
use model::{Answer, Record, Refusal};

use crate::single_calls::random_record;

fn read(address: u32, count: usize) -> Call {
    Call::Read { address, count }
}

fn write(address: u32, bytes: &[u8]) -> Call {
    let bytes = bytes.to_vec();
    Call::Write { address, bytes }
}

/// The two reads or writes of a call that is a split and is accepted.
fn parts(call: &Call) -> Option<[Call; 2]> {
    let (address, count) = match call {
        Call::Read { address, count } => (*address, *count),
        Call::Write { address, bytes } => (*address, bytes.len()),
        _ => return None,
    };
    let front = 8 - address as usize % 8;
    let edge = address.checked_add(front as u32)?;
    if count <= front || count > 8 {
        return None;
    }
    Some(match call {
        Call::Write { bytes, .. } => [
            write(address, &bytes[..front]),
            write(edge, &bytes[front..]),
        ],
        _ => [read(address, front), read(edge, count - front)],
    })
}

/// The outcome of a call if the flat machine makes the parts of a split as
/// single calls.
fn by_parts(flat: &mut FlatMachine, call: &Call) -> Option<Outcome> {
    let Some(parts) = parts(call) else {
        return flat.step(call);
    };
    Some(match parts.map(|part| flat.step(&part)) {
        [Some(Outcome::Read(Single(first), front)), Some(Outcome::Read(Single(second), back))] => {
            Outcome::Read(Split([first, second]), [front, back].concat())
        }
        [Some(Outcome::Answered(Single(first))), Some(Outcome::Answered(Single(second)))] => {
            Outcome::Answered(Split([first, second]))
        }
        other => panic!("two calls inside doublewords: {other:?}"),
    })
}

/// The cells and the flat machine's own splits, both against the flat machine
/// that makes the parts.
#[test]
fn lists_with_splits_are_lists_of_their_parts() {
    for seed in 2000..2030 {
        println!("seed {seed}");
        let rng = &mut Rng::new(seed);
        let mut record = random_record(rng);
        let calls = lists::list(rng, &record, 1500);
        assert!(lists::keeps_condition(&record, &calls), "seed {seed}");
        assert!(calls.iter().filter_map(parts).count() > 100, "seed {seed}");
        let mut cells = vec![0; 9 * switched_on(&record).unwrap().cells() as usize];
        let mut flat = FlatMachine::of_record(&record).unwrap();
        let mut halves = flat.clone();
        for (place, call) in calls.iter().enumerate() {
            let expected = by_parts(&mut halves, call);
            let outcome = calls::step(&mut record, &mut cells, call);
            assert_eq!(outcome, expected, "seed {seed}, place {place}: {call:?}");
            let outcome = flat.step(call);
            assert_eq!(outcome, expected, "seed {seed}, place {place}: {call:?}");
        }
    }
}

/// A flat machine whose only span is MB 0 makes the calls of a list, each with
/// the outcome beside it.
fn flat_gives(list: &[(Call, Outcome)]) {
    let mut flat = FlatMachine::new(vec![Span {
        start_mb: 0,
        last_mb: 0,
    }]);
    for (call, expected) in list {
        assert_eq!(flat.step(call).as_ref(), Some(expected), "{call:?}");
    }
}

fn got(first: Answer, second: Answer, bytes: &[u8]) -> Outcome {
    Outcome::Read(Split([first, second]), bytes.to_vec())
}

fn answered(first: Answer, second: Answer) -> Outcome {
    Outcome::Answered(Split([first, second]))
}

#[test]
fn splits_of_the_flat_machine() {
    use Outcome::{Answered, Flipped, Read, Refused};
    let flip = |address, bit| Call::Flip { address, bit };
    let scrub = |address| Call::Scrub { address };
    flat_gives(&[
        (read(0x27, 2), got(Clean, Clean, &[0; 2])),
        (flip(0x20, 9), Flipped),
        (read(0x25, 4), got(Corrected(9), Clean, &[0; 4])),
        (flip(0x2F, 70), Flipped),
        (read(0x25, 8), got(Corrected(9), Corrected(70), &[0; 8])),
        // A refused write clears no mark and puts no byte.
        (write(0x25, &[7; 9]), Refused(Refusal::BadCount)),
        (
            write(0x25, &[1, 2, 3, 4]),
            answered(Corrected(9), Corrected(70)),
        ),
        (
            write(0x25, &[1, 2, 3, 4, 5, 6, 7, 8]),
            answered(Clean, Clean),
        ),
        (read(0x24, 8), got(Clean, Clean, &[0, 1, 2, 3, 4, 5, 6, 7])),
        (read(0x28, 6), Read(Single(Clean), vec![4, 5, 6, 7, 8, 0])),
        (scrub(0x20), Answered(Single(Clean))),
        // Out of the span: only the access inside it does anything.
        (flip(0x000F_FFF8, 63), Flipped),
        (
            write(0x000F_FFFF, &[9, 8, 7]),
            answered(Corrected(63), NoBank),
        ),
        (
            read(0x000F_FFFE, 4),
            got(Clean, NoBank, &[0, 9, 0xFF, 0xFF]),
        ),
    ]);
}

/// FLAT-6: 7 follows from the arguments. The last write would reach address 0.
#[test]
fn splits_of_the_flat_machine_at_the_last_address() {
    use Outcome::{Read, Refused};
    flat_gives(&[
        (write(0xFFFF_FFF7, &[1, 2]), answered(NoBank, NoBank)),
        (read(0xFFFF_FFF7, 8), got(NoBank, NoBank, &[0xFF; 8])),
        (read(0xFFFF_FFF8, 8), Read(Single(NoBank), vec![0xFF; 8])),
        (read(0xFFFF_FFF9, 8), Refused(Refusal::PassesLastAddress)),
        (read(0xFFFF_FFFF, 9), Refused(Refusal::BadCount)),
        (
            write(0xFFFF_FFFF, &[1, 2]),
            Refused(Refusal::PassesLastAddress),
        ),
        (read(0, 2), Read(Single(Clean), vec![0; 2])),
    ]);
}

/// Into a span, and from one span into another.
#[test]
fn splits_between_spans_of_the_flat_machine() {
    let span = |megabyte| Span {
        start_mb: megabyte,
        last_mb: megabyte,
    };
    let mut flat = FlatMachine::new(vec![span(2), span(1)]);
    for (edge, kinds, seen) in [
        (0x0010_0000, [NoBank, Clean], [0xFF, 0xFF, 3, 4]),
        (0x0020_0000, [Clean, Clean], [1, 2, 3, 4]),
        (0x0030_0000, [Clean, NoBank], [1, 2, 0xFF, 0xFF]),
    ] {
        let written = flat.step(&write(edge - 2, &[1, 2, 3, 4]));
        assert_eq!(written, Some(Outcome::Answered(Split(kinds))));
        let outcome = flat.step(&read(edge - 2, 4));
        assert_eq!(outcome, Some(Outcome::Read(Split(kinds), seen.to_vec())));
    }
}

/// LIST-6: an accepted split write comes between two flips of either of its
/// doublewords. A split read, a refused write or a write of others doesn't.
#[test]
fn splits_in_the_condition() {
    let mut record = Record::fresh();
    record.write_register(0xA0, 1).unwrap();
    record.write_register(0xF2, 8).unwrap();
    let keeps = |flipped, between: Call| {
        let flip = |bit| Call::Flip {
            address: flipped,
            bit,
        };
        lists::keeps_condition(&record, &[flip(1), between, flip(2)])
    };
    for flipped in [0x20, 0x27, 0x28, 0x2F] {
        for address in 0x21..0x28 {
            let shortest = 0x29 - address as usize;
            assert!(keeps(flipped, write(address, &vec![0; shortest])));
            assert!(keeps(flipped, write(address, &[0; 8])));
            assert!(!keeps(flipped, write(address, &[0; 9])));
            assert!(!keeps(flipped, read(address, 8)));
        }
    }
    assert!(!keeps(0x28, write(0x21, &[0; 7])));
    assert!(!keeps(0x20, write(0x2F, &[0; 2])));
    assert!(!keeps(0x28, write(0x1F, &[0; 8])));
    // Out of the span, and past the last address, which is not before 0.
    assert!(keeps(0x000F_FFF8, write(0x000F_FFFF, &[0; 2])));
    assert!(!keeps(0, write(0xFFFF_FFFF, &[0; 2])));
}
