//! FLAT-9: bursts of the flat machine, and lists with bursts.

use model::calls::{self, Call, Outcome};
use model::flat::{FlatMachine, Span};
use model::gen::{lists, Rng};
use model::map::switched_on;
use model::{Answer, Answers, Refusal};

use crate::beats;
use crate::single_calls::random_record;

/// The outcome of a call if the flat machine makes the parts of a burst as
/// single calls; a refused burst makes no calls.
fn by_parts(flat: &mut FlatMachine, call: &Call) -> Option<Outcome> {
    let (address, count) = match call {
        Call::BurstRead { address, count } => (*address, *count),
        Call::BurstWrite { address, bytes } => (*address, bytes.len()),
        _ => return flat.step(call),
    };
    Some(match (address % 8, count) {
        (1.., _) => Outcome::Refused(Refusal::Misaligned),
        (0, 32) => match call {
            Call::BurstWrite { bytes, .. } => written_by_parts(flat, address, bytes),
            _ => read_by_parts(flat, address),
        },
        (0, _) => Outcome::Refused(Refusal::NotCacheLine),
    })
}

fn read_by_parts(flat: &mut FlatMachine, address: u32) -> Outcome {
    let mut all = Vec::new();
    let answers = beats(address).map(|address| {
        let part = flat.step(&Call::Read { address, count: 8 });
        let Some(Outcome::Read(Answers::Single(answer), bytes)) = part else {
            panic!("a read of a doubleword: {part:?}");
        };
        all.extend(bytes);
        answer
    });
    Outcome::BurstRead(answers, all)
}

fn written_by_parts(flat: &mut FlatMachine, address: u32, bytes: &[u8]) -> Outcome {
    let mut parts = bytes.chunks(8);
    Outcome::BurstWritten(beats(address).map(|address| {
        let bytes = parts.next().unwrap().to_vec();
        let part = flat.step(&Call::Write { address, bytes });
        let Some(Outcome::Answered(Answers::Single(answer))) = part else {
            panic!("a write of a doubleword: {part:?}");
        };
        answer
    }))
}

/// The cells and the flat machine's own bursts, both against the flat machine
/// that makes the parts.
#[test]
fn lists_with_bursts_are_lists_of_their_parts() {
    for seed in 1000..1030 {
        println!("seed {seed}");
        let rng = &mut Rng::new(seed);
        let mut record = random_record(rng);
        let calls = lists::list(rng, &record, 1500);
        assert!(lists::keeps_condition(&record, &calls), "seed {seed}");
        let mut cells = vec![0; 9 * switched_on(&record).unwrap().cells() as usize];
        let mut flat = FlatMachine::of_record(&record).unwrap();
        let mut parts = flat.clone();
        for (place, call) in calls.iter().enumerate() {
            let expected = by_parts(&mut parts, call);
            let outcome = calls::step(&mut record, &mut cells, call);
            assert_eq!(outcome, expected, "seed {seed}, place {place}: {call:?}");
            let outcome = flat.step(call);
            assert_eq!(outcome, expected, "seed {seed}, place {place}: {call:?}");
        }
    }
}

#[test]
fn bursts_of_the_flat_machine() {
    use Answer::{Clean, Corrected, NoBank, Stored};
    use Outcome::{BurstRead, BurstWritten, Flipped, Refused};
    let burst = |address| Call::BurstRead { address, count: 32 };
    let wrong = |address, count| Call::BurstRead { address, count };
    let put = |address, bytes: &[u8]| Call::BurstWrite {
        address,
        bytes: bytes.to_vec(),
    };
    let flip = |address| Call::Flip { address, bit: 9 };
    let marked = [Clean, Clean, Corrected(9), Clean];
    let bytes: Vec<u8> = (1..=32).collect();
    let rotated = [&bytes[24..], &bytes[..24]].concat();
    let list = [
        (flip(0x2B), Flipped),
        (burst(0x38), BurstRead(marked, vec![0; 32])),
        (put(0x31, &bytes), Refused(Refusal::Misaligned)),
        (put(0x30, &bytes[1..]), Refused(Refusal::NotCacheLine)),
        (burst(0x38), BurstRead(marked, vec![0; 32])),
        (put(0x30, &bytes), BurstWritten([Stored; 4])),
        (burst(0x30), BurstRead([Clean; 4], bytes.clone())),
        (burst(0x28), BurstRead([Clean; 4], rotated)),
        (wrong(0x2F, 33), Refused(Refusal::Misaligned)),
        (wrong(0x28, 33), Refused(Refusal::NotCacheLine)),
        (put(0xFFFF_FFF8, &bytes), BurstWritten([NoBank; 4])),
        (burst(0xFFFF_FFF8), BurstRead([NoBank; 4], vec![0xFF; 32])),
        (wrong(0xFFFF_FFFF, 0), Refused(Refusal::Misaligned)),
        (wrong(0xFFFF_FFF8, 0), Refused(Refusal::NotCacheLine)),
        (burst(0), BurstRead([Clean; 4], vec![0; 32])),
    ];
    let mut flat = FlatMachine::new(vec![Span {
        start_mb: 0,
        last_mb: 0,
    }]);
    for (call, expected) in list {
        assert_eq!(flat.step(&call), Some(expected), "{call:?}");
    }
}
